#!/usr/bin/python3
"""Asks a console what a station's settings have to hold, reports what it found, and writes the settings.

    jofitrana-setup [--set-clock] [--summer] [--no-limits] [--title TEXT] [--units us|metric] [--bucket SIZE] NAME ADDRESS
    jofitrana-setup NAME DEVICE
    jofitrana-setup --adjust NAME
    jofitrana-setup --check FILE

It writes NAME.toml and NAME.env below /etc/jofitrana if they are not there, and else reports how they differ from the
console. DEVICE is a serial adapter of this machine, which it has served by a unit. What no option names is asked at a terminal.
With `--check` it just looks through a file of settings, and names the first fault with its line. Nothing in the console is changed
but its clock: with `--set-clock`, only before the first round, and with `--adjust`, only if no record is lost. Lines that begin
with `!` are troubles, each with what to do.
Statuses: 0, 1 if there is a trouble, 2 if the words are out of form.
"""
import argparse
import os
import re
import sys
from contextlib import nullcontext
from datetime import datetime, timedelta

sys.dont_write_bytecode = True  # nothing is left beside an installed script
import archives
import serial_line
import setup_clock
import station_files
import stations
from console_clock import offset_text, standard_offset
from row_gaps import PERIODS
from rows import BUCKETS as BUCKET_SIZES
from setup_clock import PERIOD

FIRST_OF_ALL = """\
First of all: switch the console's summer time off, and set its clock, before the first round. Never set it back later:
a record whose stamp is not later than the last row is lost."""

# The places of the console's memory that are read, by the Davis serial manual.
FIRST_PLACE = 0x11
ZONE, OFFSET, HAS_OFFSET, SETUP_BITS = 0x11, 0x14, 0x16, 0x2B
PLACES = PERIOD + 1 - FIRST_PLACE
BUCKET_SHIFT, BUCKET_MASK = 4, 3
BUCKETS = ('0.01in', '0.2mm', '0.1mm')  # by the number that the console has for them
HUNDREDTHS_OF_HOUR = 100
VANTAGE_PRO = 16

SHORT_FILE = 177  # bytes; a longer file is an archive, or is refused
MASK = 0o022  # the user of the rounds reads what is written here, whatever root keeps from others elsewhere

ADDRESS = re.compile(r'''[^\s"'\\$%=]+:[0-9]{1,5}''')
ZONE_RULE = re.compile(r'(<[-+0-9A-Za-z]{3,}>|[A-Za-z]{3,})[-+]?[0-9]{1,2}(:[0-9]{2}){0,2}')

ANSWERS = {
    'link fault': """nobody answers at {address}. Is ser2net, socat or the adapter running? Is the port the right one?
  Is another program connected? Most adapters take one caller at a time.""",
    'task asleep': """somebody answers at {address}, but no console wakes up behind it. Check the cable, the speed of the
  console's line (19200 baud) and the adapter. If another program uses the console, stop that program.""",
    'flood': """the console does not stop sending: another program has asked it for live packets. Stop that program, and
  wait until the packets end, or end them as DIAGNOSTICS in the manual has it: man jofitrana""",
}


def is_zone_known(name):
    """Whether this system knows the zone of a TZ, or it is a rule in itself."""
    folder = os.environ.get('TZDIR', '/usr/share/zoneinfo')
    return name in ('', 'UTC') or os.path.isfile(os.path.join(folder, name.removeprefix(':'))) or bool(ZONE_RULE.match(name))


class Report:
    """What is printed, and whether it has a trouble."""

    def __init__(self):
        self.has_trouble = False

    def found(self, text):
        """Prints what was found."""
        print(f'  {text}')

    def trouble(self, text):
        """Prints a trouble with what to do."""
        self.has_trouble = True
        print(f'! {text}')


class Station:
    """A station's name and address, its files, and the console behind it."""

    def __init__(self, chosen, report):
        self.name, self.address, self.program = chosen.name, chosen.address, chosen.program
        self.device = None
        self.settings = os.path.join(chosen.settings, f'{chosen.name}.toml')
        self.environment = os.path.join(chosen.settings, f'{chosen.name}.env')
        self.archive = os.path.join(chosen.archives, f'{chosen.name}.archive')
        self.report = report

    def ask(self, *words):
        """What the console answers to a task. Ends if it gives no answer."""
        line, status = archives.run(self.program, 'task', self.address, *words)
        if status == 0:
            return line
        self.report.trouble(ANSWERS.get(line, "the console answered '{line}' to: {words}. Try once more.").format(
            address=self.address, line=line, words=' '.join(words)))
        sys.exit(1)

    def last_stamp(self):
        """The stamp of the archive's last row, if a round was made. Ends if the archive cannot be read."""
        if not os.path.exists(self.archive) or os.path.getsize(self.archive) <= SHORT_FILE:
            return None
        count, line, status = archives.rows_of(self.program, self.archive)
        if status:
            self.report.trouble(f'{self.archive}: {line}. See DIAGNOSTICS in: man jofitrana')
            sys.exit(1)
        return datetime.strptime(' '.join(line.split(' ')[1:3]), '%Y-%m-%d %H:%M') if count else None


def look_at_kind(station, report):
    """Reports the console's kind."""
    kind = station.ask('kind')
    report.found(f'A console answers at {station.address}, of {kind}.')
    if kind != f'kind {VANTAGE_PRO}':
        report.trouble(f'A Vantage Pro or Pro2 has kind {VANTAGE_PRO}. No other console was ever tried.')


def look_at_zone(memory, report):
    """Reports the console's zone, which moves no stamp while summer time is off."""
    if memory[HAS_OFFSET]:
        hundredths = int.from_bytes(memory[OFFSET:OFFSET + 2], 'little', signed=True)
        text = f'UTC{offset_text(timedelta(hours=hundredths / HUNDREDTHS_OF_HOUR))}'
    else:
        text = f'number {memory[ZONE]} of its own list'
    report.found(f"Its zone is {text}; this machine's is UTC{offset_text(standard_offset())} without summer time.")


def look_at_bucket(memory, report):
    """Reports what a click of the rain bucket is, and gives it if it is known."""
    bucket = memory[SETUP_BITS] >> BUCKET_SHIFT & BUCKET_MASK
    if bucket < len(BUCKETS):
        report.found(f'A click of its rain bucket is {BUCKETS[bucket]}.')
        return BUCKETS[bucket]
    report.trouble("Its rain bucket is of a size that the manual does not name. Look in the console's Setup Mode, and give --bucket.")
    return None


def look_at_period(memory, report):
    """Reports the console's period, and gives it if it is one."""
    period = memory[PERIOD]
    if period in PERIODS:
        report.found(f'It keeps a record every {period} minutes.')
        return period
    report.trouble(f'Its period is {period} minutes, which is none of {", ".join(map(str, PERIODS))}. Choose another one,\n'
                   '  for example by: jofitrana task ADDRESS period 5. That empties the memory of the console.')
    return None


def adjust(chosen, report):
    """Sets the clock of a station's console right if that loses no record."""
    try:
        known = stations.read_station(chosen.name, chosen.settings, chosen.archives)
    except stations.StationFault as fault:
        report.trouble(str(fault))
        return
    if not known.address:
        report.trouble(f'{known.environment} has no ADDRESS.')
        return
    chosen.address = known.address
    setup_clock.adjust(Station(chosen, report), known, report)


def look_at_all(station, chosen, report):
    """Asks the console, reports what it found, and writes the station's files."""
    look_at_kind(station, report)
    memory = bytes(FIRST_PLACE) + bytes.fromhex(station.ask('eeprom', 'read', f'{FIRST_PLACE:X}', str(PLACES)))
    period = look_at_period(memory, report)
    bucket = look_at_bucket(memory, report)
    right = setup_clock.right_time(station, chosen, report)
    setup_clock.look_at_summer_time(station, memory, right, report)
    look_at_zone(memory, report)
    setup_clock.look_at_clock(station, chosen, memory, right, report)
    station_files.look_at_settings(station, chosen, period, report)
    station_files.look_at_environment(station, chosen, right.text(), bucket, report)


def station_name(name):
    """A name of a station, which can meet no other file."""
    trouble = stations.trouble_of_name(name)
    if trouble:
        raise argparse.ArgumentTypeError(trouble)
    return name


def console_address(address):
    """An address with its port, or a serial adapter."""
    if not ADDRESS.fullmatch(address) and not serial_line.is_device(address):
        raise argparse.ArgumentTypeError(f'{address} is no address: write a name or a number, and a port, as 192.168.1.20:22222')
    return address


def chosen_words():
    """The words of the command line."""
    words = argparse.ArgumentParser(prog='jofitrana-setup', description='Sets a station up from what its console holds.')
    words.add_argument('name', type=station_name, nargs='?', metavar='NAME', help='the name of the station, for example roof')
    words.add_argument('address', type=console_address, nargs='?', metavar='ADDRESS',
                       help='where the console is, as 192.168.1.20:22222, or its serial adapter, as /dev/serial/by-id/NAME')
    words.add_argument('--check', metavar='FILE', help='look through a file of settings, and ask no console')
    words.add_argument('--set-clock', action='store_true', help="set the console's clock, if no round was made yet")
    words.add_argument('--summer', action='store_true', help='the console keeps summer time, and an hour is lost each autumn')
    words.add_argument('--adjust', action='store_true', help="set the console's clock right, if that loses nothing")
    words.add_argument('--title', help='what pages and charts are headed')
    words.add_argument('--units', choices=stations.UNITS, help='the units of pages and charts')
    words.add_argument('--bucket', choices=BUCKET_SIZES, help='a click of the rain bucket')
    words.add_argument('--no-limits', dest='limits', action='store_false', help='write no limits into new settings')
    words.add_argument('--settings', default=stations.SETTINGS, metavar='FOLDER', help='where NAME.toml and NAME.env stand')
    words.add_argument('--archives', default=stations.ARCHIVES, metavar='FOLDER', help='where NAME.archive stands')
    words.add_argument('--program', default='jofitrana')
    chosen = words.parse_args()
    is_of_form = (chosen.check is not None, chosen.name is not None, chosen.address is not None) in (
        [(False, True, False)] if chosen.adjust else [(True, False, False), (False, True, True)])
    if not is_of_form:
        words.error('the following arguments are required: NAME, ADDRESS; or --adjust NAME; or --check FILE')
    return chosen


def set_up(chosen, report):
    """Sets a station up. Its serial adapter is served meanwhile, and from then on if the console answered."""
    station = Station(chosen, report)
    refusal = archives.refusal_of(station.archive)
    zone = os.environ.get('TZ', '')
    if not is_zone_known(zone):
        refusal = f'TZ={zone} is no time zone of this system (package tzdata)'
    if refusal:
        report.trouble(refusal)
        return
    line = nullcontext()
    if serial_line.is_device(chosen.address):
        station.device = serial_line.checked(chosen.address)
        station.address = serial_line.address_of(station.name, station.device, chosen.settings)
        line = serial_line.served(station.device, station.address)
    with line:
        look_at_all(station, chosen, report)
    if station.device:
        serial_line.start_unit(station.name, report)


def last_words(chosen, report):
    """What is to be done next."""
    if report.has_trouble:
        return 'See to each line with ! above, and run this again.'
    return f'Now make the first round, by: sudo systemctl enable --now jofitrana@{chosen.name}.timer'


def main():
    chosen = chosen_words()
    report = Report()
    os.umask(MASK)
    try:
        if chosen.check is not None:
            station_files.check_settings(chosen.check, chosen.program, report)
            sys.exit(report.has_trouble)
        if chosen.adjust:
            adjust(chosen, report)
            sys.exit(report.has_trouble)
        print(FIRST_OF_ALL)
        set_up(chosen, report)
    except serial_line.NoLine as reason:
        report.trouble(str(reason))
    except OSError as fault:
        report.trouble(f'{fault.filename}: {fault.strerror}. Below /etc it takes sudo.')
    print(last_words(chosen, report))
    sys.exit(report.has_trouble)


if __name__ == '__main__':
    main()
