"""What setup finds of a console's clock, of its summer time and of the records in its memory."""
import os
from datetime import datetime, timedelta
from zoneinfo import ZoneInfo

import console_clock
from console_clock import MINUTE_STAMP, RightTime, words_of_time
from console_findings import forget
from row_gaps import PERIODS
from stations import StationFault, read_keys
from summer_time import next_twice
from zones import NoZone, zone_named

CLOCK_SECONDS = 60  # so far two clocks may differ
SHORTEST_PERIOD = PERIODS[0]
YEAR = timedelta(days=366)
ZONES = '/zoneinfo/'

# Places of the console's memory, by the Davis serial manual.
SUMMER_BY_HAND, SUMMER_ON, PERIOD = 0x12, 0x13, 0x2D


def zone_name():
    """The name of this machine's zone, as Europe/Berlin; nothing if it has none."""
    name = os.environ.get('TZ', '').removeprefix(':') or os.path.realpath('/etc/localtime').partition(ZONES)[2]
    try:
        ZoneInfo(name)
        return name
    except (ValueError, OSError, LookupError):
        return None


def kept_zone(environment):
    """The zone of a station whose console keeps summer time, as an earlier run with `--summer` has written it."""
    try:
        zone = zone_named(read_keys(environment).get('TZ', ''))
    except (StationFault, NoZone):
        return None
    return zone if next_twice(zone, datetime.now(zone).replace(tzinfo=None), YEAR) else None


def right_time(station, chosen, report):
    """What the console's clock has to show: time without summer time, or that of a zone for `--summer`."""
    kept = kept_zone(station.environment)
    if kept or not chosen.summer:
        return RightTime(kept)
    name = zone_name()
    if name is None:
        report.trouble("This machine's zone has no name, which --summer needs: set TZ, for example to Europe/Berlin.")
        return RightTime()
    return RightTime(zone_named(name))


def emptying(station, memory):
    """How the console's memory is emptied, in words."""
    return f'jofitrana task {station.address} period {memory[PERIOD]}\n  That deletes its records.'


def look_at_summer_time(station, memory, right, report):
    """Reports whether the console's clock changes for summer time, and whether it may."""
    where = "in the console's Setup Mode, at DAYLIGHT SAVINGS,"
    if right.zone:
        look_at_kept_summer_time(memory, right, report)
    elif not memory[SUMMER_BY_HAND]:
        report.trouble('Summer time comes and goes by itself, and an hour of records is lost each autumn:\n'
                       f'  {where} choose MANUAL and OFF before the first round.\n'
                       '  If its clock goes back by that, run this again: its memory may have records ahead of the clock.')
    elif memory[SUMMER_ON]:
        report.trouble(f'Summer time is switched on: {where} choose OFF before the first round.\n'
                       '  If its clock goes back by that, run this again: its memory may have records ahead of the clock.\n'
                       '  After a round leave it on for good, since to switch it off loses an hour of records.')
    else:
        report.found('Its summer time is off, as it has to be.')


def look_at_kept_summer_time(memory, right, report):
    """Reports the summer time of a console that is to keep it."""
    if memory[SUMMER_BY_HAND]:
        report.trouble(f'The zone {right.zone.key} has summer time, and that of the console does not come by itself:\n'
                       '  choose AUTO there, or change TZ in the file of the station to a zone without summer time.')
        return
    report.found(f'Its summer time comes and goes by itself, as in {right.zone.key}.')
    twice = next_twice(right.zone, right.now(), YEAR)
    if twice:
        report.found(f'{twice.text()} will come twice, and its second time will be lost.')


def look_at_records(station, memory, clock, last, report):
    """Reports records that are ahead of the console's clock, which block those that it makes now."""
    if clock.newest.why_not:
        report.trouble(f'Its records could not be read: {clock.newest.why_not}.\n'
                       '  So it is not known whether one is ahead of its clock.')
    elif last and clock.shown < last:
        report.trouble(f'Its clock shows {clock.shown}, before the last row of {last:{MINUTE_STAMP}}: it was set back.\n'
                       '  No record is added until it has passed that row. Set it forward if it is wrong.')
    elif clock.has_gone_back():
        span = words_of_time(clock.newest.stamp - clock.shown)
        report.trouble(f'Its memory has records up to {clock.newest.stamp:{MINUTE_STAMP}}, {span} ahead of its clock,\n'
                       '  which has gone back. With them in an archive, the records until its clock has passed that are lost. To lose those in its\n'
                       f'  memory instead, empty it before the next round, by: {emptying(station, memory)}')


def look_at_difference(station, clock, period, last, right, report):
    """Reports how far the console's clock is from the right time, and what to do."""
    if abs(clock.ahead.total_seconds()) <= CLOCK_SECONDS:
        report.found(f"Its clock shows {clock.shown}, as this machine's does{right.within()}.")
        return
    way = 'ahead of' if clock.ahead > timedelta() else 'behind'
    adjusting = f'jofitrana-setup --adjust {station.name}'
    if last is None:
        advice = f'Set it before the first round, by: jofitrana-setup --set-clock {station.name} {station.address}'
    elif clock.ahead >= timedelta(minutes=period):
        advice = 'Leave it as it is: to set it back would lose the records of that time.'
    elif clock.ahead > timedelta():
        advice = f'Set it back to a time behind its last record, which loses nothing: {adjusting}'
    elif clock.newest.why_not:
        advice = f'Set it forward: {adjusting}. Whether it went back before, which loses records, is not known.'
    elif clock.has_gone_back():
        advice = f'What it has recorded since it went back is lost, and so is all until you set it forward: {adjusting}'
    else:
        advice = f'To set it forward loses nothing: {adjusting}'
    report.trouble(f'Its clock shows {clock.shown}, {words_of_time(clock.ahead)} {way} {right.words()}.\n  {advice}')


def set_clock_if_wanted(station, chosen, right, last, report):
    """Sets the console's clock if that is wanted and no round was made."""
    if not chosen.set_clock:
        return
    if last is not None:
        report.trouble(f'Its clock is not set: {station.archive} has rows, and a clock that goes back loses records.')
        return
    shown = console_clock.clock_of(station)
    console_clock.set_clock(station, right)
    report.found(f'Its clock showed {shown}, and was set to {right.words()}.')


def look_at_clock(station, chosen, memory, right, report):
    """Reports the console's clock and records, and sets the clock if that is wanted and loses nothing."""
    last, period = station.last_stamp(), memory[PERIOD] if memory[PERIOD] in PERIODS else SHORTEST_PERIOD
    set_clock_if_wanted(station, chosen, right, last, report)
    if last is None:
        report.found('Its records are looked through, which may take more than a minute if its memory is full.')
    clock = console_clock.look(station, right, period)
    look_at_records(station, memory, clock, last, report)
    look_at_difference(station, clock, period, last, right, report)


def adjust(station, known, report):
    """Sets the clock of a station's console right if that loses no record."""
    period = int(station.ask('eeprom', 'read', f'{PERIOD:X}', '1'), 16)
    console_clock.adjust(station, RightTime(known.zone), period, report)
    forget(known.archive)
