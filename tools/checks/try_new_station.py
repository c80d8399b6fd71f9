#!/usr/bin/python3
"""Tries what setup writes of a new station: its own settings, its limits, its serial line; and how it looks through settings.

    tools/checks/try_new_station.py PROGRAM

A script answers for the console but for one case. The weather of the limits is of the World Meteorological Organization. The last
line is 'N passed, M failed', and the status is 1 if any failed.
"""
import os
import pty
import re
import select
import socket
import subprocess
import sys
import tomllib
from contextlib import contextmanager
from pathlib import Path

sys.dont_write_bytecode = True  # nothing is left beside the scripts

import rooms  # first: the imports below are of other rooms too
from rows import FIELDS
from run_unit import Unit, words_of
from trying import LONGEST, NAP, SLEEPER, Differs, await_that, hold, need, try_all

TOOLS = Path(__file__).resolve().parent.parent
UNIT = TOOLS.parent / 'systemd/jofitrana-line@.service'
GOOD, TROUBLE, USAGE = 0, 1, 2
MEMORY_BYTES, FIRST_PLACE, SUMMER_BY_HAND, SETUP_BITS, PERIOD = 29, 0x11, 0x12, 0x2B, 0x2D

# A program that answers setup as a console without records does, and leaves all else to the program itself.
ANSWERING = """\
#!/bin/sh
case "$1 $3" in
    'task kind') echo 'kind 16' ;;
    'task time') date -u '+time %F %T' ;;
    'task eeprom') cat memory ;;
    'station '*) ;;
    'report rows') ;;
    *) exec {} "$@" ;;
esac
"""
SYSTEMCTL = '#!/bin/sh\necho "$*" >>noted\n'

# What a console's bucket makes of a new station's settings, by its number in the console's memory.
BUCKETS = {0: ('0.01in', 'us'), 1: ('0.2mm', 'metric'), 2: ('0.1mm', 'metric')}

# Weather that was measured, as a console counts it, by field: the limits have to keep it. Sources: the archive of weather
# extremes of the WMO (134.1 and -128.6 F; 870.0 and 1089.4 hPa; 253 mph), its manual on probable maximum precipitation
# (483 mm in 130 minutes, by each bucket, and 38 mm in a minute as a rate), and the sun of the Andes (1,832 W/m2, UV index 25).
MEASURED = {'outTemp': (1341, -1286), 'highOutTemp': (1341,), 'lowOutTemp': (-1286,), 'barometer': (25691, 32170), 'windSpeed': (215,),
            'windGust': (253,), 'rain': (0, 1902, 2415, 4830), 'highRainRate': (8976, 11400, 22800), 'outHumidity': (0, 100),
            'radiation': (1832,), 'UV': (250,), 'windDir': (0, 15), 'inTemp': (-100, 1200)}
# What a broken sensor or a damaged value shows: the limits have to take it away.
BROKEN = {'outTemp': (1999, 1501, -1301), 'highOutTemp': (1999,), 'lowOutTemp': (-1999,), 'barometer': (15999, 32501), 'windGust': (254,),
          'rain': (5081,), 'highRainRate': (24385,), 'outHumidity': (101, 254), 'inHumidity': (101,), 'radiation': (2001,),
          'windDir': (16,), 'inTemp': (1999, -401), 'extraTemp1': (151,), 'soilMoist1': (201,), 'leafWet1': (16,)}
# StdQC of WeeWX 5 in the same units. No limit may be narrower.
WEEWX = {'barometer': (26_000, 32_500), 'outTemp': (-400, 1200), 'inTemp': (100, 1200), 'outHumidity': (0, 100),
         'inHumidity': (0, 100), 'windSpeed': (0, 120), 'rain': (0, 1_000)}

# Settings with a fault, and what names it: the line, the key, and what it may have been meant for.
FAULTS = {
    'period = 5\n\n[calibration.outtemp]\nadd = 1\n': "line 3: the key 'outtemp' is not known: did you mean 'outTemp'?",
    'perod = 5\n': "line 1: the key 'perod' is not known: did you mean 'period'?",
    '[calibration.outTemp]\n# a comment\nadd = 1\noffset = 2\n': "line 4: the key 'offset' is not known: known are num, den, add",
    '[limits]\nrain = { least = 0, max = 1 }\n': "line 2: the key 'max' is not known: known are least, greatest",
    '[[change]]\nfrom = "2024-07-01 00:10"\n[[change]]\nfrom = "2024-08-01 00:10"\n[change.limits.UVindex]\nleast = 0\n':
        "line 5: the key 'UVindex' is not known: no field has this name",
    '[calibration.outTemp]\nadd = 1.5\n': "line 2: the value of 'add' is none that it may have",
    '[limits.outTemp]\nleast = 3\ngreatest = 2\n': "'least' of outTemp is above its 'greatest'",
    'period = 7\n': "line 1: 'period' is none that a console can keep",
    '[[change]]\nfrom = "2024-07-01 00:10"\n[[change]]\nfrom = "2024-06-01 00:10"\n':
        "line 4: 'from' of this change is not a later stamp than the change before it",
    'period = \n': 'line 1',
}


def memory(**places):
    """The bytes of a console's memory that setup reads, with summer time off and a period of five minutes."""
    data = bytearray(MEMORY_BYTES)
    for place, value in ({SUMMER_BY_HAND: 1, PERIOD: 5} | {int(name[1:], 16): value for name, value in places.items()}).items():
        data[place - FIRST_PLACE] = value
    return data.hex()


def prepare(program, bucket=0):
    """Has a console answer that has a rain bucket of this number."""
    program.write('answering', ANSWERING.format(program.path))
    (program.folder / 'answering').chmod(0o755)
    program.write('memory', memory(x2B=bucket << 4))


def words(*options, address='there:1'):
    """The words of setup for the station roof."""
    return [TOOLS / 'product/setup.py', '--program', './answering', '--settings', 'etc', '--archives', 'var', *options, 'roof', address]


def set_up(program, *options, env=None, **named):
    """Runs setup; gives its status and what it printed."""
    ran = subprocess.run(words(*options, **named), cwd=program.folder, stdin=subprocess.DEVNULL, stdout=subprocess.PIPE,
                         stderr=subprocess.STDOUT, text=True, env=os.environ | {'TZ': 'UTC'} | (env or {}), check=False)
    return ran.returncode, ran.stdout


def environment(program):
    """What NAME.env has, as keys with values."""
    return dict(line.split('=', 1) for line in program.read('etc/roof.env').decode().splitlines())


def start_anew(program):
    """Takes away what setup wrote."""
    for name in ('toml', 'env'):
        (program.folder / f'etc/roof.{name}').unlink(missing_ok=True)


def settings_of_a_new_station(program):
    """Address, zone, title, units and bucket are written once, by the console's bucket or by options."""
    for number, (bucket, units) in BUCKETS.items():
        prepare(program, number)
        start_anew(program)
        hold(f'a setup of {bucket}', set_up(program)[0], GOOD)
        hold(f'a station of {bucket}', environment(program),
             {'ADDRESS': 'there:1', 'TZ': '<+00>-00', 'TITLE': 'roof', 'UNITS': units, 'BUCKET': bucket})
    start_anew(program)
    set_up(program, '--title', ' Roof, "Bern"', '--units', 'us', '--bucket', '0.2mm')
    hold('a station by options', {key: environment(program)[key] for key in ('TITLE', 'UNITS', 'BUCKET')},
         {'TITLE': '" Roof, \\"Bern\\""', 'UNITS': 'us', 'BUCKET': '0.2mm'})
    start_anew(program)
    prepare(program, 3)
    hold('a bucket that is not named', set_up(program)[0], TROUBLE)
    hold('a station without a bucket', 'BUCKET' in environment(program), False)


def answers_at_a_terminal(program):
    """At a terminal setup asks for title, bucket and units, with a default for each, and again where an answer is none."""
    prepare(program, 1)
    observer, terminal = pty.openpty()
    with subprocess.Popen(words(), cwd=program.folder, stdin=terminal, stdout=terminal, stderr=terminal,
                          env=os.environ | {'TZ': 'UTC'}) as process:
        os.close(terminal)
        printed = ''
        for question, answer in (('Title of the station? [roof] ', 'Roof, Bern'), ('bucket? [0.2mm] ', ''),
                                 ('us or metric? [metric] ', 'si'), ('us or metric? [metric] ', 'us')):
            printed = await_text(observer, question)
            os.write(observer, f'{answer}\n'.encode())
        printed += await_text(observer, 'Now make')
        hold('its status', process.wait(LONGEST), GOOD)
    os.close(observer)
    hold('an answer that is none', 'si is none of us, metric.' in printed, True)
    hold('the answers', environment(program),
         {'ADDRESS': 'there:1', 'TZ': '<+00>-00', 'TITLE': 'Roof, Bern', 'UNITS': 'us', 'BUCKET': '0.2mm'})


def await_text(observer, wanted):
    """What a terminal shows until some text has come."""
    shown, began = '', SLEEPER.now()
    while wanted not in shown:
        if began.is_over(LONGEST):
            raise Differs(f'{wanted!r} does not come, but {shown!r}')
        if select.select([observer], [], [], NAP)[0]:
            shown += os.read(observer, 4096).decode()
    return shown


def settings_that_are_kept(program):
    """Settings that are there are kept. What differs from the console is named, with what to write."""
    prepare(program, 2)
    set_up(program)
    kept = program.read('etc/roof.env')
    hold('a second setup', set_up(program)[0], GOOD)
    hold('the settings behind it', program.read('etc/roof.env'), kept)
    prepare(program, 1)
    status, printed = set_up(program)
    wanted = ('! etc/roof.env has 0.1mm for a click of rain, and the console has 0.2mm. If the bucket was changed,\n'
              '  keep BUCKET=0.1mm, and add the day of the change: BUCKET_FROM=YYYY-MM-DD 0.2mm\n')
    hold('another bucket', (status, wanted in printed), (TROUBLE, True))
    program.write('etc/roof.env', kept + b'BUCKET_FROM=2024-07-01 0.2mm\n')
    hold('a bucket that was changed', set_up(program)[0], GOOD)
    program.write('etc/roof.env', kept + b'BUCKET_FROM=2124-07-01 0.2mm\n')
    hold('a bucket that will be changed', set_up(program)[0], TROUBLE)
    program.write('etc/roof.env', 'ADDRESS=there:1\nTZ=<+00>-00\n')
    status, printed = set_up(program)
    hold('no bucket', (status, '! etc/roof.env has no BUCKET: add the line BUCKET=0.2mm\n' in printed), (TROUBLE, True))
    program.write('etc/roof.env', 'ADDRESS=there:1\nTZ=<+00>-00\nBUCKET=0.2mm\nTITLE="x\n')
    hold('settings out of form', 'etc/roof.env line 4: a quote of TITLE is not closed' in set_up(program)[1], True)


def rows_with(program, settings, values):
    """What is left of values of a field, each in a record of its own, under some settings."""
    lines = [f'due 2024-07-01 {5 * number // 60:02}:{5 * number % 60:02} {name}={value}'
             for number, (name, value) in enumerate(values, 1)]
    program.write('weather.schedule', '\n'.join(['due 2024-06-30 00:05', *lines, 'round']) + '\n')
    ran = program.run(f'replay {settings} weather.schedule')
    hold('the replay', ran.status, GOOD)
    rows = [line for line in ran.printed.splitlines() if line.startswith('row 2024-07-01')]
    found = [dict(pair.split('=') for pair in row.split(' ')[4:]) for row in rows]
    return [row.get(name, '(missing)') for (name, _), row in zip(values, found)]


def limits_of_all_fields(program):
    """New settings have limits for each field, which the program takes, and none of which is narrower than WeeWX's."""
    prepare(program)
    set_up(program)
    settings = tomllib.loads(program.read('etc/roof.toml').decode())
    hold('the fields', sorted(settings['limits']), sorted(FIELDS))
    for name, (least, greatest) in WEEWX.items():
        own = settings['limits'][name]
        hold(f'limits of {name} {own} as wide as {least} to {greatest}', own['least'] <= least and own['greatest'] >= greatest, True)
    start_anew(program)
    set_up(program, '--no-limits')
    hold('no limits', program.read('etc/roof.toml'), b'period = 5\n')


def weather_within_limits(program):
    """The limits keep all weather that was ever measured, and take away what a broken sensor shows."""
    prepare(program)
    set_up(program)
    for what, table in (('kept', MEASURED), ('limit', BROKEN)):
        values = [(name, value) for name, several in table.items() for value in several]
        wanted = [(name, str(value) if what == 'kept' else what) for name, value in values]
        found = rows_with(program, 'etc/roof.toml', values)
        hold(what, [(name, left) for (name, _), left in zip(values, found)], wanted)


def faults_of_settings(program):
    """The first fault of settings is named with its line, and settings without a fault are good."""
    check = [TOOLS / 'product/setup.py', '--program', program.path, '--check', 'roof.toml']
    for text, wanted in FAULTS.items():
        program.write('roof.toml', text)
        ran = subprocess.run(check, cwd=program.folder, capture_output=True, text=True, check=False)
        hold(f'{text!r}: {ran.stdout + ran.stderr}', (ran.returncode, wanted in ran.stdout), (TROUBLE, True))
    for text in ('', 'period = 10\n[limits]\nrain = { least = 0 }\n'):
        program.write('roof.toml', text)
        ran = subprocess.run(check, cwd=program.folder, capture_output=True, text=True, check=False)
        hold(repr(text), (ran.returncode, ran.stdout), (GOOD, '  roof.toml has no fault.\n'))
    hold('a check beside a station', subprocess.run([*check, 'roof', 'there:1'], cwd=program.folder, capture_output=True,
                                                    check=False).returncode, USAGE)


@contextmanager
def running(what, *command, cwd, **options):
    """A command that runs until the case ends."""
    with subprocess.Popen(command, cwd=cwd, stdout=subprocess.DEVNULL, stderr=subprocess.DEVNULL, **options) as process:
        try:
            yield process
        finally:
            process.terminate()


def listens(port):
    """Whether somebody listens at a port. It does not call there, since a console takes one caller."""
    return f':{port:04X} 00000000:0000 0A' in Path('/proc/net/tcp').read_text(encoding='ascii')


def free_port():
    """A port that nobody has."""
    with socket.socket() as door:
        door.bind(('127.0.0.1', 0))
        return door.getsockname()[1]


def console_on_a_serial_line(program):
    """An adapter in place of an address is served at a port: for setup by itself, and then by the unit."""
    need('socat', '-V')
    prepare(program)
    (program.folder / 'commands').mkdir()
    program.write('commands/systemctl', SYSTEMCTL)
    (program.folder / 'commands/systemctl').chmod(0o755)
    (program.folder / 'etc').mkdir()
    program.write('etc/barn.env', 'ADDRESS=127.0.0.1:22222\nDEVICE=/dev/ttyUSB7\n')
    device, port = str(program.folder / 'adapter'), free_port()
    with running('console', TOOLS / 'checks/fake_console.py', str(port), cwd=program.folder):
        await_that('the console does not come', lambda: listens(port), LONGEST)
        with running('adapter', 'socat', f'PTY,link={device},rawer', f'TCP:127.0.0.1:{port},nodelay', cwd=program.folder):
            await_that('the adapter does not come', lambda: os.path.exists(device), LONGEST)
            path = f'{program.folder}/commands:{os.environ["PATH"]}'
            status, printed = set_up(program, '--program', program.path, address=device, env={'PATH': path})
            hold(f'a setup: {printed}', status, GOOD)
            own = environment(program)
            hold('its adapter', own['DEVICE'], device)
            hold('its address', (re.fullmatch(r'127\.0\.0\.1:\d+', own['ADDRESS']) is not None, own['ADDRESS'] != '127.0.0.1:22222'),
                 (True, True))
            hold('its unit', program.read('noted'), b'enable --now jofitrana-line@roof.service\n')
            line_of_the_unit(program, own)


def line_of_the_unit(program, own):
    """The unit's command serves the adapter at the station's address, and has not failed if it is stopped."""
    unit = Unit(UNIT, 'roof')
    command, = unit.all('ExecStart')
    with running('line', *words_of(command, own), cwd=program.folder, env=os.environ | own) as line:
        await_that('the line does not come', lambda: listens(int(own['ADDRESS'].split(':')[1])), LONGEST)
        await_that('the console behind it does not say its kind',
                   lambda: program.run(f'task {own["ADDRESS"]} kind') == (GOOD, 'kind 16\n'), LONGEST)
        line.terminate()
        hold('its status', str(line.wait(LONGEST)), unit.last('SuccessExitStatus', '0'))


def adapters_that_are_none(program):
    """A device that is no adapter is refused, and nothing is written."""
    prepare(program)
    for device, wanted in (('/etc/passwd', 'is no serial adapter'), ('/dev/nowhere', 'is no serial adapter')):
        status, printed = set_up(program, address=device)
        hold(device, (status, wanted in printed), (TROUBLE, True))
    link = program.folder / 'a:b'
    link.symlink_to('/dev/null')
    hold('a colon', 'has a colon, a comma or a blank' in set_up(program, address=str(link))[1], True)
    hold('what is written', (program.folder / 'etc').exists(), False)


CASES = (settings_of_a_new_station, answers_at_a_terminal, settings_that_are_kept, limits_of_all_fields, weather_within_limits,
         faults_of_settings, console_on_a_serial_line, adapters_that_are_none)

if __name__ == '__main__':
    sys.exit(try_all(sys.argv, __doc__, CASES, 4))
