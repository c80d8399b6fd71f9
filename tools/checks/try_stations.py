#!/usr/bin/python3
"""Tries what the tools take of a station's own settings: its zone, units, title, rain bucket and changes of that.

    tools/checks/try_stations.py PROGRAM

The rain was worked out by hand. A script of the model is in the program's place where an archive of chosen rows is wanted. The last
line is 'N passed, M failed', and the status is 1 if any failed.
"""
import json
import os
import re
import socket
import struct
import subprocess
import sys
import tempfile
import time
from contextlib import contextmanager
from datetime import date, datetime, timedelta, timezone
from pathlib import Path

sys.dont_write_bytecode = True  # nothing is left beside the scripts

import rooms  # first: the imports below are of other rooms too
import stations
from model.archive import CLOSED_GATE, THIS_VERSION, head_slot, sealed_batch, slots_to_add
from model.records import NAMES
from model.rows import Row, row_line
from model.stamps import stamp_of_texts
from sql_server import Server, newest
from stand_in import write_archive
from trying import LONGEST, NAP, SLEEPER, LeftOut, Missed, hold, try_all
from zones import zone_named

TOOLS = Path(__file__).resolve().parent.parent
STAND_IN = TOOLS / 'checks/stand_in.py'
FAR_ZONE = 'America/New_York'  # of this machine, so that its own zone is never right by chance
GOOD, TROUBLE, USAGE = 0, 1, 2
ZONE_OF_A_COMMAND = re.compile(r"""(?:--zone |-zone |TZ=)["']?((?:[A-Z][A-Za-z]*/|<)[A-Za-z0-9<>+/:_-]+)""")
LEAST_ZONES = 10
COMMAND_OF_ROWS = re.compile(r'^.*(?:jofitrana-(?:chart|export) \S.*\.(?:png|svg|csv)|jofitrana-page .*\.archive .*)$', re.MULTILINE)
NAMES_BUCKET = re.compile('--station |--bucket ')
SIMULATED = 'week.'  # in the names of files of the simulated week, whose console has the bucket that is taken otherwise
LEAST_COMMANDS = 10
PACKET_SECONDS = '8'  # in which a console sends at least one

ROOF = """\
ADDRESS=127.0.0.1:1
TZ=<+01>-1
TITLE=Roof, Bern
UNITS=metric
BUCKET=0.01in
BUCKET_FROM=2025-06-15 0.2mm, 2025-08-01 0.1mm
"""

# Clicks by stamps. In mm they are 2.54 in May; 5.08 and 1.524 on 14 June, and 6 on 15 June; 10 in July; 5 on 1 August.
CLICKS = {'2025-05-31 12:00': 10, '2025-06-14 12:00': 20, '2025-06-15 00:00': 6, '2025-06-15 00:05': 30,
          '2025-07-31 12:00': 40, '2025-08-01 00:00': 10, '2025-08-01 00:05': 50}
INCHES = ['0.1', '0.2', '0.06', '0.23622', '0.314961', '0.07874', '0.19685']
MONTHS = {'May': '2.5', 'June': '12.6', 'July': '10.0', 'August': '5.0', 'Year': '30.1'}
DAYS = {'climate-2025-06': {'14': '6.6', '15': '6.0', 'Month': '12.6'}, 'climate-2025-07': {'31': '10.0', 'Month': '10.0'}}

# What NAME.env has, and what a tool takes of it.
FORMS = {
    'TITLE=Roof, Bern  ': ('title', 'Roof, Bern'),
    'TITLE="Roof, \\"Bern\\""': ('title', 'Roof, "Bern"'),
    "TITLE='a  b' \"c\"": ('title', 'a  bc'),
    'TITLE=a "b" c': ('title', 'a "b" c'),
    'TITLE=': ('title', 'roof'),
    '# TITLE=x\n; TITLE=y\n\n \tTITLE=z': ('title', 'z'),
    '# a comment \\\nTITLE=x': ('title', 'roof'),
    'ALERT=mail -s "Weather" \\\n me': ('alert', 'mail -s "Weather"  me'),
    'ALERT=a\\\\b': ('alert', 'a\\b'),
    'UNITS=metric': ('units', 'metric'),
    'OTHER=1': ('units', 'us'),
    'BUCKET=0.1mm': ('bucket_changes', ()),
    'BUCKET=0.1mm\nBUCKET_FROM=2025-06-01 0.2mm,2026-01-01 0.01in':
        ('bucket_changes', ((date(2025, 6, 1), '0.2mm'), (date(2026, 1, 1), '0.01in'))),
}

# What NAME.env may not have, and a part of the line that refuses it.
FAULTS = {
    'TITLE="Roof': 'roof.env line 1: a quote of TITLE is not closed',
    "TITLE=x\nUNITS='us": 'roof.env line 2: a quote of UNITS is not closed',
    'TITLE': 'roof.env line 1: this is no KEY=VALUE',
    'TZ=UTC\n\nTZ=<+01>-1': 'roof.env line 3: TZ stands twice: keep one line',
    'TZ=Mars/Base': 'roof.env: Mars/Base is no time zone',
    'TZ=<+01>-1x': 'roof.env: <+01>-1x is no time zone',
    'UNITS=si': 'roof.env: UNITS=si is none of us, metric',
    'BUCKET=1in': 'roof.env: BUCKET=1in is none of 0.01in, 0.2mm, 0.1mm',
    'BUCKET=0.2mm\nBUCKET_FROM=2025-02-30 0.2mm': 'BUCKET_FROM=2025-02-30 0.2mm is not a day and a bucket',
    'BUCKET=0.2mm\nBUCKET_FROM=2025-02-03 2mm': 'BUCKET_FROM=2025-02-03 2mm is not a day and a bucket',
    'BUCKET=0.2mm\nBUCKET_FROM=2025-02-03 0.2mm, 2025-02-03 0.1mm': 'is not in order of time',
    'BUCKET_FROM=2025-02-03 0.2mm': 'BUCKET_FROM stands without BUCKET',
}


def write_environment(program, text=ROOF, name='roof'):
    """Writes a station's own settings."""
    (program.folder / 'etc').mkdir(exist_ok=True)
    program.write(f'etc/{name}.env', text)


def write_rows(program, rows, name='roof'):
    """Writes the archive of a station, for the script in the program's place."""
    (program.folder / 'var').mkdir(exist_ok=True)
    write_archive(program.folder / f'var/{name}.archive', rows)


def row_of(stamp, **values):
    """A row of five minutes with these values."""
    return Row(stamp_of_texts(*stamp.split()), 5, tuple(map(values.get, NAMES)), frozenset())


def rainy_rows():
    """The rows of the clicks."""
    return [row_of(stamp, outTemp=600, rain=clicks) for stamp, clicks in CLICKS.items()]


def run(program, tool, *words, zone=FAR_ZONE, text=None):
    """Runs a tool for the station roof; gives status, output and what was printed of trouble."""
    options = ['--settings', 'etc', '--archives', 'var', '--program', STAND_IN]
    ran = subprocess.run([TOOLS / 'product' / tool, *options, *words], cwd=program.folder, input=text, capture_output=True, text=True,
                         env=os.environ | {'TZ': zone}, check=False)
    return ran.returncode, ran.stdout, ran.stderr


def need_module(name):
    """Leaves a case out if a library is missing."""
    if subprocess.run(['/usr/bin/python3', '-c', f'import {name}'], capture_output=True, check=False).returncode:
        raise LeftOut(f'python3-{name} is missing')


def forms_of_settings(program):
    """Quotes, backslashes and comments are read as systemd reads them, and what is left out has its default."""
    for text, (key, wanted) in FORMS.items():
        write_environment(program, text)
        found = stations.read_station('roof', program.folder / 'etc', program.folder / 'var')
        hold(repr(text), getattr(found, key), wanted)


def settings_out_of_form(program):
    """A tool refuses settings that are out of form, missing or not to be read, by one line that names file and fault."""
    write_rows(program, rainy_rows())
    words = ['export.py', '--station', 'roof', '--days', '2025-01-01', '2025-12-31', 'table.csv']
    for text, wanted in FAULTS.items():
        write_environment(program, text)
        status, _, trouble = run(program, *words)
        hold(f'{text!r}: {trouble}', (status, trouble.count('\n'), wanted in trouble), (TROUBLE, 1, True))
    (program.folder / 'etc/roof.env').write_bytes(b'TITLE=\xff\n')
    hold('other bytes', run(program, *words), (TROUBLE, '', 'export: etc/roof.env is no text in UTF-8\n'))
    (program.folder / 'etc/roof.env').unlink()
    hold('no file', run(program, *words), (TROUBLE, '', 'export: etc/roof.env: No such file or directory\n'))
    hold('another name', 'a/b is no name of a station' in run(program, 'export.py', '--station', 'a/b', *words[3:])[2], True)
    hold('no table', (program.folder / 'table.csv').exists(), False)


def column(program, name, head):
    """The cells of a column of a table, by the first column."""
    heads, *lines = [line.split(',') for line in program.read(name).decode().splitlines()]
    return {line[0]: line[heads.index(head)] for line in lines}


def rain_of_a_table(program):
    """The export counts each row's clicks by the bucket of its day, and the row of midnight is of the day before."""
    write_environment(program)
    write_rows(program, rainy_rows())
    hold('an export', run(program, 'export.py', '--station', 'roof', '--days', '2025-01-01', '2025-12-31', 'table.csv'),
         (GOOD, '', ''))
    hold('the rain', column(program, 'table.csv', 'rain (inch)'), dict(zip(CLICKS, INCHES)))
    lines = ''.join(line.partition('\t')[2] for line in (program.folder / 'var/roof.archive/rows').open())
    hold('an export of the input', run(program, 'export.py', '--station', 'roof', 'other.csv', text=lines), (GOOD, '', ''))
    hold('its table', program.read('other.csv'), program.read('table.csv'))
    status = run(program, 'export.py', '--station', 'roof', '--bucket', '0.01in', 'third.csv', text=lines)
    hold('another bucket by an option', (status[0], column(program, 'third.csv', 'rain (inch)')['2025-06-15 00:05']), (GOOD, '0.3'))


def rain_of_a_page(program):
    """The climate tables of days, months and the year have each day's rain by its bucket, in mm, and so has the page."""
    need_module('jinja2')
    need_module('matplotlib')
    write_environment(program)
    write_rows(program, rainy_rows())
    hold('a page', run(program, 'page.py', '--station', 'roof')[::2], (GOOD, ''))
    program.folder = program.folder / 'var/roof.page'
    hold('the year', column(program, 'climate-2025.csv', 'Rain (mm)'), MONTHS)
    for name, wanted in DAYS.items():
        rain = column(program, f'{name}.csv', 'Rain (mm)')
        hold(name, {title: rain[title] for title in wanted}, wanted)
    page = program.read('index.html').decode()
    shown = re.sub(r'(<[^>]*>|\s)+', ' ', page)
    hold('its title', 'Roof, Bern' in shown, True)
    hold('its rain', re.findall(r'(1 August|August|2025, since 31 May) ([0-9.]+) ', shown),
         [('1 August', '5.0'), ('August', '5.0'), ('2025, since 31 May', '30.1')])
    hold('the rain of day, week, month and year', re.findall(r'([0-9.]+ \w+) of rain', page), ['15.0 mm'] * 3 + ['30.1 mm'])


def rain_of_a_chart(program):
    """A chart has the units, the title and each row's rain by the bucket of its day."""
    need_module('matplotlib')
    write_environment(program)
    write_rows(program, rainy_rows())
    days = ['--days', '2025-05-01', '2025-08-31']
    hold('a chart', run(program, 'chart.py', '--station', 'roof', *days, 'rain.svg'), (GOOD, '', ''))
    svg = program.read('rain.svg').decode()
    hold('its title and units', [svg.count(f'<!-- {text} -->') for text in ('Roof, Bern', 'mm', '°C', 'in')], [1, 1, 1, 0])
    script = """import chart, chosen_rows, stations, sys
from types import SimpleNamespace
from datetime import date
station = stations.read_station('roof', 'etc', 'var')
chosen = SimpleNamespace(bucket=None, days=(date(2025, 5, 1), date(2025, 8, 31)), program=sys.argv[1])
bars = chart.Picture(chosen_rows.rows_of(chosen, station), chart.METRIC).bars_of('rain')[0]
print(*(f'{height:.3f}' for height, _ in bars.values()))"""
    ran = subprocess.run(['/usr/bin/python3', '-c', script, STAND_IN], cwd=program.folder, capture_output=True, text=True,
                         env=os.environ | {'PYTHONPATH': str(TOOLS / 'product')}, check=False)
    hold('its days', (ran.stdout, ran.stderr), ('2.540 6.604 6.000 10.000 5.000\n', ''))


def rain_of_a_database(program):
    """The database has each station's own bucket and zone, also of stations in one input."""
    need_module('psycopg2')
    if newest() is None:
        raise LeftOut('postgresql is missing')
    import try_sql  # pylint: disable=import-outside-toplevel  # it ends where psycopg2 is missing
    write_environment(program)
    write_environment(program, 'TZ=Etc/GMT+5\nBUCKET=0.1mm\n', 'barn')
    write_rows(program, rainy_rows())
    with tempfile.TemporaryDirectory() as folder:
        server = Server(newest(), folder, try_sql.OPTIONS)
        try:
            database = try_sql.Database(server, 'stations')
            place = database.place
            hold('days of the archive', run(program, 'sql.py', '--station', 'roof', '--days', '2025-01-01', '2025-12-31', place),
                 (GOOD, 'station roof rows 7 added 7 changed 0 left out 0\n', ''))
            hold('days to report from', run(program, 'sql.py', '--since', '--station', 'roof', place),
                 (GOOD, '2025-08-01 2127-12-31\n', ''))
            lines = 'station barn\nrow 2025-08-01 00:05 5 rain=50\nstation roof\nrow 2025-08-01 00:10 5 rain=10\n'
            hold('two stations', run(program, 'sql.py', place, text=lines)[::2], (GOOD, ''))
            hold('a station without settings', run(program, 'sql.py', '--station', 'mill', place, text=lines.split('\n', 1)[1]),
                 (TROUBLE, '', 'sql: station mill: etc/mill.env: No such file or directory\n'))
            rain = database.ask("SELECT name, to_char(time AT TIME ZONE 'UTC', 'MM-DD HH24:MI'), round(rain::numeric, 5)::text "
                                'FROM weather JOIN station ON number = station ORDER BY name, time')
            hold('barn', rain[0], ('barn', '08-01 05:05', '0.19685'))
            hold('roof', rain[-1], ('roof', '07-31 23:10', '0.03937'))
            hold('roof in mm', database.ask("SELECT round(sum(rain)::numeric, 2)::text FROM weather_metric WHERE station = 'roof'"),
                 [('31.14',)])
            hold('the zone is one of PostgreSQL', database.ask('SELECT max(time AT TIME ZONE zone)::text FROM weather JOIN station '
                                                               "ON number = station WHERE name = 'roof'"), [('2025-08-01 00:10:00',)])
        finally:
            server.stop()


def zone_of_an_export(program):
    """Times in UTC are by the station's zone, whatever this machine's is. A rule of hours and minutes is one too."""
    write_rows(program, [row_of('2025-07-01 12:00', outTemp=600)])
    for zone, wanted in (('<+01>-1', '2025-07-01T11:00:00Z'), ('<+0530>-5:30', '2025-07-01T06:30:00Z'),
                         ('Etc/GMT+5', '2025-07-01T17:00:00Z'), ('CET-1', '2025-07-01T11:00:00Z')):
        write_environment(program, f'TZ={zone}\nBUCKET=0.2mm\n')
        (program.folder / 'table.csv').unlink(missing_ok=True)
        (program.folder / 'table.conf').unlink(missing_ok=True)
        run(program, 'export.py', '--station', 'roof', '--days', '2025-07-01', '2025-07-01', 'table.csv')
        hold(zone, list(column(program, 'table.csv', 'time (UTC)').values()), [wanted])


def zone_of_a_page(program):
    """The age on a page is by the clock of the station's zone, and so is the time in its data."""
    need_module('jinja2')
    need_module('matplotlib')
    write_environment(program, 'TZ=<+0530>-5:30\nBUCKET=0.2mm\n')
    stamp = datetime.utcnow() + timedelta(hours=5, minutes=30 - 3)
    write_rows(program, [row_of(f'{stamp:%Y-%m-%d %H:%M}', outTemp=600)])
    hold('a page', run(program, 'page.py', '--station', 'roof')[::2], (GOOD, ''))
    page = (program.folder / 'var/roof.page/index.html').read_text()
    hold('its age', bool(re.search(r'\b[345] minutes old', page)), True)
    data = json.loads((program.folder / 'var/roof.page/last.json').read_text())
    hold('its time in UTC', data['time'], f'{stamp - timedelta(hours=5, minutes=30):%Y-%m-%dT%H:%M}:00Z')


@contextmanager
def console(program):
    """A modelled console that sends live packets; gives its address."""
    with socket.socket() as door:
        door.bind(('127.0.0.1', 0))
        port = door.getsockname()[1]
    with subprocess.Popen([TOOLS / 'checks/fake_console.py', str(port)], cwd=program.folder) as process:
        try:
            began = SLEEPER.now()
            while f':{port:04X} 00000000:0000 0A' not in Path('/proc/net/tcp').read_text(encoding='ascii'):
                if process.poll() is not None or began.is_over(LONGEST):
                    raise Missed('the console does not listen')
                time.sleep(NAP)
            yield f'127.0.0.1:{port}'
        finally:
            process.terminate()


def packets_of_a_station(program):
    """Packets are taken of the station's console, and their moments are by its zone."""
    with console(program) as address:
        write_environment(program, f'ADDRESS={address}\nTZ=<+0530>-5:30\n')
        began = datetime.utcnow()
        words = [TOOLS / 'product/packets.py', '--settings', 'etc', '--station', 'roof', PACKET_SECONDS, 'live.packets']
        ran = subprocess.run(words, cwd=program.folder, capture_output=True, text=True, env=os.environ | {'TZ': FAR_ZONE}, check=False)
    if ran.stdout.startswith('packets taken 0,'):
        raise Missed('no packet came')
    hold(f'packets: {ran.stderr}', ran.returncode, GOOD)
    day, clock, second = struct.unpack_from('<HHB', program.read('live.packets'))
    moment = datetime(2000 + day // 512, day // 32 % 16, day % 32, clock // 100, clock % 100, second)
    behind = moment - began - timedelta(hours=5, minutes=30)
    hold(f'a packet of {moment}, {behind} behind', timedelta(seconds=-1) <= behind <= timedelta(minutes=5), True)
    write_environment(program, 'TZ=UTC\n')
    ran = subprocess.run(words, cwd=program.folder, capture_output=True, text=True, check=False)
    hold('a station without an address', (ran.returncode, 'an address, some seconds' in ran.stderr), (1, True))


def zones_of_the_manual(_):
    """Each zone that a document or a tool's own words name in a command is one without summer time."""
    top, found = TOOLS.parent, 0
    for file in [top / 'README.md', *top.glob('docs/*.md'), top / 'docs/jofitrana.1', *TOOLS.glob('product/*.py')]:
        for line in file.read_text(encoding='utf-8').splitlines():
            for name in ZONE_OF_A_COMMAND.findall(line):
                offsets = {datetime(2025, month, 1, tzinfo=zone_named(name)).utcoffset() for month in (1, 7)}
                hold(f'{file.name} has the zone {name}, whose offsets are {len(offsets)}', len(offsets), 1)
                found += 1
    hold(f'{found} zones are enough', found >= LEAST_ZONES, True)


def settings_without_a_bucket(program):
    """A tool that takes a click for 0.01 inch since the settings have no bucket reports it."""
    write_environment(program, 'TZ=<+01>-1\n')
    write_rows(program, rainy_rows())
    _, _, trouble = run(program, 'export.py', '--station', 'roof', '--days', '2025-01-01', '2025-12-31', 'table.csv')
    hold('what is reported', trouble, 'etc/roof.env has no BUCKET=: a click of the rain bucket is taken as 0.01in\n')


def page_beside_settings(program):
    """A page of a station's archive by its name, without the station and without a bucket, reports that its settings are not taken."""
    need_module('jinja2')
    need_module('matplotlib')
    write_environment(program)
    write_rows(program, rainy_rows())
    write_rows(program, rainy_rows(), 'barn')
    (program.folder / 'link').symlink_to('var/roof.archive')
    wanted = ('page: {} is of the station roof, whose settings are not taken: a click of the rain bucket is taken as 0.01in. '
              'Give --station roof, or --bucket\n')
    for archive in ('var/roof.archive', 'link'):
        hold(f'a page of {archive}', run(program, 'page.py', archive, 'page')[::2], (GOOD, wanted.format(archive)))
    for words in (['--bucket', '0.2mm', 'var/roof.archive', 'page'], ['var/barn.archive', 'page']):
        hold(' '.join(words), run(program, 'page.py', *words)[::2], (GOOD, ''))


def buckets_of_the_manual(_):
    """Each command of a document or of a tool's own words that makes something of a report names a bucket or a station."""
    top, found = TOOLS.parent, 0
    for file in [top / 'README.md', *top.glob('docs/*.md'), top / 'docs/jofitrana.1', *TOOLS.glob('product/*.py')]:
        text = re.sub(r'(\\|\|)\n\s*', r'\1 ', file.read_text(encoding='utf-8'))
        for command in COMMAND_OF_ROWS.findall(text):
            if SIMULATED not in command:
                hold(f'{file.name} has {command}, which names a bucket', bool(NAMES_BUCKET.search(command)), True)
                found += 1
    hold(f'{found} commands are enough', found >= LEAST_COMMANDS, True)


def words_of_a_station(program):
    """A tool refuses words that name too little or too much."""
    write_environment(program)
    for words in (['page.py'], ['page.py', 'var/roof.archive'], ['page.py', '--station', 'roof', 'a', 'b', 'c'],
                  ['export.py', '--days', '2025-01-01', '2025-12-31', 'a.csv'], ['chart.py', '--days', '2025-01-01', 'a.svg'],
                  ['export.py', '--station', 'roof', '--days', '2025-01-01', '2025-13-01', 'a.csv']):
        hold(' '.join(words), run(program, *words)[0], USAGE)


def batches_of(rows, sizes):
    """An archive of rows, in batches of these sizes."""
    parts, first = [head_slot(THIS_VERSION)], 0
    for size in sizes:
        parts.append(sealed_batch(slots_to_add(rows[:first], rows[first:first + size])))
        first += size
    return b''.join(parts) + CLOSED_GATE


def rows_up_to_a_stamp(program):
    """Salvage keeps the batches whose rows are not later than a stamp, and prints the rows of the others. Each stamp is tried."""
    rows = [row_of(f'2025-07-{day:02} 12:{minute:02}', outTemp=day) for day, minute in
            ((1, 0), (1, 5), (1, 10), (1, 15), (2, 0), (2, 5), (3, 0), (3, 5))]
    sizes, ends = (2, 3, 1, 2), (0, 2, 5, 6, 8)
    (program.folder / 'var').mkdir()
    whole = batches_of(rows, sizes)
    program.write('var/roof.archive', whole)
    write_environment(program)
    for count, stamp in enumerate(row_line(row)[4:20] for row in rows):
        kept = max(end for end in ends if end <= count + 1)
        status, printed, trouble = run(program, 'salvage.py', '--until', stamp, '--station', 'roof', '--program', program.path, 'new')
        if kept == 0:
            hold(f'until {stamp}', (status, trouble), (TROUBLE, f'salvage: var/roof.archive has no batch of rows up to {stamp}\n'))
            hold('no archive', (program.folder / 'new').exists(), False)
            continue
        hold(f'until {stamp}: {trouble}', (status, printed), (GOOD, ''.join(row_line(row) + '\n' for row in rows[kept:])))
        hold('what is dropped', f'salvage: {len(rows) - kept} rows behind them are dropped, and printed.' in trouble, kept < len(rows))
        shown = program.run('report new rows 1999-12-31 2127-12-31').printed
        hold(f'the rows until {stamp}', shown, ''.join(row_line(row) + '\n' for row in rows[:kept]))
        hold('the archive', program.read('new'), batches_of(rows[:kept], sizes[:ends.index(kept)]))
        (program.folder / 'new').unlink()
    hold('OLD', program.read('var/roof.archive'), whole)
    for words in (['--until', '2025-07-01', '--station', 'roof', 'new'], ['--station', 'roof', 'a', 'b'], ['a']):
        hold(' '.join(words), run(program, 'salvage.py', *words)[0], USAGE)


def a_row_ahead_of_the_clock(program):
    """Salvage compares the last row with the time in the station's zone, whatever this machine's zone is."""
    (program.folder / 'var').mkdir()
    write_environment(program, 'TZ=<+01>-1\n')
    now = datetime.now(timezone(timedelta(hours=1))).replace(second=0)
    for minutes, is_ahead in ((-5, False), (10, True)):
        row = row_of(f'{now + timedelta(minutes=minutes):%Y-%m-%d %H:%M}', outTemp=650)
        program.write('var/roof.archive', batches_of([row], [1]))
        trouble = run(program, 'salvage.py', '--station', 'roof', '--program', program.path, 'new')[2]
        hold(f'a row {minutes} minutes ahead: {trouble}', "is later than this machine's clock in the station's zone" in trouble, is_ahead)
        (program.folder / 'new').unlink()


CASES = (forms_of_settings, settings_out_of_form, rain_of_a_table, rain_of_a_page, rain_of_a_chart, rain_of_a_database,
         zone_of_an_export, zone_of_a_page, packets_of_a_station, zones_of_the_manual, settings_without_a_bucket,
         page_beside_settings, buckets_of_the_manual, words_of_a_station, rows_up_to_a_stamp, a_row_ahead_of_the_clock)

if __name__ == '__main__':
    sys.exit(try_all(sys.argv, __doc__, CASES, 4))
