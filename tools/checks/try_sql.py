#!/usr/bin/python3
"""Tries sql.py over a PostgreSQL of its own, which listens at a socket in a folder and ends with the trial.

    tools/checks/try_sql.py

The last line is 'N passed, M failed', and the status is 1 if any failed. Without PostgreSQL or psycopg2 nothing is tried.
"""
import re
import signal
import subprocess
import sys
import tempfile
import time
from datetime import datetime, timedelta, timezone
from pathlib import Path

sys.dont_write_bytecode = True  # nothing is left beside the scripts

import rooms  # first: the imports below are of other rooms too
import field_values
from sql_rows import MOST_ROWS
from sql_server import Server, newest
from trying import LONGEST, MOST_TEXT, Differs, await_that, hold, leave_out

try:
    import psycopg2
    from sql_database import Database
except ImportError:
    leave_out('python3-psycopg2 is missing: no sql was tried')
    sys.exit(0)

TOOLS = Path(__file__).resolve().parent.parent
OPTIONS = 'fsync=off', 'max_connections=20', 'timezone=America/New_York'
PERIOD = timedelta(minutes=5)
STATIONS, ROWS = 1000, 300
LEFT_OUT = 3
FIRST = datetime(2024, 6, 30, 23, 0)
BERLIN, HERE = 'Europe/Berlin', 'UTC'  # the last one of this machine's clock
WRITER = "SELECT 1 FROM pg_stat_activity WHERE query LIKE '%INSERT INTO weather%' AND pid <> pg_backend_pid()"
SUMMER = """\
row 2024-10-27 01:55 5 outTemp=502
row 2024-10-27 02:30 5 outTemp=503
row 2024-10-27 03:00 5 outTemp=504
"""


class Filled(Database):
    """A database of the server, which is new for each case, and the runs that fill it."""

    def words(self, *words, station='roof', zone=BERLIN):
        """The words of a run."""
        return [TOOLS / 'product/sql.py', *(['--station', station] if station else []), '--zone', zone, *words, self.place]

    def run(self, lines, *words, **options):
        """Brings it up to date from row lines; gives status, output and what was printed of trouble."""
        ran = subprocess.run(self.words(*words, **options), input=lines, capture_output=True, text=True, check=False)
        return ran.returncode, ran.stdout, ran.stderr


def row_lines(count, first=FIRST):
    """So many row lines from a stamp on."""
    values = 'rain=2 barometer=29921 windDir=4'
    return ''.join(f'row {first + number * PERIOD:%Y-%m-%d %H:%M} 5 outTemp={650 + number % 50} {values}\n'
                   for number in range(count))


def of_stations(rows):
    """Row lines of stations: so many by the name of each."""
    return ''.join(f'station {name}\n{row_lines(count)}' for name, count in rows.items())


def counts(rows, added, changed, left_out=0, station='roof'):
    """What a run prints of these counts."""
    return f'station {station} rows {rows} added {added} changed {changed} left out {left_out}\n'


def same_rows_twice(database):
    """A second run over the same rows writes nothing, and the values are those of the rows in their units."""
    hold('a first run', database.run(row_lines(100)), (0, counts(100, 100, 0), ''))
    before = database.ask('SELECT xmin, ctid, * FROM weather ORDER BY time')
    hold('a second run', database.run(row_lines(100)), (0, counts(100, 0, 0), ''))
    hold('its rows', database.ask('SELECT xmin, ctid, * FROM weather ORDER BY time') == before, True)
    hold('a row', database.ask("SELECT to_char(time AT TIME ZONE 'UTC', 'YYYY-MM-DD HH24:MI'), minutes, outTemp::text, "
                               'rain::text, barometer::text, windDir::text, UV FROM weather ORDER BY time LIMIT 1'),
         [('2024-06-30 21:00', 5, '65', '0.02', '29.921', '90', None)])
    hold('it in metric units', database.ask('SELECT station, round(outTemp::numeric, 2)::text, round(rain::numeric, 3)::text, '
                                            'round(barometer::numeric, 1)::text FROM weather_metric ORDER BY time LIMIT 1'),
         [('roof', '18.33', '0.508', '1013.2')])


def columns(database, table, station):
    """The values of the fields of a station in a table or a view, by the names of the fields."""
    chosen = ', '.join(f'{name}::float8' for name in field_values.NAMES)
    lines = database.ask(f'SELECT {chosen} FROM {table} WHERE station = {station} ORDER BY time')
    return dict(zip(field_values.NAMES, zip(*lines)))


def units_of(database, table):
    """The units of a table's columns by the names of fields, as its comments have them."""
    found = dict(database.ask("SELECT attname, col_description(attrelid, attnum) FROM pg_attribute "
                              f"WHERE attrelid = '{table}'::regclass AND attnum > 0"))
    return [found[name.lower()] for name in field_values.NAMES]


def values_of_all_fields(database):
    """Each field is in its unit in the table, and in the metric one in the view, by each bucket: values above and below zero,
    zeros, and none where the row has none."""
    for bucket, fields in field_values.FIELDS.items():
        hold(f'a run of {bucket}', database.run(''.join(field_values.LINES), '--bucket', bucket, station=bucket)[0], 0)
        number, = database.ask(f"SELECT number FROM station WHERE name = '{bucket}'")[0]
        hold('the minutes', database.ask(f'SELECT minutes FROM weather WHERE station = {number} ORDER BY time'),
             [(minutes,) for minutes in field_values.MINUTES])
        field_values.hold_values(f'weather of {bucket}', columns(database, 'weather', number), field_values.values(bucket))
        field_values.hold_values(f'weather_metric of {bucket}', columns(database, 'weather_metric', f"'{bucket}'"),
                                 field_values.metric_values(bucket))
    for place, table in enumerate(('weather', 'weather_metric')):
        hold(f'the units of {table}', units_of(database, table), [worked.units[place] for worked in fields.values()])


def rows_that_changed(database):
    """Just the rows that differ are written: new ones, other values, and values that are gone."""
    database.run(row_lines(20))
    lines = row_lines(25).splitlines(keepends=True)
    lines[3] = lines[3].replace('outTemp=653', 'outTemp=654')
    lines[4] = lines[4].replace('outTemp=654', 'outTemp=limit')
    lines[5] = lines[5].replace(' 5 outTemp', ' 10 outTemp')
    before = dict(database.ask('SELECT time, xmin::text FROM weather'))
    hold('a run', database.run(''.join(lines)), (0, counts(25, 5, 3), ''))
    after = dict(database.ask('SELECT time, xmin::text FROM weather'))
    hold('rows that stand', sum(after[moment] == transaction for moment, transaction in before.items()), 17)
    hold('a value that is gone', database.ask('SELECT count(*) FROM weather WHERE outTemp IS NULL'), [(1,)])
    hold('another size of the bucket', database.run(row_lines(25), '--bucket', '0.2mm')[1], counts(25, 0, 25))


def hour_that_comes_twice(database):
    """Rows whose stamps name no one time are named, counted and left out; the zone of a station stands."""
    hold('a run', database.run(SUMMER),
         (LEFT_OUT, counts(2, 2, 0, 1), 'export: left out: 2024-10-27 02:30 comes twice in Europe/Berlin\n'))
    hold('its times', database.ask("SELECT to_char(time AT TIME ZONE 'UTC', 'DD HH24:MI') FROM weather ORDER BY time"),
         [('26 23:55',), ('27 02:00',)])
    hold('another zone', database.run(SUMMER, zone='Etc/GMT-1'),
         (1, '', 'sql: station roof: its zone is Europe/Berlin in this database: the rows would be there twice\n'))
    hold('rows', database.ask('SELECT count(*) FROM weather'), [(2,)])


def days_to_report(database):
    """The days to report from begin with the last row's, and the row of midnight is of the day before."""
    hold('before any row', database.run('', '--since'), (0, '1999-12-31 2127-12-31\n', ''))
    hold('what is made by that', database.ask("SELECT to_regclass('weather')"), [(None,)])
    database.run(row_lines(13))  # up to midnight
    hold('at midnight', database.run('', '--since'), (0, '2024-06-30 2127-12-31\n', ''))
    database.run(row_lines(14))
    hold('behind midnight', database.run('', '--since'), (0, '2024-07-01 2127-12-31\n', ''))
    hold('of another station', database.run('', '--since', station='barn'), (0, '1999-12-31 2127-12-31\n', ''))


def days_behind_a_row_of_the_future(database):
    """A row that is ahead of the clock is told, and the days begin with the last row that is not."""
    now = datetime.now(timezone.utc).replace(tzinfo=None)
    soon, late = now + timedelta(minutes=3), now + timedelta(minutes=9)
    database.run(row_lines(14) + row_lines(1, datetime(2088, 7, 2, 12, 0)))
    hold('behind it', database.run('', '--since'),
         (0, '2024-07-01 2127-12-31\n', "sql: station roof: its row of 2088-07-02 12:00 is ahead of this machine's clock, "
          'and does not count here\n'))
    database.run(row_lines(1, soon), station='soon', zone=HERE)
    hold('a clock that is a little ahead', database.run('', '--since', station='soon', zone=HERE),
         (0, f'{soon - timedelta(minutes=1):%Y-%m-%d} 2127-12-31\n', ''))
    database.run(row_lines(1, late), station='late', zone=HERE)
    status, printed, trouble = database.run('', '--since', station='late', zone=HERE)
    hold('a clock that is ahead', (status, printed, f'its row of {late:%Y-%m-%d %H:%M} is ahead' in trouble),
         (0, '1999-12-31 2127-12-31\n', True))


def rows_of_two_years(database):
    """Each year of UTC has a table of its own, and each column a comment with its unit."""
    hold('a run', database.run(row_lines(4, datetime(2025, 1, 1, 0, 50))), (0, counts(4, 4, 0), ''))
    hold('its tables', database.ask('SELECT tableoid::regclass::text, count(*) FROM weather GROUP BY 1 ORDER BY 1'),
         [('weather_2024', 2), ('weather_2025', 2)])
    hold('columns without a comment', database.ask(
        "SELECT attrelid::regclass, attname FROM pg_attribute WHERE attrelid IN ('station'::regclass, 'weather'::regclass) "
        'AND attnum > 0 AND col_description(attrelid, attnum) IS NULL'), [])
    hold('a unit', database.ask("SELECT col_description('weather'::regclass, attnum) FROM pg_attribute "
                                "WHERE attrelid = 'weather'::regclass AND attname = 'barometer'"), [('inHg',)])


def run_that_is_killed(database):
    """Of a run that is killed nothing is written, and the next run writes all."""
    database.run(row_lines(1))
    lock = psycopg2.connect(database.place)
    lock.cursor().execute('LOCK TABLE weather_2024 IN SHARE MODE')  # who writes waits here
    with subprocess.Popen(database.words(), stdin=subprocess.PIPE, stdout=subprocess.DEVNULL, text=True) as run:
        run.stdin.write(row_lines(400))
        run.stdin.close()
        try:
            await_that('no run waits', lambda: database.ask(f"{WRITER} AND wait_event_type = 'Lock'"), LONGEST)
        finally:
            run.send_signal(signal.SIGKILL)
    lock.rollback()
    lock.close()
    await_that('it has not ended', lambda: not database.ask(f"{WRITER} AND state <> 'idle'"), LONGEST)
    hold('rows', database.ask('SELECT count(*) FROM weather'), [(1,)])
    hold('the next run', database.run(row_lines(400))[1], counts(400, 399, 0))


def refusals(database):
    """What is refused writes nothing, not even the rows before it."""
    hold('a report that failed', database.run(row_lines(2) + 'disk fault\n'),
         (1, '', 'sql: station roof: the program said: disk fault\n'))
    hold('no row', database.run(''), (1, '', 'sql: station roof: there is no row\n'))
    hold('rows of no station', database.run(row_lines(1), station=None)[:2], (1, ''))
    hold('no station at all', database.run('', station=None), (1, '', 'sql: there is no row\n'))
    hold('a report that is cut', database.run(row_lines(2)[:-1]),
         (1, '', 'sql: station roof: the report is cut: its last line has no line feed: '
          'row 2024-06-30 23:05 5 outTemp=651 rain=2 barometer=29921 windDir=4\n'))
    hold('a name that is cut', database.run('station roof', station=None)[:2], (1, ''))
    status, printed, trouble = database.run(row_lines(1), '--station', '')
    hold('an empty name', (status, printed, 'a station needs a name' in trouble), (2, '', True))
    hold('a zone that is none', database.run(row_lines(1), zone='Nowhere')[0], 2)
    hold('the days of no station', database.run('', '--since', station=None)[0], 2)
    hold('its tables', database.ask("SELECT to_regclass('weather')"), [(None,)])
    database.name = 'nowhere'
    status, printed, trouble = database.run(row_lines(1))
    hold('a database that is missing', (status, printed, 'database "nowhere" does not exist' in trouble), (1, '', True))


def stations_without_rows(database):
    """A station without rows is named, wherever it stands, and so is one without a good name; the others are written."""
    names = ('before', 'first', 'between', '', 'second', 'a\0b', 'third', 'behind')
    with_rows = {'first', '', 'second', 'a\0b', 'third'}
    lines = ''.join(f'station {name}\n' + (row_lines(1) if name in with_rows else '') for name in names)
    hold('a run', database.run(lines, station=None),
         (1, counts(1, 1, 0, station='first') + counts(1, 1, 0, station='second') + counts(1, 1, 0, station='third'),
          'sql: station before: there is no row\nsql: station between: there is no row\n'
          'sql: station : a station needs a name\nsql: station a\\0b: no name has a byte of zero\n'
          'sql: station behind: there is no row\n'))
    hold('the stations', database.ask('SELECT name FROM station ORDER BY name'), [('first',), ('second',), ('third',)])


def two_stations_at_once(database):
    """Runs at once, of which each finds no table, make the tables once and write all rows."""
    names = ['roof', 'barn', "well <'7'>", 'roof']
    pipes = dict.fromkeys(('stdin', 'stdout', 'stderr'), subprocess.PIPE)
    runs = [subprocess.Popen(database.words(station=name), text=True, **pipes) for name in names]
    for run in runs:
        run.stdin.write(row_lines(1000))
        run.stdin.close()
    for run in runs:
        hold(f'a run: {run.stderr.read()}', run.wait(), 0)
        run.stdout.close()
        run.stderr.close()
    hold('rows', database.ask('SELECT name, count(*) FROM weather JOIN station ON number = station GROUP BY 1 ORDER BY 1'),
         [('barn', 1000), ('roof', 1000), ("well <'7'>", 1000)])


def stations_that_are_written_together(database):
    """Stations with few rows are written in one transaction, and one with many ends it."""
    rows = {'roof': MOST_ROWS - 1, 'barn': 1, 'well': 2, 'hill': 2}
    status, printed, trouble = database.run(of_stations(rows), station=None)
    wanted = ''.join(counts(count, count, 0, station=name) for name, count in rows.items())
    hold('a run', (status, printed, trouble), (0, wanted, ''))
    hold('its transactions', database.ask(
        "SELECT string_agg(DISTINCT name, ' ' ORDER BY name DESC) FROM weather JOIN station ON number = station "
        'GROUP BY weather.xmin::text ORDER BY 1'), [('roof barn',), ('well hill',)])
    lines = of_stations({'well': 4, 'hill': 3, 'mill': 1})
    lines = lines.replace('06-30 23:05 5 outTemp=651', '06-30 23:05 5 outTemp=652', 1)
    hold('some more rows', database.run(lines, station=None),
         (0, counts(4, 2, 1, station='well') + counts(3, 1, 0, station='hill') + counts(1, 1, 0, station='mill'), ''))


def station_that_comes_twice(database):
    """A station may come twice in an input, and what stands before a name that is cut is written."""
    lines = of_stations({'roof': 3, 'barn': 1})
    hold('a run', database.run(lines + of_stations({'roof': 5}), station=None),
         (0, counts(3, 3, 0) + counts(1, 1, 0, station='barn') + counts(5, 2, 0), ''))
    status, printed, trouble = database.run(of_stations({'well': 2}) + 'station hil', station=None)
    hold('a run whose input is cut', (status, printed, 'the report is cut' in trouble), (1, counts(2, 2, 0, station='well'), True))


def numbers_of_stations(database):
    """A station that is there takes no number of a new one."""
    for _ in range(3):
        hold('a run', database.run(of_stations({'roof': 2, 'barn': 1}), station=None)[0], 0)
    database.run(row_lines(1), station='well')
    hold('the numbers', database.ask('SELECT name, number FROM station ORDER BY number'), [('barn', 1), ('roof', 2), ('well', 3)])


def stations_in_other_orders(database):
    """Runs at once that bring the same stations in other orders wait for one another, and both write."""
    database.run(row_lines(1))
    names = [f's{number:02}' for number in range(20)]
    lock = psycopg2.connect(database.place)
    lock.cursor().execute(f"INSERT INTO station (name, zone) VALUES ('{names[9]}', '{BERLIN}')")  # who names it waits here
    pipes = dict.fromkeys(('stdin', 'stdout', 'stderr'), subprocess.PIPE)
    runs = [subprocess.Popen(database.words(station=None), text=True, **pipes) for _ in range(2)]
    for run, order in zip(runs, (names, reversed(names))):
        run.stdin.write(of_stations(dict.fromkeys(order, 1)))
        run.stdin.close()
    waiting = "SELECT 1 FROM pg_stat_activity WHERE wait_event_type = 'Lock'"
    try:
        await_that('not all runs wait', lambda: len(database.ask(waiting)) == len(runs), LONGEST)
    finally:
        lock.rollback()
        lock.close()
        ended = [(run.wait(), run.stderr.read()) for run in runs]
    hold('the runs', ended, [(0, '')] * len(runs))
    for run in runs:
        run.stdout.close()
        run.stderr.close()
    hold('rows', database.ask('SELECT count(*) FROM weather'), [(1 + len(names),)])


def many_stations(database):
    """The rows of 1,000 stations are written in one run, one station's trouble stops no other, and the key finds a month."""
    lines = ''.join(f'station s{number}\n' + row_lines(ROWS, datetime(2024, 6, 1)) for number in range(STATIONS))
    began = time.monotonic()
    status, printed, trouble = database.run('station broken\ndisk fault\n' + lines, station=None)
    seconds = time.monotonic() - began
    hold('a run', (status, printed.count('added 300 changed 0'), trouble),
         (1, STATIONS, 'sql: station broken: the program said: disk fault\n'))
    print(f'{STATIONS} stations of {ROWS} rows: {seconds:.0f} s', file=sys.stderr)
    database.ask('VACUUM ANALYZE')
    plan = '\n'.join(line for line, in database.ask(
        "EXPLAIN SELECT time, outTemp FROM weather WHERE station = 7 AND time >= '2024-06-01' AND time < '2024-07-01'"))
    if 'weather_2024_pkey' not in plan or 'Seq Scan' in plan:
        raise Differs(plan)
    size, = database.ask("SELECT pg_total_relation_size('weather_2024')")[0]
    print(f'{size / STATIONS / ROWS:.0f} bytes a row', file=sys.stderr)


def queries_of_the_manual(database):
    """The queries for Grafana give what they are for, with a span of time in the place of its own word."""
    database.run(row_lines(20))
    database.run(row_lines(1), station='barn')
    text = (TOOLS.parent / 'docs' / 'NETWORK.md').read_text(encoding='utf-8')
    queries = [query.replace('$__timeFilter(time)', "time BETWEEN '2024-06-30' AND '2024-07-02'")
               for query in re.findall('```sql\n(.*?)```', text, re.DOTALL)]
    series, days, ages = (database.ask(query) for query in queries)
    hold('a series', (len(series), f'{series[0][1]:.1f}'), (20, '18.3'))
    hold('days', [(str(day), f'{rain:.2f}', rows) for day, _, _, rain, rows in days],
         [('2024-06-30', '0.26', 13), ('2024-07-01', '0.14', 7)])
    hold('ages', [(name, f'{last.astimezone(timezone.utc):%H:%M}') for name, last, _ in ages],
         [('barn', '21:00'), ('roof', '22:35')])


CASES = (same_rows_twice, values_of_all_fields, rows_that_changed, hour_that_comes_twice, days_to_report,
         days_behind_a_row_of_the_future, rows_of_two_years, run_that_is_killed, refusals, stations_without_rows,
         two_stations_at_once, stations_that_are_written_together,
         station_that_comes_twice, numbers_of_stations, stations_in_other_orders, queries_of_the_manual, many_stations)


def try_all(server):
    """Tries the cases; gives how many failed."""
    failed = 0
    for case in CASES:
        try:
            case(Filled(server, case.__name__))
        except Exception as reason:  # whatever it is, the other cases go on
            failed += 1
            print(f'{case.__name__} failed: {reason!r:.{MOST_TEXT}}', file=sys.stderr)
    return failed


def main(words):
    """Tries sql.py; gives the status."""
    if len(words) != 1:
        sys.exit(__doc__)
    commands = newest()
    if commands is None:
        leave_out('postgresql is missing: no sql was tried')
        return 0
    with tempfile.TemporaryDirectory() as folder:
        server = Server(commands, folder, OPTIONS)
        try:
            failed = try_all(server)
        finally:
            server.stop()
    print(f'{len(CASES) - failed} passed, {failed} failed')
    return 1 if failed else 0


if __name__ == '__main__':
    sys.exit(main(sys.argv))
