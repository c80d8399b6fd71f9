#!/usr/bin/python3
"""Tries what becomes of each value on either way of weewx.py: all fields in three systems of units, values between two counts and
beyond a range, rain, and random rows there and back.

    tools/checks/try_weewx_values.py PROGRAM

A script that prints the lines of a file is in the program's place. WeeWX itself is not at hand: databases are made here with its
columns. The last line is 'N passed, M failed', and the status is 1 if any failed.
"""
import os
import random
import re
import sys

sys.dont_write_bytecode = True  # nothing is left beside the scripts

import rooms  # first: the imports below are of other rooms too
import field_values
import weewx_schema
from field_values import LINES, MINUTES, hold_values
from model.records import FIELDS, KINDS
from trying import Differs, hold, try_all
from weewx_databases import (COLUMNS, DATABASE, FIRST, LOST, OLD_COLUMNS, PRINTS, fill, link_to, make_table, names_of, rows, run,
                             stamp, values_in, without)

RANDOM_ROWS = {1: 100_000, 16: 20_000, 17: 20_000}  # by the units of the database
EPOCHS = (1706929500, 1706930100, 1706931900)  # of the worked stamps, by `date -d TIME +%s`

# The table as WeeWX makes it; `x1..8` stands for x1 to x8.
KEYS = [('dateTime', 'INTEGER', 1, 1), ('usUnits', 'INTEGER', 1, 0), ('interval', 'INTEGER', 1, 0)]

# What the worked values are in the units 16, if those are not the ones of 17: km/h and cm.
KILOMETRES = {'windSpeed': 17.702784, 'windGust': 37.014912}
CENTIMETRES = {'rain': 0.1778, 'highRainRate': 0.762, 'ET': 0.04826}

# How WeeWX makes metric values of a console's, by its own constants.
WEEWX_MBAR, WEEWX_KILOMETRES = 1 / 0.0295299875, 1.60934


def taken(program, values_of_rows, system=1):
    """What becomes of rows of these values: the words behind the period of each, what is told of them, and the status."""
    (program.folder / DATABASE).unlink(missing_ok=True)
    make_table(program, COLUMNS, [(FIRST + 300 * number, system, 5, values) for number, values in enumerate(values_of_rows)])
    status, lines, told = rows(program)
    return [line.rstrip('\n').split(' ', 4)[4:] for line in lines], told, status


def umask():
    """The mask of this process."""
    mask = os.umask(0)
    os.umask(mask)
    return mask


def columns_of_weewx(program):
    """A new database has the columns of WeeWX with their types, in their order, and US units. The older columns are written down."""
    hold('the older columns', [*weewx_schema.WVIEW], [*names_of(OLD_COLUMNS)])
    hold('the making', fill(program, LINES)[0], 0)
    with link_to(program) as link:
        columns = [(name, kind, needed, key) for _, name, kind, needed, _, key in link.execute('PRAGMA table_info(archive)')]
        text = link.execute("SELECT sql FROM sqlite_master WHERE name = 'archive'").fetchone()[0]
    hold('its columns', columns, KEYS + [(name, 'REAL', 0, 0) for name in names_of(COLUMNS)])
    hold('its key', 'dateTime` INTEGER NOT NULL UNIQUE PRIMARY KEY' in text, True)
    hold('its keys', values_in(program, 'dateTime', 'usUnits', '`interval`'),
         [(moment, 1, minutes) for moment, minutes in zip(EPOCHS, MINUTES)])
    hold('who may read it', (program.folder / DATABASE).stat().st_mode & 0o444, 0o444 & ~umask())


def worked_values(bucket, system):
    """The worked values of three rows in a system of units, by field."""
    found = field_values.values(bucket) if system == 1 else field_values.metric_values(bucket)
    found = {name: values for name, values in found.items() if name not in LOST}
    if system == 16:
        found |= {name: (above, *found[name][1:]) for name, above in KILOMETRES.items()}
        found |= {name: tuple(value and value / 10 for value in found[name]) for name in CENTIMETRES}
    return found


def all_fields_there(program):
    """Each field becomes the value that was worked out by hand, in the units of the database, and by each bucket."""
    for bucket in field_values.FIELDS:
        for system in (1, 16, 17):
            (program.folder / DATABASE).unlink(missing_ok=True)
            if system != 1:
                make_table(program, COLUMNS, [(EPOCHS[0] - 300, system, 5, {})])
            status, told = fill(program, LINES, '--bucket', bucket)
            hold('the status', status, 0)
            names = worked_values(bucket, system)
            columns = [field_values.FIELDS[bucket][name].weewx for name in names]
            seen = values_in(program, *columns)[-3:]
            hold_values(f'units {system}, {bucket}', dict(zip(names, zip(*seen))), names)
            hold('what is lost', re.findall(r'(\w+) \d+(?=,|$)', told.split('database: ')[1].splitlines()[0]), sorted(LOST))
    hold('a worked value in cm', worked_values('0.01in', 16)['rain'][0], CENTIMETRES['rain'])


def all_fields_back(program):
    """Each worked value becomes the count that it is of, whatever the units."""
    for bucket in field_values.FIELDS:
        for system in (1, 16, 17):
            (program.folder / DATABASE).unlink(missing_ok=True)
            worked = worked_values(bucket, system)
            entries = [(moment, system, minutes, {field_values.FIELDS[bucket][name].weewx: values[place]
                                                  for name, values in worked.items() if values[place] is not None})
                       for place, (moment, minutes) in enumerate(zip(EPOCHS, MINUTES))]
            for entry in entries:
                if entry[3].get('barometer') == 0:
                    del entry[3]['barometer']  # a console's mark of no value
            make_table(program, COLUMNS, entries)
            status, lines, _ = rows(program, '--bucket', bucket)
            hold('the status', status, 0)
            hold(f'units {system}, {bucket}', [without(line, LOST) for line in lines],
                 [without(line, LOST).replace(' barometer=0 ', ' ') for line in LINES])


def metric_values_of_weewx(program):
    """Pressures and winds of a console that WeeWX made metric by its own constants are those of the console again."""
    entries = [(FIRST + 300 * number, 16, 5, {'barometer': (20_000 + number) / 1000 * WEEWX_MBAR,
                                             'windSpeed': number % 255 * WEEWX_KILOMETRES, 'outTemp': (number / 10 - 32) / 1.8})
               for number in range(12_500)]
    make_table(program, COLUMNS, entries)
    hold('the rows', rows(program)[1], [f'row {stamp(FIRST + 300 * number)} 5 outTemp={number} barometer={20_000 + number} '
                                        f'windSpeed={number % 255}\n' for number in range(12_500)])


NO_TENTHS = {
    1: ((('outTemp', 65.04), 'outTemp=650'), (('outTemp', 65.05), 'outTemp=651'), (('outTemp', 65.06), 'outTemp=651'),
        (('outTemp', -0.05), 'outTemp=0'), (('outTemp', -0.06), 'outTemp=-1'), (('inTemp', 4.349999999), 'inTemp=43'),
        (('windSpeed', 2.5), 'windSpeed=3'), (('outHumidity', 48.4999), 'outHumidity=48'),
        (('barometer', 29.9214), 'barometer=29921'), (('barometer', 32.0025), 'barometer=32003'),
        (('UV', 7.25), 'UV=73'), (('soilTemp1', 50.5), 'soilTemp1=51'),
        (('windDir', 11), 'windDir=0'), (('windDir', 11.25), 'windDir=1'), (('windDir', 348), 'windDir=15'),
        (('windDir', 349), 'windDir=0'), (('windDir', 360), 'windDir=0'), (('outTemp', 65), 'outTemp=650'),
        (('outTemp', '65.1'), 'outTemp=651')),
    17: ((('outTemp', 18.36), 'outTemp=650'), (('extraTemp1', 20.2), 'extraTemp1=68')),
}


def values_that_are_no_tenth(program):
    """A value between two counts becomes the nearest one, and of two the greater."""
    for system, cases in NO_TENTHS.items():
        words, _, status = taken(program, [dict([pair]) for pair, _ in cases], system)
        hold('the status', status, 0)
        for (pair, wanted), seen in zip(cases, words, strict=True):
            hold(f'{pair}', seen, [wanted])


def systems_in_one_database(program):
    """Each row is in its own units, also where a database has rows of several."""
    values = ((1, 50, 0.01), (16, 10, 0.0254), (17, 10, 0.254), (1, 50, 0.01))
    make_table(program, COLUMNS, [(FIRST + 300 * number, system, 5, {'outTemp': warmth, 'rain': rain})
                                  for number, (system, warmth, rain) in enumerate(values)])
    hold('the rows', rows(program)[:2], (0, [f'row {stamp(FIRST + 300 * number)} 5 outTemp=500 rain=1\n' for number in range(4)]))


def edges_of(field):
    """Counts at the edges of what a field can have, and whether it can."""
    if 'Dir' in field.name:
        return {0: True, 15: True, -1: False, 17: False}
    _, _, least, greatest, more = KINDS[field.kind]
    edges = {least - more: True, greatest - more: True, least - more - 1: False, greatest - more + 1: False}
    return edges | ({field.missing - more: False} if field.missing is not None else {})


def values_beyond_a_range(program):
    """A value that its field cannot hold is left out and named; the edges of each range are taken, and the marks are not."""
    cases = []
    for field in (field for field in FIELDS if field.name not in LOST):
        worked = field_values.FIELDS['0.01in'][field.name]
        unit = worked.above[1] / worked.above[0]
        cases += [(field.name, count, is_taken, {worked.weewx: count * unit}) for count, is_taken in edges_of(field).items()]
    words, told, status = taken(program, [values for *_, values in cases])
    hold('the status', status, 3)
    for number, (name, count, is_taken, values) in enumerate(cases):
        hold(f'{name} of {count}', words[number], [f'{name}={count}'] if is_taken else [])
        named = f'left out: {next(iter(values))} .* of {stamp(FIRST + 300 * number)}: '
        hold(f'what is told of {name} of {count}', bool(re.search(named, told)), not is_taken)
    hold('more than a full circle', taken(program, [{'windDir': 365}])[::2], ([[]], 3))
    odd = [{'outTemp': value, 'rain': value, 'inTemp': 70} for value in ('warm', b'\1\2', float('inf'))]
    words, told, status = taken(program, odd)
    hold('odd values', (status, words, told.count('weewx: left out: ')), (3, [['inTemp=700']] * 3, 6))


def rain_of_days(program):
    """No day's rain is off by more than a click, whatever its amounts, and neither is its evaporation by a thousandth."""
    draw = random.Random(7)
    amounts = [(draw.choice((0, 0, draw.uniform(0, 0.9), 0.2)), draw.choice((0, draw.uniform(0, 0.03)))) for _ in range(20 * 288)]
    make_table(program, COLUMNS, [(FIRST + 300 * number, 17, 5, {'rain': rain, 'ET': et})
                                  for number, (rain, et) in enumerate(amounts)])
    for bucket, millimetres in (('0.01in', 0.254), ('0.2mm', 0.2), ('0.1mm', 0.1)):
        days = {}
        for (rain, et), line in zip(amounts, rows(program, '--bucket', bucket)[1]):
            counts = dict(word.split('=') for word in line.split()[4:])
            day = days.setdefault(line[4:14], [0, 0])
            day[0] += int(counts['rain']) * millimetres - rain
            day[1] += int(counts['ET']) * 0.0254 - et
        for day, (rain, et) in days.items():
            if abs(rain) > millimetres * 1.000001 or abs(et) > 0.0254 * 1.000001:
                raise Differs(f'{day} by {bucket}: the rain is off by {rain} mm, the evaporation by {et} mm')
        if abs(sum(rain for rain, _ in days.values())) > millimetres:
            raise Differs(f'all days by {bucket} are off')


def bucket_that_changed(program):
    """A station's bucket that was changed counts from the beginning of its day on, on either way."""
    (program.folder / 'roof.env').write_text('TZ=<+01>-1\nBUCKET=0.01in\nBUCKET_FROM=2024-07-04 0.2mm\n')
    places = ('--station', 'roof', '--settings', '.', '--archives', '.')
    lines = ['row 2024-07-03 23:55 5 rain=3\n', 'row 2024-07-04 00:00 5 rain=2\n', 'row 2024-07-04 00:05 5 rain=5\n']
    program.write('roof.archive', ''.join(lines))
    program.write('prints', PRINTS)
    (program.folder / 'prints').chmod(0o755)
    status, _, told = run(program, 'database', DATABASE, *places, '--program', './prints')
    hold('the status', (status, told), (0, 'weewx: 3 rows added; left out: 0 rows\n'))
    hold('the rain', [round(rain * 25.4, 6) for rain, in values_in(program, 'rain')], [0.762, 0.508, 1.0])
    hold('the rows', rows(program, *places)[:2], (0, lines))
    (program.folder / 'roof.env').write_text('TZ=<+01>-1\nBUCKET=0.2mm\nBUCKET_FROM=2024-07-04 0.1mm\n')
    (program.folder / DATABASE).unlink()
    make_table(program, COLUMNS, [(1720047300 + 600 * number, 17, 5, {'rain': rain}) for number, rain in enumerate((0.09, 0.07))])
    hold('a rest in clicks of half the size', rows(program, *places)[1],
         ['row 2024-07-03 23:55 5 rain=0\n', 'row 2024-07-04 00:05 5 rain=2\n'])
    hold('the zone of an option', rows(program, *places, '--zone', 'Etc/GMT-2')[1][0][:20], 'row 2024-07-04 00:55')
    hold('the bucket of an option', rows(program, *places, '--bucket', '0.1mm')[1],
         ['row 2024-07-03 23:55 5 rain=1\n', 'row 2024-07-04 00:05 5 rain=1\n'])
    program.write('other.archive', 'row 2024-07-05 00:05 5 rain=9\n')
    run(program, 'database', DATABASE, *places, '--archive', 'other.archive', '--program', './prints')
    hold('the archive of an option', [round(rain, 6) for rain, in values_in(program, 'rain')], [0.09, 0.07, 0.9])


def random_value(draw, field):
    """A count that a console's field can have."""
    if 'Dir' in field.name:
        return draw.randrange(16)
    _, _, least, greatest, more = KINDS[field.kind]
    raw = draw.randint(least, greatest)
    return raw - more if raw != field.missing else None


def random_lines(count):
    """Rows of random values, some of them missing, in random distances."""
    draw, moment = random.Random(70), FIRST
    for _ in range(count):
        moment += 300 * draw.choice((1, 1, 1, 1, 7, 300))
        values = {field.name: random_value(draw, field) for field in FIELDS
                  if field.name not in LOST and draw.random() < 0.9}
        words = ''.join(f' {name}={value}' for name, value in values.items() if value is not None)
        yield f'row {stamp(moment)} {draw.choice((1, 5, 10, 15, 30, 60, 120))}{words}\n'


def there_and_back(program):
    """Random rows come back as they were through a database of each system of units."""
    for system, count in RANDOM_ROWS.items():
        lines = list(random_lines(count))
        if system != 1:
            make_table(program, COLUMNS, [(FIRST - 300, system, 5, {})])
        hold('the way there', fill(program, lines), (0, f'weewx: {len(lines)} rows added; left out: 0 rows\n'))
        status, back, _ = rows(program)
        hold('the status', status, 0)
        for seen, wanted in zip(back[-len(lines):], lines, strict=True):
            hold(f'a row in units {system}', seen, wanted)
        (program.folder / DATABASE).unlink()


def what_is_lost(program):
    """Of a row with all fields those without a place are missing after the way there and back, and what limits removed is."""
    line = LINES[0].replace(' UV=73', ' UV=limit')
    status, told = fill(program, [line])
    hold('what is named', (status, re.search('without a place in the database: (.*)', told)[1]),
         (0, ', '.join(f'{name} 1' for name in sorted(LOST))))
    hold('the row', rows(program)[1], [without(line, LOST | {'UV'})])


CASES = (there_and_back, columns_of_weewx, all_fields_there, all_fields_back, metric_values_of_weewx, values_that_are_no_tenth,
         systems_in_one_database, values_beyond_a_range, rain_of_days, bucket_that_changed, what_is_lost)
AT_ONCE = 2

if __name__ == '__main__':
    sys.exit(try_all(sys.argv, __doc__, CASES, AT_ONCE))
