#!/usr/bin/python3
"""Tries which rows weewx.py takes on either way, and what it refuses: gaps, hours that come twice, older columns, databases that
others have open or that are damaged, second runs, and many rows.

    tools/checks/try_weewx.py PROGRAM [--whole]

A script that prints the lines of a file is in the program's place, but for two cases. WeeWX itself is not at hand: databases are
made here with its columns. With --whole the way there and back takes ten years of five minutes, and else a tenth of a year. The
last line is 'N passed, M failed', and the status is 1 if any failed.
"""
import os
import random
import re
import subprocess
import sys
from datetime import datetime, timedelta

sys.dont_write_bytecode = True  # nothing is left beside the scripts

from field_values import LINES, NAMES
from model.archive import CLOSED_GATE, THIS_VERSION, head_slot, sealed_batch, slots_to_add
from model.rows import Row, row_line
from model.stamps import stamp_of_texts
from trying import Differs, hold, try_all
from weewx_databases import (ARCHIVE, BUCKET, COLUMNS, DATABASE, FIRST, LOST, OLD_COLUMNS, PRINTS, TOOLS, ZONE, fill, link_to,
                             make_table, rows, run, stamp, values_in)

WHOLE = '--whole'
TEN_YEARS, TENTH_OF_A_YEAR = 10 * 365 * 288 + 2 * 288, 10_512
MEMORY_KB = 150_000


def rows_that_have_no_place(program):
    """A row of an odd interval, of odd units, of the same minute or before 2000 is left out and named; seconds are cut off."""
    entries = [(-300, 1, 5, {'outTemp': 50}), (FIRST, 1, 5, {'outTemp': 51}), (FIRST + 30, 1, 5, {'outTemp': 52}),
               (FIRST + 300, 1, 7, {'outTemp': 53}), (FIRST + 600, 2, 5, {'outTemp': 54}), (FIRST + 959, 1, 1, {'outTemp': 55}),
               (5_000_000_000, 1, 5, {'outTemp': 56}), (10 ** 17, 1, 5, {'outTemp': 57})]
    make_table(program, COLUMNS, entries)
    status, lines, told = rows(program)
    hold('the status', status, 3)
    hold('the rows', lines, [f'row {stamp(FIRST)} 5 outTemp=510\n', f'row {stamp(FIRST + 900)} 1 outTemp=550\n'])
    for moment, reason in ((-300, 'it is before 2000'), (FIRST + 30, 'is not later than'), (FIRST + 300, 'an interval of 7 '),
                           (FIRST + 600, 'usUnits 2 '), (5_000_000_000, 'after 2127'), (10 ** 17, 'after 2127')):
        if not re.search(f'left out: the row of dateTime {moment}: .*{reason}', told):
            raise Differs(f'{moment}: {told}')
    for text in ('weewx: 1 row did not end on a full minute: ', 'weewx: 2 rows; left out: 6 rows and 0 values\n'):
        if text not in told:
            raise Differs(told)


def gaps_and_mixed_intervals(program):
    """Rows of 5 and of 30 minutes stand in one archive, and a gap is a gap."""
    entries = [(FIRST, 1, 5, {'rain': 0.01}), (FIRST + 300, 1, 5, {'rain': 0}), (FIRST + 2_100, 1, 30, {'rain': 0.02}),
               (FIRST + 90_000, 1, 30, {}), (FIRST + 90_060, 1, 1, {'rain': 0.05})]
    entries += [(FIRST + 100_020 + 60 * minutes, 1, minutes, {}) for minutes in (10, 15, 60, 120)]
    make_table(program, COLUMNS, entries)
    wanted = [f'row {stamp(FIRST)} 5 rain=1\n', f'row {stamp(FIRST + 300)} 5 rain=0\n', f'row {stamp(FIRST + 2_100)} 30 rain=2\n',
              f'row {stamp(FIRST + 90_000)} 30\n', f'row {stamp(FIRST + 90_060)} 1 rain=5\n']
    wanted += [f'row {stamp(FIRST + 100_020 + 60 * minutes)} {minutes}\n' for minutes in (10, 15, 60, 120)]
    hold('the rows', rows(program)[:2], (0, wanted))


def hour_of_autumn(program):
    """Where a zone's clock goes back, of two rows with one stamp the later is named and left out, with its rain. Where the clock
    keeps its time, both have their own."""
    begin = 1_729_989_900  # 2024-10-27 00:45 UTC, 15 minutes before the clocks of Berlin go back to 2:00
    make_table(program, COLUMNS, [(begin + 900 * number, 1, 15, {'outTemp': 50 + number, 'rain': 0.015}) for number in range(7)])
    status, lines, told = rows(program, '--zone', 'Europe/Berlin')
    hold('the rows of a clock that goes back', (status, lines), (3, [
        'row 2024-10-27 02:45 15 outTemp=500 rain=2\n', 'row 2024-10-27 03:00 15 outTemp=550 rain=1\n',
        'row 2024-10-27 03:15 15 outTemp=560 rain=2\n']))
    hold('what is named', re.findall(r'the row of dateTime (\d+): (\S+ \S+) is not later', told),
         [(str(begin + 900 * number), f'2024-10-27 02:{15 * number - 15:02}') for number in range(1, 5)])
    status, lines, told = rows(program, '--zone', '<+01>-1')
    hold('the stamps of a clock that does not', (status, [line[15:20] for line in lines]),
         (0, ['01:45', '02:00', '02:15', '02:30', '02:45', '03:00', '03:15']))


def hours_of_the_other_way(program):
    """Into a database, a stamp that comes twice is taken as of the first time, and one that does not come is left out."""
    lines = ['row 2024-03-31 02:30 5 outTemp=500\n', 'row 2024-03-31 03:00 5 outTemp=501\n', 'row 2024-10-27 02:30 5 outTemp=502\n',
             'row 2024-10-27 03:00 5 outTemp=503\n']
    status, told = fill(program, lines, '--zone', 'Europe/Berlin')
    hold('the status', status, 3)
    hold('the rows', values_in(program, 'dateTime', 'outTemp'), [(1711846800, 50.1), (1729989000, 50.2), (1729994400, 50.3)])
    for text in ('left out: 2024-03-31 02:30 does not come in Europe/Berlin', '1 row of an hour that comes twice in Europe/Berlin'):
        if text not in told:
            raise Differs(told)
    hold('a second run', fill(program, lines, '--zone', 'Europe/Berlin'), (0, 'weewx: 0 rows added; left out: 0 rows\n'))


def older_columns(program):
    """The older columns of WeeWX are taken, and a column that is missing is a field that is missing."""
    make_table(program, OLD_COLUMNS, [(FIRST, 1, 5, {'outTemp': 50, 'dewpoint': 40, 'altimeter': 30})])
    status, lines, told = rows(program)
    hold('the old columns', (status, lines), (0, [f'row {stamp(FIRST)} 5 outTemp=500\n']))
    hold('what has no place', 'weewx: without a place in a row: altimeter 1, dewpoint 1\n' in told, True)
    (program.folder / DATABASE).unlink()
    make_table(program, 'outTemp rainRate', [(FIRST, 1, 5, {'outTemp': 50, 'rainRate': 0.3})])
    hold('two columns', rows(program)[:2], (0, [f'row {stamp(FIRST)} 5 outTemp=500 highRainRate=30\n']))
    status, told = fill(program, [f'row {stamp(FIRST + 300)} 5 outTemp=510 rain=1 UV=2\n'])
    hold('two columns that get a row', (status, values_in(program, '*')[1:]), (0, [(FIRST + 300, 1, 5, 51.0, None)]))
    hold('what has no column', 'weewx: without a place in the database: UV 1, rain 1\n' in told, True)


def database_of_another_process(program):
    """Of a database that another process has open, what was committed is read, also from its log."""
    make_table(program, COLUMNS, [(FIRST, 1, 5, {'outTemp': 50})])
    with link_to(program) as other:
        hold('its log', other.execute('PRAGMA journal_mode=WAL').fetchone(), ('wal',))
        other.execute(f'INSERT INTO archive (dateTime, usUnits, `interval`, outTemp) VALUES ({FIRST + 300}, 1, 5, 51)')
        other.execute('BEGIN IMMEDIATE')
        other.execute(f'INSERT INTO archive (dateTime, usUnits, `interval`, outTemp) VALUES ({FIRST + 600}, 1, 5, 52)')
        hold('the rows', rows(program)[:2], (0, [f'row {stamp(FIRST + 300 * number)} 5 outTemp={500 + 10 * number}\n'
                                                for number in range(2)]))
        other.execute('COMMIT')
        left = {name: program.read(name) for name in (DATABASE, f'{DATABASE}-wal')}
    for name, data in left.items():
        program.write(name, data)  # as a process leaves them that is killed
    hold('the rows behind it', len(rows(program)[1]), 3)
    hold('what was only read', {name: program.read(name) for name in left} == left, True)
    hold('the files beside it, but for those of the log', {*os.listdir(program.folder)} - {f'{DATABASE}-wal', f'{DATABASE}-shm'},
         {DATABASE})
    with link_to(program) as other:
        other.execute('PRAGMA journal_mode=DELETE')
        other.execute('BEGIN EXCLUSIVE')
        status, told = fill(program, [f'row {stamp(FIRST + 900)} 5 outTemp=530\n'])
        hold('a database that is held', (status, told), (1, f'weewx: {DATABASE}: database is locked\n'))


def damaged_databases(program):
    """Nothing is printed of a database that is damaged, is none, or has no row, and it stays as it was."""
    make_table(program, COLUMNS, [(FIRST + 300 * number, 1, 5, {'outTemp': 50}) for number in range(2000)])
    whole = program.read(DATABASE)
    for what, data, reason in (
            ('a page within', whole[:8192 * 4] + b'\xff' * 8192 + whole[8192 * 5:], 'database disk image is malformed'),
            ('its end', whole[:len(whole) // 2], 'database disk image is malformed'),
            ('its head', b'\xff' * 100 + whole[100:], 'file is not a database'),
            ('text', b'period = 5\n' * 100, 'file is not a database'), ('nothing', b'', None)):
        program.write(DATABASE, data)
        told = f'weewx: {DATABASE}: {reason}\n' if reason else f'weewx: {DATABASE} has no table archive of WeeWX\n'
        hold(f'the rows of {what}', rows(program), (1, [], told))
        if what != 'a page within':  # of which an update has no need
            hold(f'what was written into {what}', fill(program, LINES)[0], 1)
        hold(f'what is left of {what}', program.read(DATABASE) == data, True)
    (program.folder / DATABASE).unlink()
    hold('one that is missing', rows(program), (1, [], f'weewx: {DATABASE}: unable to open database file\n'))
    make_table(program, COLUMNS, [])
    hold('one without rows', rows(program), (1, [], f'weewx: {DATABASE} has no row\n'))
    hold('one without rows that gets some', (fill(program, LINES)[0], len(values_in(program, '*'))), (0, 3))
    hold('what is there', sorted(os.listdir(program.folder)), sorted([DATABASE, ARCHIVE, 'prints']))


def second_runs(program):
    """A second run adds what is new and changes nothing; daily summaries that are old then are named."""
    lines = [f'row {stamp(FIRST + 300 * number)} 5 outTemp={500 + number} rain={number % 2}\n' for number in range(2000)]
    hold('a first run', fill(program, lines[:700]), (0, 'weewx: 700 rows added; left out: 0 rows\n'))
    with link_to(program) as link:
        link.execute('UPDATE archive SET outTemp = 99 WHERE dateTime = ?', [FIRST])
    hold('a second run', fill(program, lines), (0, 'weewx: 1300 rows added; left out: 0 rows\n'))
    hold('a third run', fill(program, lines), (0, 'weewx: 0 rows added; left out: 0 rows\n'))
    hold('what is there', values_in(program, 'dateTime', 'outTemp')[1:],
         [(FIRST + 300 * number, (500 + number) / 10) for number in range(1, 2000)])
    hold('a row that was changed', values_in(program, 'outTemp')[0], (99.0,))
    with link_to(program) as link:
        link.execute('CREATE TABLE archive_day_outTemp (dateTime INTEGER)')
    _, told = fill(program, [*lines, f'row {stamp(FIRST + 900_000)} 5 outTemp=1\n'])
    hold('daily summaries', 'has daily summaries of WeeWX, which lack these rows' in told, True)


def refusals(program):
    """What is refused is named in one line, and leaves no file and no part of a run."""
    program.write('whole', ''.join(LINES))
    before = sorted(os.listdir(program.folder))

    def refused(what, told, *words):
        status, printed, seen = run(program, 'database', 'new.sdb', '--program', './prints', *words)
        hold(what, (status, printed, seen), (1, '', told))
        hold(f'what is left of {what}', sorted(os.listdir(program.folder)), before)

    refused('a program that is missing', 'weewx: the program is missing: ./prints\n', '--archive', 'whole')
    program.write('prints', PRINTS)
    (program.folder / 'prints').chmod(0o755)
    before = sorted([*before, 'prints'])
    refused('an archive that is missing', 'weewx: nowhere: disk fault\n', '--archive', 'nowhere')
    refused('one of two that is missing', 'weewx: nowhere: disk fault\n', '--archive', 'whole', '--also', 'nowhere')
    program.write('empty', '')
    program.write('odd', 'row 2024-07-01 00:05 5 outTemp=1\nrow 2024-07-01 00:10 5 warmth=1\n')
    before = sorted([*before, 'empty', 'odd'])
    refused('an archive without rows', 'weewx: there is no row\n', '--archive', 'empty')
    refused('a field that is none', "weewx: there is no field 'warmth'\n", '--archive', 'odd')
    program.write('cutting', '')
    before = sorted([*before, 'cutting'])
    refused('a report that is cut', f'weewx: whole: the report is cut: its last line has no line feed: {LINES[-1][:80]}\n',
            '--archive', 'whole')
    os.rename(program.folder / 'cutting', program.folder / 'refused')
    before = sorted([*before, 'refused'])
    before.remove('cutting')
    refused('an archive that is damaged', 'weewx: whole: damaged at 352\n', '--archive', 'whole')
    (program.folder / 'refused').unlink()
    hold('a folder that is missing', run(program, 'database', 'no/new.sdb', '--program', './prints', '--archive', 'whole')[0], 1)
    hold('a database', fill(program, LINES)[0], 0)
    program.write('refused', '')
    status, told = fill(program, [*LINES, 'row 2025-07-01 00:05 5 outTemp=1\n'])
    hold('an update that is refused', (status, told, len(values_in(program, '*'))), (1, 'weewx: rows: damaged at 352\n', 3))
    with link_to(program) as link:
        link.execute('UPDATE archive SET usUnits = 5')
    hold('units that are none', fill(program, LINES), (1, f'weewx: {DATABASE}: usUnits 5 is none of 1, 16 and 17\n'))
    with open('/dev/full', 'w', encoding='ascii') as full:
        with link_to(program) as link:
            link.execute('UPDATE archive SET usUnits = 1')
        ran = subprocess.run([TOOLS / 'product/weewx.py', 'rows', DATABASE, '--zone', ZONE, '--bucket', BUCKET], cwd=program.folder,
                             stdout=full, stderr=subprocess.PIPE, text=True, check=False)
        hold('a full disk', (ran.returncode, ran.stderr.splitlines()[-1]), (1, 'weewx: [Errno 28] No space left on device'))


def last_rows_of_no_time(program):
    """A database whose last row is of no time that a clock can show is refused in one line, and stays as it was."""
    for moment in (1000 * FIRST, -10 ** 17):
        make_table(program, 'outTemp', [(moment, 1, 5, {'outTemp': 50})])
        hold(f'a last row of {moment}', fill(program, LINES), (
            1, f'weewx: the dateTime {moment} of the last row is no time: which rows are later is not known\n'))
        hold('what is there', values_in(program, '*'), [(moment, 1, 5, 50.0)])
        status, lines, told = rows(program)
        hold('its rows', (status, lines, told.splitlines()[-1]), (1, [], f'weewx: {DATABASE} has no row that can be taken'))
        (program.folder / DATABASE).unlink()


def first_and_last_minutes(program):
    """The first minute of 2000 and the last one of 2127 are taken, as the import takes them, and no minute beyond."""
    minutes = {'2000-01-01 00:00': 946_681_200, '2127-12-31 23:59': 4_985_967_540}
    moments = [moment + step for moment, step in zip(minutes.values(), (-60, 60))]
    make_table(program, COLUMNS, [(moment, 1, 1, {}) for moment in (*minutes.values(), *moments)])
    status, lines, told = rows(program)
    hold('the rows', (status, lines), (3, [f'row {minute} 1\n' for minute in minutes]))
    hold('what is left out', re.findall(r'left out: the row of dateTime (\d+)', told), [str(moment) for moment in moments])
    program.write('edge.rows', ''.join(lines))
    hold('their import', program.run('import edge.rows edge.archive'), (0, 'imported 2 passed 0 rows 2\n'))


def names_of_files(program):
    """A database is found by its name, whatever letters that has, on either way."""
    for name in ('my weather.sdb', 'roof#1.sdb', 'a?mode=rwc.sdb', 'b%20c.sdb'):
        make_table(program, COLUMNS, [(FIRST, 1, 5, {'outTemp': 50})], name)
        hold(f'the rows of {name}', run(program, 'rows', name)[:2], (0, f'row {stamp(FIRST)} 5 outTemp=500\n'))
        program.write(ARCHIVE, f'row {stamp(FIRST + 300)} 5 outTemp=510\n')
        program.write('prints', PRINTS)
        (program.folder / 'prints').chmod(0o755)
        told = run(program, 'database', name, '--archive', ARCHIVE, '--program', './prints')[2]
        hold(f'a row more in {name}', told, 'weewx: 1 row added; left out: 0 rows\n')
        (program.folder / name).unlink()
    hold('what is there', sorted(os.listdir(program.folder)), sorted([ARCHIVE, 'prints']))


def two_archives(program):
    """The rows of an archive that was put aside go into the database too. Of two with one stamp that of the archive is taken."""
    program.write('old', ''.join(f'row {stamp(FIRST + 300 * number)} 5 outTemp=400\n' for number in (0, 1, 3)))
    status, told = fill(program, [f'row {stamp(FIRST + 300 * number)} 5 outTemp=500\n' for number in (1, 2)], '--also', 'old')
    hold('the making', (status, told), (0, 'weewx: 4 rows added; left out: 0 rows\n'))
    hold('the rows', values_in(program, 'dateTime', 'outTemp'),
         [(FIRST + 300 * number, warmth) for number, warmth in enumerate((40.0, 50.0, 50.0, 40.0))])


def made_meanwhile(program):
    """A database that another process made while the rows were read is left as it is."""
    program.write('slow', f"#!/bin/sh\necho mine >{DATABASE}\ncat \"$2\"\n")
    (program.folder / 'slow').chmod(0o755)
    program.write(ARCHIVE, ''.join(LINES))
    status, printed, told = run(program, 'database', DATABASE, '--archive', ARCHIVE, '--program', './slow')
    hold('the end', (status, printed, told.splitlines()),
         (1, '', [f'weewx: {DATABASE} is there now: it was made meanwhile, and is left as it is']))
    hold('what is there', (program.read(DATABASE), sorted(os.listdir(program.folder))), (b'mine\n', sorted([ARCHIVE, DATABASE, 'slow'])))


def words_out_of_form(program):
    """Words out of form end with status 2."""
    make_table(program, COLUMNS, [(FIRST, 1, 5, {})])
    for words in ((), ('rows',), ('take', DATABASE), ('rows', DATABASE, '--zone', ZONE), ('rows', DATABASE, '--bucket', BUCKET),
                  ('rows', DATABASE, '--zone', 'Nowhere', '--bucket', BUCKET), ('rows', DATABASE, '--zone', ZONE, '--bucket', '1in'),
                  ('database', 'new.sdb', '--zone', ZONE, '--bucket', BUCKET)):
        ran = subprocess.run([TOOLS / 'product/weewx.py', *words], cwd=program.folder, capture_output=True, text=True, check=False)
        hold(f'{words}', (ran.returncode, ran.stdout), (2, ''))
    status, _, told = run(program, 'rows', DATABASE, '--station', 'roof', '--settings', '.')
    hold('a station that is none', (status, told), (1, 'weewx: ./roof.env: No such file or directory\n'))
    hold('what is there', os.listdir(program.folder), [DATABASE])


def measured(words, folder, output):
    """Runs a command; gives its seconds of a processor, and the most memory that it took, in KB."""
    with open(folder / output, 'wb') as file:
        process = subprocess.Popen(words, cwd=folder, stdout=file, stderr=subprocess.DEVNULL)
        _, status, used = os.wait4(process.pid, 0)
    hold('the status', status, 0)
    if used.ru_maxrss > MEMORY_KB:
        raise Differs(f'{used.ru_maxrss} KB of memory')
    return f'{used.ru_utime + used.ru_stime:.0f} s of a processor and {used.ru_maxrss // 1024} MB of memory'


def many_rows(program):
    """Many rows go there and back in little memory."""
    count = TEN_YEARS if is_whole else TENTH_OF_A_YEAR
    draw, begin = random.Random(1), datetime(2015, 1, 1)
    program.write('prints', PRINTS)
    (program.folder / 'prints').chmod(0o755)
    with open(program.folder / ARCHIVE, 'w', encoding='ascii') as file:
        for number in range(1, count + 1):
            file.write(f'row {begin + number * timedelta(minutes=5):%Y-%m-%d %H:%M} 5 outTemp={draw.randint(0, 900)} '
                       f'rain={draw.choice((0, 0, 0, 0, 2))} highRainRate=0 barometer={draw.randint(29_000, 31_000)} '
                       f'radiation={draw.randint(0, 999)} inTemp={draw.randint(650, 720)} inHumidity={draw.randint(40, 60)} '
                       f'outHumidity={draw.randint(20, 99)} windSpeed={draw.randint(0, 30)} windGust={draw.randint(0, 60)} '
                       f'windGustDir={draw.randrange(16)} windDir={draw.randrange(16)} UV={draw.randint(0, 110)} ET=0\n')
    place = ('--zone', ZONE, '--bucket', BUCKET)
    there = measured([TOOLS / 'product/weewx.py', 'database', DATABASE, '--archive', ARCHIVE, '--program', './prints', *place],
                     program.folder, 'told')
    back = measured([TOOLS / 'product/weewx.py', 'rows', DATABASE, *place], program.folder, 'back')
    print(f'{count} rows: there {there}, back {back}', file=sys.stderr)
    hold('the rows', program.read('back') == program.read(ARCHIVE), True)


def archives_of_the_program(program):
    """The program's own archive goes into a database, and the rows that come back are taken by its import."""
    stamps = [(datetime(2024, 7, 1) + number * timedelta(minutes=5)).strftime('%Y-%m-%d %H:%M') for number in range(1, 40)]
    made = [Row(stamp_of_texts(*text.split()), 5, tuple(number if name not in LOST and 'Dir' not in name else None
                                                         for name in NAMES), frozenset()) for number, text in enumerate(stamps, 1)]
    batches = b''.join(sealed_batch(slots_to_add(made[:number], made[number:number + 1])) for number in range(len(made)))
    program.write('roof.archive', head_slot(THIS_VERSION) + batches + CLOSED_GATE)
    status, _, told = run(program, 'database', DATABASE, '--archive', 'roof.archive', '--program', program.path)
    hold('the way there', (status, told), (0, 'weewx: 39 rows added; left out: 0 rows\n'))
    status, back, _ = rows(program)
    hold('the way back', back, [f'{row_line(row)}\n' for row in made])
    program.write('back.rows', ''.join(back))
    hold('what is taken', program.run('import back.rows new.archive'), (0, 'imported 39 passed 0 rows 39\n'))
    hold('its report', program.run('report new.archive rows 1999-12-31 2127-12-31'), (0, ''.join(back)))


def from_database_to_database(program):
    """The rows of a database are imported and reported, and a second database of that archive has the first one's values."""
    with_rain = [(FIRST + 300 * number, 1, 5, {'outTemp': (500 + number % 97) / 10, 'barometer': (29_900 + number) / 1000,
                                              'windDir': number % 16 * 22.5, 'rain': number % 3 / 100})
                 for number in range(0, 2_000) if number % 50]
    make_table(program, COLUMNS, with_rain)
    status, lines, told = rows(program)
    hold('the rows', (status, told), (0, 'weewx: 1960 rows; left out: 0 rows and 0 values\n'))
    program.write('weewx.rows', ''.join(lines))
    hold('the import', program.run('import weewx.rows roof.archive'), (0, 'imported 1960 passed 0 rows 1960\n'))
    hold('the report', program.run('report roof.archive rows 1999-12-31 2127-12-31'), (0, ''.join(lines)))
    columns = ('dateTime', '`interval`', 'outTemp', 'barometer', 'windDir', 'rain')
    wanted = values_in(program, *columns)
    os.rename(program.folder / DATABASE, program.folder / 'first.sdb')
    hold('the second one', run(program, 'database', DATABASE, '--archive', 'roof.archive', '--program', program.path),
         (0, '', 'weewx: 1960 rows added; left out: 0 rows\n'))
    hold('its values', values_in(program, *columns), wanted)


CASES = (many_rows, rows_that_have_no_place, gaps_and_mixed_intervals, hour_of_autumn, hours_of_the_other_way, older_columns,
         database_of_another_process, damaged_databases, second_runs, refusals, last_rows_of_no_time, first_and_last_minutes,
         names_of_files, two_archives, made_meanwhile, words_out_of_form, archives_of_the_program, from_database_to_database)
AT_ONCE = 2
is_whole = WHOLE in sys.argv

if __name__ == '__main__':
    sys.exit(try_all([word for word in sys.argv if word != WHOLE], __doc__, CASES, AT_ONCE))
