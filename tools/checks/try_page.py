#!/usr/bin/python3
"""Tries page.py: on rows whose page is worked out by hand, and on odd archives.

    tools/checks/try_page.py PROGRAM

A script of the model is in the program's place, but for one case. The last line is 'N passed, M failed', and the status is 1 if
any failed.
"""
import os
import re
import shutil
import sys
import threading
from datetime import date, datetime, timedelta

sys.dont_write_bytecode = True  # nothing is left beside the scripts

from made_pages import (ARCHIVE, FOLDER, Seen, Texts, Units, made, make, make_small, make_tables, now_of, page_charts, page_now,
                        page_of, row_at, row_lines, rows_from, seen, table, worked_rows, zone_named)
from model.archive import CLOSED_GATE, THIS_VERSION, head_slot, sealed_batch, slots_to_add
from stand_in import write_archive
from trying import Differs, hold, try_all

ROUNDS = 200  # in which a page is made while it is read
LONG_PICTURE = f'<svg>{" " * 100_000}</svg>'


def last_row_and_its_day(program):
    """What is shown of the last row was worked out by hand, in either units."""
    shown = make(program, worked_rows())
    hold('temperature', shown.row('Temperature °F'), ['67.1', '+3.6', '59.9 00:05', '67.4 05:55'])
    hold('humidity', shown.row('Humidity %'), ['50', '+0', '50 00:05', '50 00:05'])
    hold('pressure', shown.row('Pressure inHg'), ['29.929', '−0.036', '29.929 05:55', '29.999 00:05'])
    hold('wind', shown.row('Wind mph'), ['10 from E', '+0', '10 00:05', '10 00:05'])
    hold('gust', shown.row('Gust mph'), ['20', '+0', '20 00:05', '21 00:15'])
    hold('rain', [shown.row(title) for title in ('1 July', 'July', '2024, since 30 June')], [['0.01'], ['0.01'], ['0.03']])
    shown = make(program, worked_rows(), '--metric', '--bucket', '0.2mm')
    hold('temperature', shown.row('Temperature °C'), ['19.5', '+2.0', '15.5 00:05', '19.7 05:55'])
    hold('rain', [shown.row(title) for title in ('1 July', 'July', '2024, since 30 June')], [['0.2'], ['0.2'], ['0.6']])


def climate_tables(program):
    """The tables were worked out by hand: a day that lacks a row is marked, as is the one that is not over."""
    make_tables(program, worked_rows())
    shown = seen(program, 'climate-2024.html')
    day = ['23.9', '60.0', '60.3', '00:05', '59.8', '00:05', '5.0', '0.0', '0.02', '10', '20', '00:05']
    hold('30 June', shown.row('30*'), day)
    hold('1 July', shown.row('1*'),
         ['5.9', '63.6', '67.4', '05:55', '59.9', '00:05', '1.4', '0.0', '0.01', '10', '21', '00:15'])
    hold('June', table(program, 'climate-2024-06')[1:], [','.join(['30', *day]), ','.join(
        ['Month', '23.9', '60.0', '60.3', '06-30', '59.8', '06-30', '5.0', '0.0', '0.02', '10', '20', '06-30'])])
    hold('2024', table(program, 'climate-2024')[-1], 'Year,2,2,60.7,67.4,07-01,59.8,06-30,6.4,0.0,0.03,10,21,07-01')
    make_tables(program, worked_rows(), '--metric')
    hold('2024 in metric units', table(program, 'climate-2024')[-1],
         'Year,2,2,15.9,19.7,07-01,15.4,06-30,3.6,0.0,0.8,4.5,9.4,07-01')
    hold('its links', sorted(shown.all('a', 'href')), sorted(
        ['index.html', '#climate-2024', '#climate-2024-06', '#climate-2024-07', 'climate-2024.csv', 'climate-2024-06.csv',
         'climate-2024-07.csv']))


def midnight_of_a_month(program):
    """A row of midnight is of the day and of the month before."""
    make_tables(program, [row_at('2024-06-30 12:00', outTemp=500), row_at('2024-07-01 00:00', outTemp=700)])
    hold('June', table(program, 'climate-2024-06')[1:],
         ['30,0.2,60.0,70.0,00:00,50.0,12:00,5.0,0.0,,,,', 'Month,0.2,60.0,70.0,06-30,50.0,06-30,5.0,0.0,,,,'])
    hold('the day of the last row', now_of([row_at('2024-07-01 00:00', outTemp=700)]).day, date(2024, 6, 30))
    hold('a table of July', (program.folder / FOLDER / 'climate-2024-07.csv').exists(), False)


def days_without_rows(program):
    """A day without a row stands in its table, marked; days before the archive do not."""
    make_tables(program, [row_at('2024-07-03 12:00', outTemp=650), row_at('2024-07-06 12:00', outTemp=650)])
    hold('July', [line.split(',')[:3] for line in table(program, 'climate-2024-07')[1:-1]],
         [['3', '0.1', '65.0'], ['4', '0.0', ''], ['5', '0.0', ''], ['6', '0.1', '65.0']])
    shown = seen(program, 'climate-2024.html')
    hold('days that are marked', [row[0] for row in shown.rows if row[0].endswith('*')], ['3*', '4*', '5*', '6*'])
    hold('days that lack rows', shown.row('July')[0], '4')


def day_that_is_whole(program):
    """A day of which no row is missing is not marked."""
    make_tables(program, rows_from('2024-07-01 00:05', 288, lambda number: {'outTemp': 650}))
    hold('the day', seen(program, 'climate-2024.html').row('1')[:2], ['24.0', '65.0'])


def empty_archive(program):
    """The page of an archive without rows says so."""
    shown = make(program, [])
    hold('what it says', 'There is no reading yet' in shown.text, True)
    hold('pictures', shown.all('img', 'src'), [])


def single_row(program):
    """One row makes a whole page."""
    shown = make(program, [row_at('2024-07-01 00:05', outTemp=-5)])
    hold('temperature', shown.row('Temperature °F'), ['−0.5', '–', '−0.5 00:05', '−0.5 00:05'])
    hold('wind', shown.row('Wind mph'), ['–', '–', '–', '–'])
    hold('rain', shown.row('2024, since 1 July'), ['–'])
    hold('how young it is', 'Year: 1 day so far' in shown.text, True)
    hold('pictures', len(shown.all('img', 'src')), 4)


def day_of_limits(program):
    """Values that limits took away are shown as none."""
    shown = make(program, rows_from('2024-07-01 00:05', 12, lambda number: {'outTemp': 'limit', 'rain': 0}))
    hold('temperature', shown.row('Temperature °F'), ['–', '–', '–', '–'])
    hold('its picture', shown.all('img', 'alt')[0], 'Day up to 2024-07-01 01:00: 0.00 in of rain.')
    hold('the day', table(program, 'climate-2024-07')[1], '1,1.0,,,,,,,,0.00,,,')


def trend_of_three_hours(_):
    """The trend is of the row three hours before, and of none if that one is missing."""
    rows = [row_at('2024-07-01 09:05', outTemp=600), row_at('2024-07-01 12:00', outTemp=650)]
    hold('no trend', now_of(rows).lines[0].change, '–')
    hold('a zero', Units(True, row_lines.Buckets()).text('outTemp', 31.95), '0.0')
    hold('a trend', now_of([row_at('2024-07-01 09:00', outTemp=690), *rows]).lines[0].change, '−4.0')


def age_of_the_last_row(program):
    """The age is that by this machine's clock in the zone of TZ."""
    stamp = f'{datetime.utcnow() + timedelta(hours=3, minutes=-14):%Y-%m-%d %H:%M}'
    write_archive(program.folder / ARCHIVE, [row_at(stamp, outTemp=1)])
    hold('the making', made(program, env=os.environ | {'TZ': '<+03>-3'}), (0, ''))
    if not re.search(', 1[45] minutes old', seen(program).text):
        raise Differs(seen(program).text)
    then, english = datetime(2024, 7, 1, 12), Texts('en')
    hold('a row of the future', page_now.age_text(then, then - timedelta(minutes=30), english),
         '30 minutes ahead of this machine’s clock')
    for minutes, wanted in ((-1, '1 minute ahead of this machine’s clock'), (1, '1 minute old'), (119, '119 minutes old'),
                            (120, '2 hours old'), (2879, '47 hours old'), (2880, '2 days old'), (5000, '3 days old')):
        hold(f'{minutes} minutes', page_now.age_text(then, then + timedelta(minutes=minutes), english), wanted)


def hour_that_comes_twice(program):
    """The hour that is going to be lost as summer time ends, from 31 days before, and in no zone without summer time."""
    for zone, day, wanted in (('Europe/Berlin', 30, True), ('Europe/Berlin', 32, False), ('<+01>-01', 30, False)):
        one = page_of(program, [])
        one.zone = zone_named(zone)
        one.write_files({}, [[], []], {}, made=datetime(2024, 10, 27, 3) - timedelta(days=day), now=None)
        text = '02:00 to 03:00 of 2024-10-27 will come twice as summer time ends. The second time will be lost.'
        hold(f'{zone}, {day} days before', text in seen(program).text, wanted)


def program_without_climate(program):
    """Without the command `climate` the page has no tables, and says so."""
    shown = make_small(program, worked_rows(), has_climate=False)
    text = ' '.join(shown.text.split())
    hold('what it says', 'There are no climate tables: the installed program has no command climate' in text, True)
    hold('tables', list((program.folder / FOLDER).glob('climate*')), [])


def refusals(program):
    """What is refused leaves the page as it was, and is named."""
    make_small(program, worked_rows())
    before = (program.folder / FOLDER / 'index.html').read_text()
    shutil.rmtree(program.folder / ARCHIVE)
    hold('an archive that is missing', made(program), (1, 'page: archive: disk fault\n'))
    hold('a program that is missing', made(program, script='./nowhere'), (1, 'page: the program is missing: ./nowhere\n'))
    hold('a bucket that is none', made(program, '--bucket', '1in')[0], 2)
    hold('the page', (program.folder / FOLDER / 'index.html').read_text(), before)


def years_that_do_not_change(program):
    """Tables of a year are made anew if its rows, the units or the name change, and else they stand."""
    rows = [row_at('2023-12-31 12:00', outTemp=600), row_at('2024-01-01 12:00', outTemp=610)]
    make_tables(program, rows)
    file = program.folder / FOLDER / 'climate-2023.html'
    first = file.stat().st_mtime_ns
    make_tables(program, [*rows, row_at('2024-01-02 12:00', outTemp=620)])
    hold('the year before', file.stat().st_mtime_ns, first)
    hold('the year', len(table(program, 'climate-2024-01')), 4)
    rows[0] = row_at('2023-12-31 12:00', outTemp=590)
    make_tables(program, rows)
    hold('other rows', table(program, 'climate-2023')[-1].split(',')[3], '59.0')
    make_tables(program, rows, '--metric')
    hold('other units', table(program, 'climate-2023')[-1].split(',')[3], '15.0')
    make_tables(program, [row_at('2023-12-30 12:00', outTemp=600)])
    hold('its days', len(table(program, 'climate-2023-12')), 3)
    make_tables(program, [row_at('2023-12-30 12:00', outTemp=600), rows[1]])
    hold('its days, once a later year has rows', len(table(program, 'climate-2023-12')), 4)


def whole_page(folder):
    """Reads a page and what it names, each of which has to be whole."""
    text = (folder / 'index.html').read_text(encoding='utf-8')
    if not text.rstrip().endswith('</html>'):
        raise Differs('half a page')
    for name in Seen(text).all('img', 'src'):
        picture = folder / name
        if not picture.exists() or not picture.read_text().rstrip().endswith('</svg>'):
            raise Differs(f'no whole {name}')


def read_until(folder, done, troubles):
    """Reads a page again and again."""
    while not done.is_set():
        try:
            whole_page(folder)
        except (Differs, OSError) as reason:
            troubles.append(reason)
            return


def reader_of_a_page(program):
    """Who reads the folder while pages are made never sees half a page, nor one without its pictures."""
    one, now, folder = page_of(program, worked_rows()), now_of(worked_rows()), program.folder / FOLDER
    charts = [page_charts.Chart('Day', f'day-{number}.svg', 1, 1, 'none', LONG_PICTURE) for number in range(ROUNDS)]

    def write(chart):
        one.write_files({}, [[chart], []], {}, made=now.stamp, now=now)

    done, troubles = threading.Event(), []
    write(charts[0])
    reader = threading.Thread(target=read_until, args=(folder, done, troubles))
    reader.start()
    for chart in charts:
        write(chart)
    done.set()
    reader.join()
    hold('what was seen', troubles, [])
    hold('what is left', list(folder.glob('.new-*')), [])
    hold('charts that may be open', len(list(folder.glob('*.svg'))), ROUNDS)
    for file in folder.glob('*.svg'):
        os.utime(file, (0, 0))
    write(charts[-1])
    hold('old charts', [file.name for file in folder.glob('*.svg')], [charts[-1].file])


def pages_of_the_program(program):
    """The program's own page is the one of the model, but for climate tables if it has none."""
    rows = worked_rows()
    shown = make(program, rows, has_climate=False)
    shutil.rmtree(program.folder / ARCHIVE)
    batches = b''.join(sealed_batch(slots_to_add(rows[:number], rows[number:number + 1])) for number in range(len(rows)))
    program.write(ARCHIVE, head_slot(THIS_VERSION) + batches + CLOSED_GATE)
    hold('the making', made(program, script=program.path), (0, ''))
    hold('the last row and its day', seen(program).rows, shown.rows)
    hold('the charts', seen(program).all('img', 'src'), shown.all('img', 'src'))


CASES = (last_row_and_its_day, climate_tables, midnight_of_a_month, days_without_rows, day_that_is_whole, empty_archive, single_row,
         day_of_limits, trend_of_three_hours, age_of_the_last_row, hour_that_comes_twice, program_without_climate, refusals,
         years_that_do_not_change, reader_of_a_page, pages_of_the_program)
AT_ONCE = 2

if __name__ == '__main__':
    sys.exit(try_all(sys.argv, __doc__, CASES, AT_ONCE))
