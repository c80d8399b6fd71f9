#!/usr/bin/python3
"""Tries what a page shows of each value, its year's chart, when its tables are made anew, and a page of several archives.

    tools/checks/try_page_values.py PROGRAM

A script of the model is in the program's place, but for one case. What is expected was worked out by hand. The last line is
'N passed, M failed', and the status is 1 if any failed.
"""
import sys
from datetime import date, timedelta

sys.dont_write_bytecode = True  # nothing is left beside the scripts

import rooms  # first: the imports below are of other rooms too
import field_values
from field_values import COUNTS, MINUTES, STAMPS
from joined import Archives, joined
from made_pages import (ARCHIVE, FOLDER, TOOLS, Units, made, make, page, page_charts, page_now, row_at, row_lines, rows_from,
                        seen, table)
from model.archive import CLOSED_GATE, THIS_VERSION, head_slot, sealed_batch, slots_to_add
from model.records import NAMES
from model.reports import report_lines
from model.rows import Row, row_line
from model.stamps import FIRST_DAY, LAST_DAY, stamp_of_texts
from reports import Archive, Refused, summaries
from stand_in import write_archive
from trying import Differs, hold, try_all
from try_fields import band_of, hold_nested, lines_of, texts

OLD, WHOLE = 'old', 'whole'
# Where rows of nine a day are parted: some days in both archives, none, parts of one day, all but few, and all.
PARTINGS = ((40, 60), (45, 45), (50, 50), (31, 33), (9, 63), (0, 80))
CUT = 'the report is cut: its last line has no line feed: '
# The lines of the last row, in either system of units, with the signs of those.
SIGNS = {False: ('°F', '%', 'inHg', 'mph', 'mph', 'W/m²', ''), True: ('°C', '%', 'hPa', 'm/s', 'm/s', 'W/m²', '')}
VALUES = {
    False: (('65.1', '48', '29.921', '11', '23', '871', '7.3'), ('0.0', '0', '0.000', '0', '0', '0', '0.0'),
            ('−4.8', '–', '–', '–', '–', '–', '–')),
    True: (('18.4', '48', '1013.2', '4.9', '10.3', '871', '7.3'), ('−17.8', '0', '0.0', '0.0', '0.0', '0', '0.0'),
           ('−20.4', '–', '–', '–', '–', '–', '–')),
}
# The lowest and the highest of these lines, each with its time.
LOWEST = {False: ('−5.8 04:45', '0 04:15', '0.000 04:15', '0 04:15', '0 04:15', '0 04:15', '0.0 04:15'),
          True: ('−21.0 04:45', '0 04:15', '0.0 04:15', '0.0 04:15', '0.0 04:15', '0 04:15', '0.0 04:15')}
HIGHEST = {False: ('65.5 04:05', '48 04:05', '29.921 04:05', '11 04:05', '23 04:05', '903 04:05', '8.1 04:05'),
           True: ('18.6 04:05', '48 04:05', '1013.2 04:05', '4.9 04:05', '10.3 04:05', '903 04:05', '8.1 04:05')}
TITLES = ('Temperature', 'Humidity', 'Pressure', 'Wind', 'Gust', 'Rain rate', 'Radiation', 'UV index', 'Dew point*')
OTHER_TITLES = ('Rain rate', 'Dew point*')
RATES = {('0.01in', False): ('0.30', 'in/h'), ('0.2mm', False): ('0.24', 'in/h'), ('0.1mm', False): ('0.12', 'in/h'),
         ('0.01in', True): ('7.6', 'mm/h'), ('0.2mm', True): ('6.0', 'mm/h'), ('0.1mm', True): ('3.0', 'mm/h')}
PROBES = ('Soil temperature 1', 'Soil temperature 2', 'Soil temperature 3', 'Soil temperature 4', 'Soil moisture 1',
          'Soil moisture 2', 'Soil moisture 3', 'Soil moisture 4', 'Leaf temperature 1', 'Leaf temperature 2', 'Leaf wetness 1',
          'Leaf wetness 2')
GROWING = {is_metric: list(zip(PROBES, values)) for is_metric, values in (
    (False, ('50.0', '54.0', '57.0', '52.0', '31', '32', '33', '200', '61.0', '59.0', '12', '15')),
    (True, ('10.0', '12.2', '13.9', '11.1', '31', '32', '33', '200', '16.1', '15.0', '12', '15')))}
RAIN = {('0.01in', False): '0.07', ('0.2mm', False): '0.06', ('0.1mm', False): '0.03',
        ('0.01in', True): '1.8', ('0.2mm', True): '1.4', ('0.1mm', True): '0.7'}


def rows_of_all_fields():
    """The three rows of the worked values."""
    return [Row(stamp_of_texts(*stamp.split()), minutes, tuple(map(counts.get, NAMES)), frozenset())
            for stamp, minutes, counts in zip(STAMPS, MINUTES, COUNTS)]


def days_of(rows):
    """The summaries of the days of some rows."""
    return summaries(report_lines(rows, 'days', FIRST_DAY, LAST_DAY))


def now_of(rows, units):
    """What is shown of the last of some rows."""
    read = [row_lines.row_of(row_line(row), units.buckets) for row in rows]
    return page_now.now_of(page_now.Seen(read, days_of(rows), {}, read[0].stamp.date()), units, read[-1].stamp)


def last_row_of_all_fields(_):
    """The last row is shown in either system of units: a value above zero, a zero, and one below, with the day's extremes."""
    rows = rows_of_all_fields()
    for (bucket, is_metric), rain in RAIN.items():
        units = Units(is_metric, row_lines.Buckets(bucket))
        for number, values in enumerate(VALUES[is_metric]):
            now = now_of(rows[:number + 1], units)
            hold('the titles', tuple(line.title for line in now.lines), TITLES)
            lines = [line for line in now.lines if line.title not in OTHER_TITLES]
            hold('the signs', tuple(line.sign for line in lines), SIGNS[is_metric])
            hold(f'the last of {number + 1} rows', tuple(line.value for line in lines), values)
        hold('the lowest', tuple(f'{line.low} {line.low_at}' for line in lines), LOWEST[is_metric])
        hold('the highest', tuple(f'{line.high} {line.high_at}' for line in lines), HIGHEST[is_metric])
        hold(f'the rain of {bucket}', now.sums[0].lines[0], ('3 February', rain))
        rate = next(line for line in now_of(rows[:1], units).lines if line.title == 'Rain rate')
        hold(f'the rate of {bucket}', (rate.value, rate.sign), RATES[bucket, is_metric])
        growing = now_of(rows[:1], units).growing
        hold('soil and leaf', [(line.title, line.value) for line in growing], GROWING[is_metric])


def winds(_):
    """A wind is shown with where it comes from."""
    for code, name in ((0, 'from N'), (4, 'from E'), (8, 'from S'), (12, 'from W'), (15, 'from NNW')):
        now = now_of([row_at('2024-07-01 00:05', windSpeed=10, windDir=code)], Units(False, row_lines.Buckets()))
        hold(f'the wind of code {code}', now.lines[3].beside, name)


def two_days():
    """Two days of rows: three on the first one, one on the second."""
    names = ('outTemp', 'highOutTemp', 'lowOutTemp', 'windSpeed', 'windGust', 'rain', 'UV', 'radiation')
    values = {'2024-07-01 00:05': (500, 520, 480, 5, 9, 1, 20, 400), '2024-07-01 00:10': (600, 640, 590, 7, 31, 2, 40, 600),
              '2024-07-01 00:15': (550, 560, 540, 6, 4, 0, 30, 500), '2024-07-02 00:05': (700, 710, 690, 2, 3, 0, 50, 700)}
    return [row_at(stamp, **dict(zip(names, numbers))) for stamp, numbers in values.items()]


def chart_of_a_year(_):
    """The chart of a year has of each day the extremes of temperature, the mean of it and of the wind, the greatest gust, and
    the sum of the rain."""
    rows, units = two_days(), Units(False, row_lines.Buckets())
    days = page_charts.rows_of_span('Year', [], days_of(rows), units)
    hold('the days', [(f'{day.stamp:%Y-%m-%d %H:%M}', day.interval) for day in days],
         [('2024-07-02 00:00', timedelta(days=1)), ('2024-07-03 00:00', timedelta(days=1))])
    wanted = {'lowOutTemp': (48, 69), 'highOutTemp': (64, 71), 'outTemp': (55, 70), 'windSpeed': (6, 2), 'windGust': (31, 3),
              'rain': (0.03, 0), 'UV': (3, 5), 'radiation': (500, 700)}
    field_values.hold_values('a day', {name: tuple(day.values[name] for day in days) for name in wanted}, wanted)
    axes = page_charts.chart.Picture(days, units.shown, span=timedelta(days=365)).figure().axes
    hold('its temperature', lines_of(axes[0]), {'outside': texts((55, 70))})
    hold('its extremes', [texts(pair) for pair in band_of(axes[0])], [texts((48, 64)), texts((69, 71))])
    hold('its wind, by steps of three days', lines_of(axes[3]), {'wind': texts((4,))})
    hold('its gust', [texts(pair) for pair in band_of(axes[3])], [texts((4, 31))])
    hold('its rain', texts(band_of(axes[4])[0]), texts((0, 0.03)))
    hold('its words', page_charts.words_of(days, units), 'temperature from 48.0 to 71.0 °F, wind up to 31 mph, 0.03 in of rain')


def tables_that_are_made_anew(program):
    """Tables are made anew for another size of the bucket, another name of the station, and other units."""
    def total(bucket, name, is_metric=True):
        write_archive(program.folder / ARCHIVE, two_days())
        archive = Archive(TOOLS / 'checks/stand_in.py', program.folder / ARCHIVE)
        with page.Folder(program.folder / FOLDER) as folder:
            one = page.Page(archive, folder, Units(is_metric, row_lines.Buckets(bucket)), name)
            texts_of_files, made_of = one.files_of_years((date(2024, 7, 1), date(2024, 7, 2)), archive.months())
            folder.write(texts_of_files, [file for _, files in made_of.values() for file in files], made_of)
        return table(program, 'climate-2024')[-1].split(',')[10]

    hold('the rain', total('0.01in', 'Roof'), '0.8')
    first = (program.folder / FOLDER / 'climate-2024.html').stat().st_mtime_ns
    hold('the rain again', total('0.01in', 'Roof'), '0.8')
    hold('the page of the same', (program.folder / FOLDER / 'climate-2024.html').stat().st_mtime_ns, first)
    hold('the rain of another bucket', total('0.2mm', 'Roof'), '0.6')
    total('0.2mm', 'Barn')
    hold('another name', 'Climate of 2024, Barn' in seen(program, 'climate-2024.html').text, True)
    hold('the rain in inches', total('0.2mm', 'Barn', is_metric=False), '0.02')  # three clicks are 0.6 mm


def reports_that_are_cut(program):
    """A report whose last line has no line feed is refused, and the page stays as it was."""
    write_archive(program.folder / ARCHIVE, two_days())
    cutter = program.folder / 'cutter'
    cutter.write_text(f'#!/bin/sh\n{TOOLS}/checks/stand_in.py "$@" | head -c -1\n')
    cutter.chmod(0o755)
    archive, day = Archive(cutter, program.folder / ARCHIVE), date(2024, 7, 1)
    days = (day, day)
    for ask, words in ((archive.lines_of_rows, days), (archive.days, days), (archive.months, ()), (archive.climate, (2024,))):
        try:
            ask(*words)
        except Refused as reason:
            hold('the reason', str(reason).split(': ', 1)[1][:len(CUT)], CUT)
        else:
            raise Differs('a report that is cut is taken')
    status, printed = made(program, script=cutter)
    hold('a page', (status, printed[:len('page: archive: ' + CUT)]), (1, 'page: archive: ' + CUT))
    hold('what is made', (program.folder / FOLDER / 'index.html').exists(), False)


def values_over_months(number):
    """The values of a row of some months: no two days are alike, some have no rain, and some rows have no temperature."""
    values = {'outTemp': 400 + 37 * number % 301, 'windGust': 11 * number % 29, 'rain': int(number % 17 == 0)}
    return {name: value for name, value in values.items() if (number + len(name)) % 13}


def rows_over_months():
    """Rows of some days around the end of a year, the last of each at midnight."""
    stamps = [f'2024-{day}' for day in ('11-29', '11-30', '12-01', '12-30', '12-31')]
    stamps += [f'2025-{day}' for day in ('01-01', '01-02', '02-28', '03-01')]
    return [row for place, day in enumerate(stamps)
            for row in rows_from(f'{day} 23:20', 9, lambda number, place=place: values_over_months(9 * place + number))]


def asked(archive):
    """All that a page asks of an archive."""
    first, last = date(1999, 12, 31), date(2127, 12, 31)
    years = {year: archive.climate(year)._asdict() for year in (2024, 2025)}
    return {'rows': archive.lines_of_rows(first, last), 'days': archive.days(first, last), 'months': archive.months(),
            'climate of': years}


def hold_joined(write, partings):
    """Holds two archives as one against one archive of all rows. The first word makes an archive of rows, and gives it. Each
    parting has the place of the first row of the later archive, and the place behind the last row of the older one."""
    rows = rows_over_months()
    wanted = asked(write(WHOLE, rows))
    for begin, end in partings:
        found = asked(Archives([write(ARCHIVE, rows[begin:]), write(OLD, rows[:end])]))
        hold_nested(f'of rows up to {end} and from {begin} the', found, wanted)
        for what in ('days', 'months'):
            hold(f'the order of the {what}', [*found[what]], [*wanted[what]])


def two_archives_as_one(program):
    """Two archives are the same as one archive of the rows of both, also where a day is parted or both have rows."""
    def write(name, rows):
        write_archive(program.folder / name, rows)
        return Archive(TOOLS / 'checks/stand_in.py', program.folder / name)

    hold_joined(write, PARTINGS[:1])
    one = write(ARCHIVE, [row_at('2024-07-01 00:05', outTemp=700)])
    other = write(OLD, [row_at('2024-07-01 00:05', outTemp=500)])
    day = date(2024, 7, 1)
    hold('a row that both have', Archives([one, other]).days(day, day)[day.isoformat()]['outTemp'].greatest, 700)
    hold('one archive', joined([one]), one)


def archives_of_the_program(program):
    """The same of archives of which the program reports."""
    def write(name, rows):
        batches = b''.join(sealed_batch(slots_to_add(rows[:number], rows[number:number + 1])) for number in range(len(rows)))
        program.write(name, head_slot(THIS_VERSION) + batches + CLOSED_GATE)
        return Archive(program.path, program.folder / name)

    hold_joined(write, PARTINGS)


def page_of_two_archives(program):
    """The page of an archive and of one that was put aside is that of all rows."""
    rows = rows_over_months()
    whole = make(program, rows)
    climate = seen(program, 'climate-2024.html').rows
    write_archive(program.folder / ARCHIVE, rows[60:])
    write_archive(program.folder / OLD, rows[:65])
    hold('a page of both', made(program, '--also', OLD), (0, ''))
    hold('its tables', seen(program).all('a', 'href'), ['climate-2025.html', 'climate-2024.html', 'last.json'])
    hold('its rows', seen(program).rows, whole.rows)
    hold('its pictures', seen(program).all('img', 'src'), whole.all('img', 'src'))
    hold('its climate', seen(program, 'climate-2024.html').rows, climate)
    hold('an archive that is missing', made(program, '--also', 'nowhere'), (1, 'page: nowhere: disk fault\n'))


CASES = (page_of_two_archives, two_archives_as_one, archives_of_the_program, last_row_of_all_fields, winds, chart_of_a_year,
         tables_that_are_made_anew, reports_that_are_cut)
AT_ONCE = 2

if __name__ == '__main__':
    sys.exit(try_all(sys.argv, __doc__, CASES, AT_ONCE))
