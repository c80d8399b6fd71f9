#!/usr/bin/python3
"""Makes a web page of an archive: the last row and its day, charts, and climate tables.

    jofitrana-page --station roof
    jofitrana-page --metric --bucket 0.2mm --name 'Roof, Bern' roof.archive /var/www/html/roof

With `--station` the archive, the units, the name, the rain bucket and the zone of the console's clock are the station's, and
FOLDER is NAME.page beside its archive if no other one is named. FOLDER gets index.html, its charts, the last row as data in
last.json, and a page of climate tables for each year with each table as CSV beside it. A page asks no other host and has no
script. Each file is replaced as a whole, and a new chart has a new name, so a reader of the folder never sees half a page. What
did not change is not made anew. A list of its own files stands in FOLDER: others are neither replaced, without `--replace`, nor
taken away. With `--also OLD`, once or more, it has the rows of archives that were put aside too. Times are the console's.
Without `--station` this machine's clock has to show them, so set TZ if it does not. An archive that is a station's, named without
the station and without a bucket, is reported on standard error.
Statuses: 0, 1 if a report is refused or cut, or the folder cannot be written or has a file of others in the way, 2 if the words
are out of form.
"""
import argparse
import hashlib
import os
import sys
from datetime import date, datetime, timedelta
from pathlib import Path

sys.dont_write_bytecode = True  # nothing is left beside an installed script

try:
    import jinja2
except ImportError:
    sys.exit('page: jinja2 is missing; on Debian: apt install python3-jinja2')

import page_charts
import page_now
import page_texts
import rows as row_lines
import stations
import summer_time
from climate_tables import YearOfRows, tables_of
from even_rain import even_rain
from joined import joined
from page_folder import INDEX, Folder, Foreign
from reports import Archive, Refused
from stopping import stop_as_refused
from units import Units

TEMPLATES = Path(os.path.realpath(__file__)).parent / 'page'
UNNAMED = 'Weather station'
DATA = 'last.json'
DAY, MONTH = timedelta(days=1), timedelta(days=31)
YEAR_DAYS = page_charts.SPANS['Year']


def days_within(year, first, last):
    """The part of a time that lies in a year, by its first day and its last."""
    return max(first, date(year, 1, 1)), min(last, date(year, 12, 31))


class Page:
    """The page of an archive. A zone is that of the console's clock, and none is this machine's."""

    def __init__(self, archive, folder, units, name, has_inside=False, zone=None):
        self.archive, self.folder, self.units, self.name = archive, folder, units, name
        self.has_inside, self.zone = has_inside, zone
        self.templates = jinja2.Environment(loader=jinja2.FileSystemLoader(TEMPLATES), autoescape=True, trim_blocks=True,
                                            lstrip_blocks=True, undefined=jinja2.StrictUndefined)

    def render(self, template, **words):
        """The text of a template."""
        return self.templates.get_template(template).render(name=self.name, texts=self.units.texts, **words)

    def digest(self, days, months):
        """What the tables of a year are made of, in few digits: of these days and the summaries of its months."""
        source = ''.join(file.read_text(encoding='utf-8') for file in sorted(TEMPLATES.glob('*.html')))
        made_of = (self.name, self.units.sign('outTemp'), self.units.counted_in, days, months, source, self.units.texts.source)
        return hashlib.sha256(repr(made_of).encode()).hexdigest()

    def files_of_year(self, year, days_of_archive, months):
        """The files of the tables of a year, or none if the program does not have them."""
        climate = self.archive.climate(year)
        if climate is None:
            return None
        days = self.archive.days(date(year, 1, 1), date(year, 12, 31))
        tables = tables_of(YearOfRows(year, days, months, climate, *days_of_archive, self.units))
        page = self.render('climate.html', year=year, tables=tables, base=self.units.base())
        return {f'{table.name}.csv': table.csv() for table in tables} | {f'climate-{year}.html': page}

    def files_of_years(self, days_of_archive, months):
        """The files of each year whose rows have changed, and by year what its tables were made of and which files they are."""
        years, texts, made = sorted({int(title[:4]) for title in months}, reverse=True), {}, {}
        for year in years:
            of_year = {title: fields for title, fields in months.items() if title.startswith(f'{year}-')}
            digest = self.digest(days_within(year, *days_of_archive), of_year)
            before = self.folder.note['made'].get(str(year))
            if before and before[0] == digest and self.folder.has(before[1]):
                made[str(year)] = before
                continue
            files = self.files_of_year(year, days_of_archive, months)
            if files is None:
                return {}, {}
            texts |= files
            made[str(year)] = digest, list(files)
        return texts, made

    def first_day(self, months):
        """The first day of the archive that has rows."""
        first = date.fromisoformat(next(iter(months)) + '-01')
        return date.fromisoformat(next(iter(self.archive.days(first, first + MONTH))))

    def last_day(self, months):
        """The last day of the archive that has rows."""
        first = date.fromisoformat(next(reversed(months)) + '-01')
        return date.fromisoformat(next(reversed(self.archive.days(first, first + MONTH))))

    def write_files(self, texts, charts, made_of, made, now):
        """Writes the page behind the files that it names. `made_of` says of years and charts what they were made of."""
        drawn = {one.file: one.svg for one in sum(charts, []) if one.svg is not None}
        years = [key for key in made_of if key.isdigit()]
        index = self.render('index.html', charts=charts, years=years, made=made, now=now, twice=self.twice_from(made))
        kept = [one.file for one in sum(charts, [])] + [name for year in years for name in made_of[year][1]]
        self.folder.write(texts | drawn | {INDEX: index}, kept, made_of)

    def twice_from(self, made):
        """The next hour that comes twice as summer time ends, if the console's clock keeps it."""
        zone = self.zone or summer_time.zone_of_machine()
        return summer_time.next_twice(zone, made) if zone else None

    def write(self, made):
        """Writes the page as of a moment."""
        months = self.archive.months()
        if not months:
            self.write_files({}, [[], []], {}, made=made, now=None)
            return
        first, last = self.first_day(months), self.last_day(months)
        lines = self.archive.lines_of_rows(last - page_charts.MOST_DAYS_OF_ROWS * DAY, last)
        rows = row_lines.rows_of_lines(lines, self.units.buckets)
        days = self.archive.days(last - (YEAR_DAYS - 1) * DAY, last)
        now = page_now.now_of(page_now.Seen(rows, days, months, first), self.units, made, self.has_inside)
        texts, of_years = self.files_of_years((first, last), months)
        texts[DATA] = page_now.data_of(rows[-1], self.units, self.name, self.zone)
        charts = page_charts.Charts(self.folder, self.units, self.has_inside, (last - first).days + 1)
        pictures = charts.all(lines, rows, days)
        self.write_files(texts, pictures, charts.made | of_years, made=made, now=now)


def chosen_words():
    """The words of the command line."""
    words = argparse.ArgumentParser(prog='page', description='Makes a web page of an archive.')
    words.add_argument('names', nargs='*', metavar='ARCHIVE FOLDER',
                       help='the archive, and the folder of the page, which is made if it is not there')
    words.add_argument('--metric', action='store_true', help='degrees Celsius, hPa, m/s and mm')
    words.add_argument('--bucket', choices=row_lines.BUCKETS, help='a click of the rain bucket')
    words.add_argument('--name', help='the name of the station')
    words.add_argument('--language', choices=page_texts.LANGUAGES, default=page_texts.ENGLISH, help='the language of the page')
    words.add_argument('--inside', action='store_true', help='show what is measured inside, too')
    words.add_argument('--replace', action='store_true', help='replace a page that is in the folder and not of this tool')
    words.add_argument('--also', action='append', default=[], metavar='OLD', help='an older archive of the station, put aside')
    words.add_argument('--program', default='jofitrana', help='the program, if it is another one')
    stations.add_station_option(words)
    chosen = words.parse_intermixed_args()
    if chosen.station is None and len(chosen.names) != 2:
        words.error('an archive and a folder are wanted, or --station')
    if len(chosen.names) > 2:
        words.error('more than an archive and a folder are named')
    return chosen


def files_of(names, station):
    """The archive and the folder of the page, by the names of the command line and by the station."""
    if len(names) == 2:
        return names
    folder = names or [station.archive.removesuffix('.archive') + '.page']
    return [station.archive, *folder]


def tell_of_station(archive, chosen):
    """Reports that an archive is a station's, if the words name neither that station nor a bucket: its rain may be wrong."""
    name = stations.station_of_archive(archive, chosen.settings_folder, chosen.archive_folder)
    if name and not chosen.bucket:
        print(f'page: {archive} is of the station {name}, whose settings are not taken: a click of the rain bucket is taken as '
              f'{row_lines.DEFAULT_BUCKET}. Give --station {name}, or --bucket', file=sys.stderr)


def main():
    stop_as_refused('page')
    chosen = chosen_words()
    try:
        station = stations.station_of(chosen)
        buckets = stations.buckets_of(station, chosen.bucket)
        archive, folder = files_of(chosen.names, station)
        if station is None:
            tell_of_station(archive, chosen)
        archives = joined([Archive(chosen.program, name) for name in (archive, *chosen.also)])
        name = chosen.name or (station.title if station else UNNAMED)
        units = Units(stations.is_metric(station, chosen.metric), buckets, chosen.language)
        with Folder(folder, chosen.replace) as place:
            page = Page(even_rain(archives, buckets), place, units, name, chosen.inside, station and station.zone)
            page.write(station.now() if station else datetime.now())
    except (Refused, Foreign, stations.StationFault, row_lines.NotRows, OSError) as trouble:
        sys.exit(f'page: {trouble}')


if __name__ == '__main__':
    main()
