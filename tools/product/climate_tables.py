"""Climate tables of a month by its days, and of a year by its months, as text in an observer's units."""
import csv
from calendar import monthrange
from datetime import date, timedelta
from io import StringIO
from typing import NamedTuple

import rows as row_lines
from page_texts import Texts
from reports import ClimateYear
from units import MINUS, MISSING, Units

DAY, MINUTE = timedelta(days=1), timedelta(minutes=1)
DAY_SECONDS, HOUR_SECONDS = 86_400, 3_600
MONTHS = 12


class Line(NamedTuple):
    """A line of a table, which may stand for a day that lacks rows."""
    cells: list
    is_lacking: bool


class Table(NamedTuple):
    """A table: the name of its file, what it is of, the names and units of its columns, its lines and the last one."""
    name: str
    caption: str
    heads: list
    lines: list
    total: Line
    texts: Texts

    def csv(self):
        """The table as CSV, a number that is missing as nothing."""
        text = StringIO()
        writer = csv.writer(text, lineterminator='\n')
        writer.writerow([f'{name} ({unit})' if unit else name for name, unit in self.heads])
        for line in [*self.lines, self.total]:
            writer.writerow([self.texts.pointed(cell).replace(MINUS, '-').replace(MISSING, '') for cell in line.cells])
        return text.getvalue()


class YearOfRows(NamedTuple):
    """What the program reports of a year, between the first day of the archive and its last."""
    year: int
    days: dict    # the summaries of its days
    months: dict  # those of all months of the archive
    climate: ClimateYear
    first: date
    last: date
    units: Units


def covered_seconds(fields):
    """How much of a day its rows cover."""
    return max((summary.seconds for summary in fields.values()), default=0)


def lacks_rows(fields):
    """Whether the rows of a day cover less than all of it."""
    return covered_seconds(fields) < DAY_SECONDS


def greatest(fields, *names):
    """The greatest value of the first of these fields that has any, and its stamp."""
    for name in names:
        if name in fields:
            return fields[name].greatest, fields[name].greatest_at
    return None, None


def least(fields, *names):
    """The least value of the first of these fields that has any, and its stamp."""
    for name in names:
        if name in fields:
            return fields[name].least, fields[name].least_at
    return None, None


def time_of(stamp):
    """The time of a stamp."""
    return f'{stamp:%H:%M}' if stamp else MISSING


def day_of(stamp):
    """The day of a stamp: midnight is of the day before."""
    return f'{stamp - MINUTE:%m-%d}' if stamp else MISSING


def mean_text(units, fields, name):
    """The mean of a field."""
    return units.counted(name, fields[name].mean() if name in fields else None)


def extreme_cells(units, fields, when):
    """The highest and the lowest temperature, and when they were."""
    high, high_at = greatest(fields, 'highOutTemp', 'outTemp')
    low, low_at = least(fields, 'lowOutTemp', 'outTemp')
    return [units.counted('outTemp', high), when(high_at), units.counted('outTemp', low), when(low_at)]


def degree_cells(units, degree_days):
    """The heating and the cooling degree days."""
    return [units.degree_days(one) for one in degree_days] if degree_days else [MISSING, MISSING]


def wind_cells(units, fields, when):
    """The mean wind, and the strongest gust and when it was."""
    gust, gust_at = greatest(fields, 'windGust', 'windSpeed')
    return [mean_text(units, fields, 'windSpeed'), units.counted('windGust', gust), when(gust_at)]


def rain_text(units, fields):
    """The rain of a day or a month."""
    return units.counted('rain', fields['rain'].sum if 'rain' in fields else None)


def heads(units, first, when):
    """The names and units of the columns behind the first ones. `when` is the ending of the titles of times."""
    words, degrees = units.texts['climate'], units.sign('outTemp')
    return [*first, (words['mean'], degrees), (words['high'], degrees), (words[f'high_{when}'], ''), (words['low'], degrees),
            (words[f'low_{when}'], ''), (words['heating'], f'{degrees}·d'), (words['cooling'], f'{degrees}·d'),
            (words['rain'], units.sign('rain')), (words['wind'], units.sign('windSpeed')),
            (words['gust'], units.sign('windGust')), (words[f'gust_{when}'], '')]


def day_line(rows, day):
    """The line of a day."""
    title = day.isoformat()
    fields = rows.days.get(title, {})
    hours = rows.units.texts.digits(f'{covered_seconds(fields) / HOUR_SECONDS:.1f}')
    return Line([str(day.day), hours, mean_text(rows.units, fields, 'outTemp'), *extreme_cells(rows.units, fields, time_of),
                 *degree_cells(rows.units, rows.climate.days.get(title)), rain_text(rows.units, fields),
                 *wind_cells(rows.units, fields, time_of)], lacks_rows(fields))


def days_of(rows, month):
    """The days of a month that lie between the first day of the archive and its last."""
    day = max(date(rows.year, month, 1), rows.first)
    last = min(date(rows.year, month, monthrange(rows.year, month)[1]), rows.last)
    return [day + number * DAY for number in range((last - day).days + 1)]


def fields_of_month(rows, month):
    """The summaries of a month."""
    return rows.months.get(f'{rows.year}-{month:02}', {})


def span_cells(units, climate, fields):
    """The cells of a month or a year, behind its title and its count."""
    mean = units.text('outTemp', climate.mean if climate else None)
    return [mean, *extreme_cells(units, fields, day_of), *degree_cells(units, climate and climate.degree_days),
            rain_text(units, fields), *wind_cells(units, fields, day_of)]


def caption_of(rows, begin, title):
    """The title of a month or a year. It says from when on there are rows, if that is later."""
    return rows.units.texts.since(title, rows.first) if begin < rows.first else title


def month_table(rows, month):
    """The table of a month by its days."""
    lines = [day_line(rows, day) for day in days_of(rows, month)]
    title = f'{rows.year}-{month:02}'
    hours = sum(covered_seconds(rows.days.get(day.isoformat(), {})) for day in days_of(rows, month)) / HOUR_SECONDS
    texts, units = rows.units.texts, rows.units
    words = texts['climate']
    total = [words['month'], texts.digits(f'{hours:.1f}'),
             *span_cells(units, rows.climate.months.get(title), fields_of_month(rows, month))]
    return Table(f'climate-{title}', caption_of(rows, date(rows.year, month, 1), texts.month(date(rows.year, month, 1))),
                 heads(units, [(words['day'], ''), (words['hours'], 'h')], 'at'), lines, Line(total, False), texts)


def merged(summaries):
    """The summary of a field over several days or months, which are in order."""
    low, high = min(summaries, key=lambda one: one.least), max(summaries, key=lambda one: one.greatest)
    return summaries[0]._replace(
        least=low.least, least_at=low.least_at, greatest=high.greatest, greatest_at=high.greatest_at,
        sum=sum(one.sum for one in summaries), weighted=sum(one.weighted for one in summaries),
        seconds=sum(one.seconds for one in summaries))


def merged_fields(spans):
    """The summaries of several days or months, which are in order, as those of one."""
    return {name: merged([fields[name] for fields in spans if name in fields])
            for name in row_lines.FIELDS if any(name in fields for fields in spans)}


def fields_of_year(rows):
    """The summaries of a year, out of those of its months."""
    return merged_fields([fields_of_month(rows, month) for month in range(1, MONTHS + 1)])


def count_cells(rows, climate, days):
    """How many days lack rows, and how many were wet."""
    lacking = sum(lacks_rows(rows.days.get(day.isoformat(), {})) for day in days)
    return [str(lacking), str(climate.wet) if climate else MISSING]


def months_of(rows):
    """The months that lie between the first day of the archive and its last."""
    return [month for month in range(1, MONTHS + 1) if days_of(rows, month)]


def year_table(rows):
    """The table of a year by its months."""
    lines, all_days = [], []
    for month in months_of(rows):
        days, climate = days_of(rows, month), rows.climate.months.get(f'{rows.year}-{month:02}')
        all_days += days
        cells = span_cells(rows.units, climate, fields_of_month(rows, month))
        lines.append(Line([rows.units.texts.months[month - 1], *count_cells(rows, climate, days), *cells], False))
    words = rows.units.texts['climate']
    total = [words['year'], *count_cells(rows, rows.climate.year, all_days),
             *span_cells(rows.units, rows.climate.year, fields_of_year(rows))]
    first = [(words['month'], ''), (words['lacking'], words['days']), (words['wet'], words['days'])]
    return Table(f'climate-{rows.year}', caption_of(rows, date(rows.year, 1, 1), str(rows.year)),
                 heads(rows.units, first, 'on'), lines, Line(total, False), rows.units.texts)


def tables_of(rows):
    """The tables of a year: its own, and then those of the months that have rows."""
    return [year_table(rows), *(month_table(rows, month) for month in months_of(rows) if fields_of_month(rows, month))]
