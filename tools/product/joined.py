"""Several archives of one station as one: the one to which rounds add, and older ones that were put aside."""
from calendar import monthrange
from datetime import date, timedelta
from itertools import groupby

import rows as row_lines
from climate_tables import merged_fields
from reports import MEAN_HUNDREDTHS, TOTAL_THOUSANDTHS, Climate, ClimateYear, DegreeDays, Summary
from units import BASE_FAHRENHEIT

MINUTE = timedelta(minutes=1)
STAMP_END = len('row 2000-01-01 00:00')
YEAR_END, MONTH_END = len('2000'), len('2000-01')
TENTHS = 10  # of a degree Fahrenheit, in which the outside temperature is counted


def summary_of(name, rows):
    """What the values of a field in rows come to. The rows are in order, and each has a value."""
    numbers = [row.values[name] for row in rows]
    low, high = numbers.index(min(numbers)), numbers.index(max(numbers))
    seconds = [row.interval // timedelta(seconds=1) for row in rows]
    return Summary(numbers[low], rows[low].stamp, numbers[high], rows[high].stamp, sum(numbers),
                   sum(number * length for number, length in zip(numbers, seconds)), sum(seconds))


def summaries_of(rows):
    """What rows come to, by field."""
    with_value = {name: [row for row in rows if name in row.values] for name in row_lines.FIELDS}
    return {name: summary_of(name, chosen) for name, chosen in with_value.items() if chosen}


def tenths_below(outside):
    """How far the mean outside temperature of a day is below the base of degree days, as a numerator over its seconds."""
    return BASE_FAHRENHEIT * TENTHS * outside.seconds - outside.weighted


def thousandths(tenths, seconds):
    """Degree days in thousandths of a degree, rounded down as the program does."""
    return TOTAL_THOUSANDTHS // TENTHS * max(0, tenths) // seconds


def climate_of(days):
    """The climate of some days, by their summaries, with the program's rounding."""
    fields = merged_fields(days)
    outsides = [day['outTemp'] for day in days if 'outTemp' in day]
    heating = sum(thousandths(tenths_below(outside), outside.seconds) for outside in outsides)
    cooling = sum(thousandths(-tenths_below(outside), outside.seconds) for outside in outsides)
    outside, rain = fields.get('outTemp'), fields.get('rain')
    return Climate(
        days=len(outsides),
        mean=outside and MEAN_HUNDREDTHS // TENTHS * outside.weighted // outside.seconds / MEAN_HUNDREDTHS,
        high=outside and outside.greatest, high_day=outside and (outside.greatest_at - MINUTE).date(),
        low=outside and outside.least, low_day=outside and (outside.least_at - MINUTE).date(),
        rain=rain and rain.sum, wet=sum('rain' in day and day['rain'].sum >= 1 for day in days),
        degree_days=DegreeDays(heating / TOTAL_THOUSANDTHS, cooling / TOTAL_THOUSANDTHS))


def degree_days_of(outside):
    """The degree days of a day, which nothing rounds."""
    tenths = tenths_below(outside)
    return DegreeDays(max(0, tenths) / outside.seconds / TENTHS, max(0, -tenths) / outside.seconds / TENTHS)


def climate_of_year(days):
    """The climate of the days of a year, which are in order."""
    months = {title: climate_of([days[day] for day in titles]) for title, titles in groupby(days, lambda day: day[:MONTH_END])}
    return ClimateYear({day: degree_days_of(fields['outTemp']) for day, fields in days.items() if 'outTemp' in fields},
                       months, climate_of(list(days.values())))


def titled(found):
    """What the archives have of each day or month: a title, and a list without those that have none."""
    return {title: [one[title] for one in found if title in one] for title in sorted(set().union(*found))}


def agreed(several):
    """What all have that have anything, if that is one thing."""
    return several[0] if several and all(one == several[0] for one in several) else None


class Archives:
    """Several archives of one station. Of two rows of one stamp that of the archive is taken which comes first."""

    def __init__(self, archives):
        self.archives = archives

    def lines_of_rows(self, first, last):
        """The row lines of some days."""
        lines = {}
        for archive in reversed(self.archives):
            lines |= {line[:STAMP_END]: line for line in archive.lines_of_rows(first, last)}
        return [lines[stamp] for stamp in sorted(lines)]

    def day(self, title):
        """The summaries of a day by all of its rows."""
        day = date.fromisoformat(title)
        return summaries_of([row_lines.counted_row(line) for line in self.lines_of_rows(day, day)])

    def days(self, first, last):
        """The summaries of some days."""
        found = titled([archive.days(first, last) for archive in self.archives])
        return {title: agreed(several) or self.day(title) for title, several in found.items()}

    def month(self, title):
        """The summaries of a month by all of its days."""
        year, month = int(title[:YEAR_END]), int(title[YEAR_END + 1:])
        days = self.days(date(year, month, 1), date(year, month, monthrange(year, month)[1]))
        return merged_fields(list(days.values()))

    def months(self):
        """The summaries of all months."""
        found = titled([archive.months() for archive in self.archives])
        return {title: agreed(several) or self.month(title) for title, several in found.items()}

    def climate(self, year):
        """The climate of a year, or None if the program does not know the command."""
        found = [archive.climate(year) for archive in self.archives]
        if None in found:
            return None
        with_rows = [one for one in found if one.year]
        return agreed(with_rows) or climate_of_year(self.days(date(year, 1, 1), date(year, 12, 31)))


def joined(archives):
    """One archive of one or several."""
    return Archives(archives) if len(archives) > 1 else archives[0]
