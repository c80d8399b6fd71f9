"""Climate tables of a year: degree days of its days, and the totals of months and of the year."""

from fractions import Fraction
from math import floor

from .records import NAMES
from .stamps import archive_day, date_of
from .summaries import field_summary, grouped

BASE = 650         # tenths of a degree F, from which heating and cooling are counted
PARTS = 100        # thousandths of a degree F in a tenth
TENTHS = 10
OUTSIDE, RAIN = NAMES.index("outTemp"), NAMES.index("rain")
FIRST_YEAR, LAST_YEAR = 1999, 2127


def day_name(day):
    """YYYY-MM-DD."""
    return date_of(day).isoformat()


def month_name(day):
    """YYYY-MM."""
    return day_name(day)[:len("2000-01")]


def year_name(day):
    """YYYY."""
    return day_name(day)[:len("2000")]


def heating(outside):
    """The heating degree days of a day, as a numerator over its seconds."""
    return max(0, BASE * outside.seconds - outside.weighted)


def cooling(outside):
    """The cooling degree days of a day, as a numerator over its seconds."""
    return max(0, outside.weighted - BASE * outside.seconds)


def total(degree_days, days):
    """The thousandths of a degree F of all days, rounded down day by day."""
    return sum(floor(PARTS * Fraction(degree_days(day), day.seconds)) for day in days)


def degree_line(name, outside):
    """The degree days of a day."""
    return (f"degree {name} hdd {heating(outside)}/{outside.seconds}"
            f" cdd {cooling(outside)}/{outside.seconds}")


def temperatures(outside):
    """The mean, the highest and the lowest temperature of some rows, or dashes."""
    if outside is None:
        return "mean - high - at - low - at -"
    mean = floor(Fraction(TENTHS * outside.weighted, outside.seconds))
    return (f"mean {mean} high {outside.greatest} at {day_name(archive_day(outside.greatest_at))}"
            f" low {outside.least} at {day_name(archive_day(outside.least_at))}")


def climate_line(name, rows):
    """The totals of the days of some rows."""
    days = [group for _, group in grouped(rows, day_name)]
    outsides = [outside for outside in (field_summary(day, OUTSIDE) for day in days) if outside is not None]
    rains = [rain for rain in (field_summary(day, RAIN) for day in days) if rain is not None]
    wet = sum(rain.sum >= 1 for rain in rains)
    return (f"climate {name} days {len(outsides)} {temperatures(field_summary(rows, OUTSIDE))}"
            f" rain {sum(rain.sum for rain in rains) if rains else '-'} wet {wet}"
            f" hdd {total(heating, outsides)} cdd {total(cooling, outsides)}")


def month_lines(name, rows):
    """The degree days of the days of a month, and the totals of the month."""
    lines = []
    for day, group in grouped(rows, day_name):
        outside = field_summary(group, OUTSIDE)
        if outside is not None:
            lines.append(degree_line(day, outside))
    return lines + [climate_line(name, rows)]


def climate_lines(rows, year):
    """The lines of a year's table."""
    chosen = [row for row in rows if year_name(archive_day(row.stamp)) == str(year)]
    lines = [line for name, group in grouped(chosen, month_name) for line in month_lines(name, group)]
    return lines + ([climate_line(str(year), chosen)] if chosen else [])
