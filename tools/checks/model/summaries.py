"""Summaries of days and months: extremes, sums and times of each field."""

from dataclasses import dataclass

from .records import FIELDS, NAMES
from .stamps import archive_day, stamp_text

SECONDS_OF_MINUTE = 60


@dataclass(frozen=True)
class FieldSummary:
    """What some rows give for one field; each extreme has the stamp at which it came first."""
    least: int
    least_at: int
    greatest: int
    greatest_at: int
    sum: int
    count: int
    weighted: int  # sum of value times seconds
    seconds: int


def field_summary(rows, place):
    """What the rows give for the field at a place, or None where none has a value."""
    there = [row for row in rows if row.values[place] is not None]
    if not there:
        return None
    numbers = [row.values[place] for row in there]
    seconds = [SECONDS_OF_MINUTE * row.interval for row in there]
    least, greatest = min(numbers), max(numbers)
    return FieldSummary(
        least=least,
        least_at=min(row.stamp for row in there if row.values[place] == least),
        greatest=greatest,
        greatest_at=min(row.stamp for row in there if row.values[place] == greatest),
        sum=sum(numbers),
        count=len(there),
        weighted=sum(number * length for number, length in zip(numbers, seconds)),
        seconds=sum(seconds))


def summary_lines(title, rows):
    """One line for each field that has a value in the rows."""
    lines = []
    for place in range(len(FIELDS)):
        found = field_summary(rows, place)
        if found is not None:
            lines.append(f"{title} {NAMES[place]}"
                         f" min {found.least} at {stamp_text(found.least_at)}"
                         f" max {found.greatest} at {stamp_text(found.greatest_at)}"
                         f" sum {found.sum} count {found.count}"
                         f" wsum {found.weighted} sumtime {found.seconds}")
    return lines


def grouped(rows, title_of_day):
    """Titles and rows of days or months, in the order of the rows, which rise."""
    groups = {}
    for row in rows:
        groups.setdefault(title_of_day(archive_day(row.stamp)), []).append(row)
    return list(groups.items())


def all_summary_lines(rows, title_of_day):
    """The lines of all days or months."""
    return [line for title, group in grouped(rows, title_of_day) for line in summary_lines(title, group)]
