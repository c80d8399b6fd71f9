"""Reports of the rows of an archive: row by row, by days and by months."""

from .rows import row_line
from .stamps import archive_day, date_of
from .summaries import all_summary_lines

KINDS = ("rows", "days", "months")


def day_title(day):
    """How the lines of a day begin."""
    return f"day {date_of(day).isoformat()}"


def month_title(day):
    """How the lines of a day's month begin."""
    return f"month {date_of(day).isoformat()[:len('2000-01')]}"


def report_lines(rows, kind, first, last):
    """The lines of a report from one archive day to another."""
    chosen = [row for row in rows if first <= archive_day(row.stamp) <= last]
    if kind == "rows":
        return [row_line(row) for row in chosen]
    return all_summary_lines(chosen, day_title if kind == "days" else month_title)
