"""Rows read back from their lines, as a report prints them."""

import re

from .archive import MOST_VALUE
from .outcomes import BAD_ROWS, Refusal
from .records import NAMES
from .rows import Row
from .stamps import PERIODS, has_form, stamp_of_texts

# The kinds of a line's faults.
NO_ROW, NO_STAMP, NO_PERIOD, NO_FIELD, NOT_RISING, NO_NUMBER, TOO_FAR, NOT_AFTER, NOT_ENDED = range(1, 10)

FIRST_WORD = "row "
DATE, BETWEEN, TIME = slice(4, 14), slice(14, 15), slice(15, 20)
BEHIND_STAMP = 20
PERIOD_TEXTS = {str(period): period for period in PERIODS}
LIMIT = "limit"
NUMBER = re.compile("0|-?[1-9][0-9]{0,9}")


class LineFault(Exception):
    """The kind of a line's fault."""


def rows_of_text(data):
    """The rows of a text, each with a line of its own; or else the refusal that names the first line at fault."""
    *lines, rest = data.decode("latin-1").split("\n")
    rows = []
    for number, line in enumerate(lines + [rest] * bool(rest), 1):
        try:
            row = row_of_line(line)
            if rows and row.stamp <= rows[-1].stamp:
                raise LineFault(NOT_AFTER)
            if number > len(lines):
                raise LineFault(NOT_ENDED)
        except LineFault as fault:
            raise Refusal(BAD_ROWS, f"row line {number} fault {fault}") from fault
        rows.append(row)
    return rows


def row_of_line(line):
    """The row of a line without its line feed. A line is judged from the left."""
    if not line.startswith(FIRST_WORD):
        raise LineFault(NO_ROW)
    stamp = stamp_of_texts(line[DATE], line[TIME]) if has_form(line[DATE], line[TIME]) else None
    if line[BETWEEN] != " " or stamp is None:
        raise LineFault(NO_STAMP)
    blank, (period, *items) = line[BEHIND_STAMP:BEHIND_STAMP + 1], line[BEHIND_STAMP + 1:].split(" ")
    if blank != " " or period not in PERIOD_TEXTS:
        raise LineFault(NO_PERIOD)
    return Row(stamp, PERIOD_TEXTS[period], *fields_of(items))


def fields_of(items):
    """The values of each field, and the places of those that a limit made missing."""
    values, limited, next_place = [None] * len(NAMES), set(), 0
    for item in items:
        name, equals, word = item.partition("=")
        if not equals or name not in NAMES:
            raise LineFault(NO_FIELD)
        place = NAMES.index(name)
        if place < next_place:
            raise LineFault(NOT_RISING)
        next_place = place + 1
        if word == LIMIT:
            limited.add(place)
        else:
            values[place] = value_of(word)
    return tuple(values), frozenset(limited)


def value_of(word):
    """The value that a word writes."""
    if not NUMBER.fullmatch(word):
        raise LineFault(NO_NUMBER)
    if abs(int(word)) > MOST_VALUE:
        raise LineFault(TOO_FAR)
    return int(word)
