"""The slots of an archive: rows, and the summaries of days (docs/FORMATS.md)."""
import struct
from datetime import date, datetime

from rows import FIELDS, day_of

NAMES = list(FIELDS)
SLOT_BYTES = 176
ROW_KIND, SUMMARY_KIND = 1, 2
PARTS, FIELDS_OF_PART = 13, 3  # of a day's summary
PERIODS = (1, 5, 10, 15, 30, 60, 120)
MOST_VALUE = 2_000_000
FIRST_OF_DAYS = date(1970, 1, 1)

# Gate, kind, number of slots, date word, time word, interval, zero, presence, values, limited.
ROW = struct.Struct(f'<BBHHHHHQ{len(NAMES)}iQ')
# Gate, kind, number of slots, day, part, zeros, rows of the day, zeros; three entries and zeros follow.
SUMMARY = struct.Struct('<BBHiB3sI8s')
# Least and its stamp, greatest and its stamp, sum, count, weighted sum, seconds.
ENTRY = struct.Struct('<iHHiHHqIqq')
TIMES_OF_ENTRY = {*range(4, 8), *range(12, 16), *range(36, 44)}  # the bytes of both stamps and of the seconds
DAY_BYTES = {*range(4, 8)}  # of a summary: the number of its day, which comes of the stamp of a row
BATCH_BYTES = {0, 2, 3}  # the gate and the number of slots, which a reading of a summary does not test


def stamp_of(date_word, time_word):
    """The stamp of two words, if they name one."""
    try:
        return datetime(2000 + date_word // 512, date_word // 32 % 16, date_word % 32, time_word // 100, time_word % 100)
    except ValueError:
        return None


class Row:
    """What a row slot holds."""

    def __init__(self, stamp, words, interval, values, limited):
        self.stamp, self.words, self.interval, self.values, self.limited = stamp, words, interval, values, limited

    def line(self):
        """The row's line, as the program prints it."""
        cells = [f'{name}=limit' if self.limited >> place & 1 else f'{name}={value}'
                 for place, (name, value) in enumerate(zip(NAMES, self.values))
                 if value is not None or self.limited >> place & 1]
        return ' '.join([f'row {self.stamp:%Y-%m-%d %H:%M} {self.interval}', *cells])


def row_of(slot, opens_batch):
    """The row of a slot, or none if it is ill-formed."""
    gate, kind, count, date_word, time_word, interval, zero, presence, *values, limited = ROW.unpack(slot)
    stamp = stamp_of(date_word, time_word)
    known = (1 << len(NAMES)) - 1
    well_formed = (kind == ROW_KIND and (opens_batch or gate == count == 0) and stamp and interval in PERIODS and zero == 0
                   and (presence | limited) & ~known == 0 and presence & limited == 0
                   and all(abs(value) <= MOST_VALUE and (value == 0 or presence >> place & 1)
                           for place, value in enumerate(values)))
    if not well_formed:
        return None
    present = tuple(value if presence >> place & 1 else None for place, value in enumerate(values))
    return Row(stamp, (date_word, time_word), interval, present, limited)


def entry(rows, place):
    """What a summary keeps of the field at a place."""
    there = [row for row in rows if place < len(NAMES) and row.values[place] is not None]
    if not there:
        return bytes(ENTRY.size)
    values = [row.values[place] for row in there]
    seconds = [60 * row.interval for row in there]
    least, greatest = min(values), max(values)
    return ENTRY.pack(least, *there[values.index(least)].words, greatest, *there[values.index(greatest)].words, sum(values),
                      len(values), sum(value * each for value, each in zip(values, seconds)), sum(seconds))


def summary_slot(rows, part):
    """A slot of the summary of these rows, which are a day's."""
    day = (day_of(rows[0].stamp) - FIRST_OF_DAYS).days
    head = SUMMARY.pack(0, SUMMARY_KIND, 0, day, part, bytes(3), len(rows), bytes(8))
    places = range(FIELDS_OF_PART * part, FIELDS_OF_PART * (part + 1))
    return (head + b''.join(entry(rows, place) for place in places)).ljust(SLOT_BYTES, b'\0')


def is_own_damage(slot, right):
    """Whether a summary slot differs from the right one as only a byte of itself that was changed can make it.

    A value of a row that was changed moves several numbers of the summary, and its stamp or its interval may move one. The
    stamp of a day's only row moves the number of the day too.
    """
    differing = [place for place in range(SLOT_BYTES) if slot[place] != right[place] and place not in BATCH_BYTES]
    if not DAY_BYTES.isdisjoint(differing):
        return False
    if any(place < SUMMARY.size or place >= SUMMARY.size + FIELDS_OF_PART * ENTRY.size for place in differing):
        return True
    return len(differing) == 1 and (differing[0] - SUMMARY.size) % ENTRY.size not in TIMES_OF_ENTRY
