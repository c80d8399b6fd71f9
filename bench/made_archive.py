#!/usr/bin/env python3
"""Writes an archive of rows that are five minutes apart, from 2000-01-01 00:00 on, each with a value of all 37 fields.

    bench/made_archive.py ROWS BATCH FILE

BATCH rows are added by one append, as a dump (5) or a timer (1) has it. All days have the same values, row for row.
docs/FORMATS.md has the layout.
"""
import struct
import sys
from datetime import datetime, timedelta

HEAD = b'DVARCH02' + bytes(168)
CLOSED_GATE, OPEN_GATE = b'\0', 1
ROW_HEAD = struct.Struct('<BBHHHHHQ')  # gate, kind, slots of the batch, date, time, minutes, spare, presence
VALUES = struct.Struct('<37i')
PART_HEAD = struct.Struct('<BBHiBBHI8x')  # gate, kind, slots of the batch, day, part, spare, spare, rows
SUM = struct.Struct('<iHHiHHqIqQ')  # least and its stamp, greatest and its stamp, sum, count, weighted sum, seconds
SLOTS = struct.Struct('<H')
SLOT_BYTES = 176
ROW, PART = 1, 2
FIELDS, PARTS, SUMS = 37, 13, 3
ALL_FIELDS = (1 << FIELDS) - 1

MINUTES = 5
ROWS_OF_A_DAY = 24 * 60 // MINUTES
FIRST = datetime(2000, 1, 1)
EPOCH = datetime(1970, 1, 1)


def value_of(number, field):
    """The value of a field in a row of a day, by its number: some fall, and some are below 0."""
    return (number * (2 * field - FIELDS) * 3 + 97 * field) % 1500 - 300


VALUES_OF = [[value_of(number, field) for field in range(FIELDS)] for number in range(ROWS_OF_A_DAY)]
PACKED = [VALUES.pack(*values) + bytes(8) for values in VALUES_OF]  # behind the values: no field that limits made missing


def words_of(stamp):
    """The two words of a stamp, as a console sends them."""
    return stamp.day + 32 * stamp.month + 512 * (stamp.year - 2000), 100 * stamp.hour + stamp.minute


def day_of(stamp):
    """The archive day of a stamp, counted from 1970-01-01. Midnight ends a day."""
    return (stamp - timedelta(minutes=1) - EPOCH).days


def number_of(stamp):
    """The number of a row among those of its day."""
    return (stamp.hour * 60 + stamp.minute) // MINUTES


def row_slot(stamp):
    """The slot of a row."""
    return ROW_HEAD.pack(0, ROW, 0, *words_of(stamp), MINUTES, 0, ALL_FIELDS) + PACKED[number_of(stamp)]


def sum_of(stamps, field):
    """The sum of a field over the rows of a day."""
    values = [VALUES_OF[number_of(stamp)][field] for stamp in stamps]
    least, greatest = min(values), max(values)
    return SUM.pack(least, *words_of(stamps[values.index(least)]), greatest, *words_of(stamps[values.index(greatest)]),
                    sum(values), len(values), 60 * MINUTES * sum(values), 60 * MINUTES * len(values))


def closing_slots(stamps):
    """The slots that close a day."""
    sums = [sum_of(stamps, field) for field in range(FIELDS)]
    for part in range(PARTS):
        slot = PART_HEAD.pack(0, PART, 0, day_of(stamps[0]), part, 0, 0, len(stamps))
        yield (slot + b''.join(sums[SUMS * part:SUMS * part + SUMS])).ljust(SLOT_BYTES, b'\0')


def batch_of(slots):
    """The bytes of a batch."""
    batch = bytearray(b''.join(slots))
    batch[0] = OPEN_GATE
    SLOTS.pack_into(batch, 2, len(slots))
    return batch


def write(name, rows, batch_rows):
    """Writes the archive."""
    with open(name, 'wb') as file:
        file.write(HEAD)
        of_day, slots = [], []
        for number in range(rows):
            stamp = FIRST + timedelta(minutes=MINUTES * number)
            if of_day and day_of(stamp) != day_of(of_day[0]):
                slots += closing_slots(of_day)
                of_day = []
            of_day.append(stamp)
            slots.append(row_slot(stamp))
            if number % batch_rows == batch_rows - 1 or number == rows - 1:
                file.write(batch_of(slots))
                slots = []
        file.write(CLOSED_GATE)


if __name__ == '__main__':
    write(sys.argv[3], int(sys.argv[1]), int(sys.argv[2]))
