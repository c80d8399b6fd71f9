"""Archive files: a head, batches of slots behind gates, rows and summaries of closed days, written and read.

A slot has 176 bytes. The first slot of a batch has the gate, and the number of the batch's slots. Version 1 knows no
limited fields.
"""

import struct
from dataclasses import dataclass

from .outcomes import DAMAGED, OLD_ARCHIVE, Refusal
from .records import FIELDS
from .rows import Row
from .stamps import PERIODS, archive_day, stamp_of_words, words_of
from .summaries import field_summary

SLOT_BYTES = 176
EMPTY_BYTES = SLOT_BYTES + 1  # a head and a closed gate
HEADS = {1: b"DVARCH01", 2: b"DVARCH02"}
HEAD_BYTES = 8
THIS_VERSION = 2
MOST_BATCH_SLOTS = 70
MOST_VALUE = 2_000_000
ROW_KIND, SUMMARY_KIND = 1, 2
SUMMARY_PARTS, FIELDS_OF_PART = 13, 3
CLOSED_GATE = b"\0"
DAYS_FROM_1970 = 10_957  # days from 1970-01-01 to 2000-01-01

# Gate, kind, batch word, date word, time word, interval, zero, presence; values and limited fields follow.
ROW_HEAD = struct.Struct("<BBHHHHHQ")
ROW_VALUES = struct.Struct(f"<{len(FIELDS)}i")
VALUES_PLACE, LIMITED_PLACE = 20, 168
# Gate, kind, batch word, day, part, zeros, number of rows; three entries and zeros follow.
SUMMARY_HEAD = struct.Struct("<BBHiBBHI8x")
# Least and its stamp, greatest and its stamp, sum, count, weighted sum, seconds.
ENTRY = struct.Struct("<iHHiHHqIqQ")
SUMMARY_REST = 20


@dataclass(frozen=True)
class Archive:
    """What a file holds."""
    version: int
    rows: list
    slots: int


def damaged(place):
    """The refusal of a file that is damaged at this byte."""
    return Refusal(DAMAGED, f"damaged at {place}")


def bits_of(places):
    """A number with one bit for each place."""
    return sum(1 << place for place in places)


def has_bit(number, place):
    """Whether the number has the bit of this place."""
    return number >> place & 1 == 1


# Slots as they are written, with gate and batch word still 0


def row_slot(row):
    """The slot of a row."""
    presence = bits_of(place for place, value in enumerate(row.values) if value is not None)
    head = ROW_HEAD.pack(0, ROW_KIND, 0, *words_of(row.stamp), row.interval, 0, presence)
    numbers = ROW_VALUES.pack(*(value or 0 for value in row.values))
    return head + numbers + struct.pack("<Q", bits_of(row.limited))


def summary_entry(summary):
    """The entry of one field, all zeros where it has no value."""
    if summary is None:
        return bytes(ENTRY.size)
    return ENTRY.pack(summary.least, *words_of(summary.least_at), summary.greatest, *words_of(summary.greatest_at),
                      summary.sum, summary.count, summary.weighted, summary.seconds)


def summary_slot(rows_of_day, part):
    """One of the slots that store a day, from all the rows of that day."""
    day = archive_day(rows_of_day[0].stamp) + DAYS_FROM_1970
    slot = SUMMARY_HEAD.pack(0, SUMMARY_KIND, 0, day, part, 0, 0, len(rows_of_day))
    for place in range(FIELDS_OF_PART * part, FIELDS_OF_PART * (part + 1)):
        slot += summary_entry(field_summary(rows_of_day, place) if place < len(FIELDS) else None)
    return slot + bytes(SUMMARY_REST)


def summary_slots(rows_of_day):
    """All slots that store a day."""
    return [summary_slot(rows_of_day, part) for part in range(SUMMARY_PARTS)]


def rows_of_last_day(rows):
    """The rows of the day of the last one."""
    last = archive_day(rows[-1].stamp)
    return [row for row in rows if archive_day(row.stamp) == last]


def slots_to_add(rows_before, rows_added):
    """The slots that rows take after the rows that stand before them."""
    slots, rows = [], list(rows_before)
    for row in rows_added:
        if rows and archive_day(row.stamp) != archive_day(rows[-1].stamp):
            slots += summary_slots(rows_of_last_day(rows))
        slots.append(row_slot(row))
        rows.append(row)
    return slots


def sealed_batch(slots, gate=1):
    """The bytes of one batch, with its gate and the number of its slots."""
    joined = bytearray(b"".join(slots))
    joined[0] = gate
    struct.pack_into("<H", joined, 2, len(slots))
    return bytes(joined)


def head_slot(version):
    """The slot that an archive begins with."""
    return HEADS[version] + bytes(SLOT_BYTES - HEAD_BYTES)


# Reading


def read_archive(image, to_write=False):
    """The archive of any bytes, or a refusal."""
    if len(image) <= EMPTY_BYTES:
        return Archive(THIS_VERSION, [], 0)
    versions = [version for version, head in HEADS.items() if image[:HEAD_BYTES] == head]
    if not versions:
        raise Refusal(DAMAGED, "not an archive " + image[:HEAD_BYTES].hex())
    version = versions[0]
    if to_write and version != THIS_VERSION:
        raise Refusal(OLD_ARCHIVE, "old archive")
    places = places_of_slots(image)
    return Archive(version, rows_at(image, places, version), len(places))


def places_of_slots(image):
    """Each slot behind an open gate: its place, and whether it opens a batch."""
    places = []
    at = SLOT_BYTES
    while image[at] != 0:
        word = image[at + 2:at + 4]
        size = int.from_bytes(word, "little")
        if len(word) < 2 or not 1 <= size <= MOST_BATCH_SLOTS:
            raise damaged(at)
        if at + SLOT_BYTES * size + 1 > len(image):
            raise damaged(at)
        places += [(at + SLOT_BYTES * number, number == 0) for number in range(size)]
        at += SLOT_BYTES * size
    return places


def rows_at(image, places, version):
    """The rows of the slots, each slot judged by those before it."""
    rows, parts = [], 0
    for at, opens_batch in places:
        slot = image[at:at + SLOT_BYTES]
        if slot[1] == SUMMARY_KIND:
            if not is_next_part(slot, rows, parts):
                raise damaged(at)
            parts += 1
        else:
            row = row_of_slot(slot, opens_batch, version)
            if row is None or not may_follow(row, rows, parts):
                raise damaged(at)
            rows.append(row)
            parts = 0
    if parts > 0:
        raise damaged(SLOT_BYTES * (len(places) + 1))
    return rows


def is_next_part(slot, rows, parts):
    """Whether a slot is the next part of the day of the row before."""
    if not rows or parts >= SUMMARY_PARTS:
        return False
    return without_batch(slot) == without_batch(summary_slot(rows_of_last_day(rows), parts))


def without_batch(slot):
    """A slot without its gate and its batch word."""
    return slot[1:2] + slot[4:]


def may_follow(row, rows, parts):
    """Whether a row may stand after these rows and so many summary parts."""
    if not rows:
        return parts == 0
    if row.stamp <= rows[-1].stamp:
        return False
    new_day = archive_day(row.stamp) != archive_day(rows[-1].stamp)
    return parts == (SUMMARY_PARTS if new_day else 0)


def row_of_slot(slot, opens_batch, version):
    """The row of a slot, or None where the slot is ill-formed."""
    gate, kind, word, date_word, time_word, interval, zero, presence = ROW_HEAD.unpack_from(slot)
    numbers = ROW_VALUES.unpack_from(slot, VALUES_PLACE)
    limited = int.from_bytes(slot[LIMITED_PLACE:], "little")
    stamp = stamp_of_words(date_word, time_word)
    faults = (
        kind != ROW_KIND,
        not opens_batch and (gate != 0 or word != 0),
        stamp is None,
        interval not in PERIODS,
        zero != 0,
        presence >> len(FIELDS) != 0,
        any(abs(number) > MOST_VALUE for number in numbers),
        any(number != 0 and not has_bit(presence, place) for place, number in enumerate(numbers)),
        limited >> len(FIELDS) != 0,
        limited & presence != 0,
        version == 1 and limited != 0)
    if any(faults):
        return None
    values = tuple(number if has_bit(presence, place) else None for place, number in enumerate(numbers))
    return Row(stamp, interval, values, frozenset(place for place in range(len(FIELDS)) if has_bit(limited, place)))
