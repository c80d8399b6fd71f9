"""Damages of archives: of slots before they stand in batches, and of the bytes of a file."""

from dataclasses import replace

from .archive import FIELDS_OF_PART, HEADS, LIMITED_PLACE, MOST_VALUE, ROW_KIND, SLOT_BYTES, SUMMARY_KIND, SUMMARY_PARTS
from .archive import ENTRY, VALUES_PLACE, head_slot, row_of_slot, rows_of_last_day, summary_slots
from .records import FIELDS
from .stamps import MINUTES_OF_DAY, MONTH_WEIGHT, YEAR_WEIGHT

# Bytes of slots at which something begins or ends.
PLACES = (1, 4, 5, 6, 7, 8, 9, 10, 11, 12, 13, 15, 16, 17, 18, 19, 20, 23, 24, 28, 30, 32, 36, 38, 40, 48, 52, 60, 67,
          155, 156, 160, 167, 168, 172, 173, 175)
GATE_PLACE, KIND_PLACE, WORD_PLACE = 0, 1, 2
DATE_PLACE, TIME_PLACE, INTERVAL_PLACE, PRESENCE_PLACE, ENTRIES_PLACE = 4, 6, 8, 12, 24
# Places and sizes of the numbers of an entry.
ENTRY_NUMBERS = ((0, 4), (4, 2), (6, 2), (8, 4), (12, 2), (14, 2), (16, 8), (24, 4), (28, 8), (36, 8))
ODD_TIMES = (0, 1, 59, 60, 99, 100, 2359, 2360, 2400, 1260, 65535)
ODD_INTERVALS = (0, 1, 2, 5, 10, 15, 20, 30, 60, 61, 120, 121, 240, 256 + 5, 65535)
ODD_VALUES = (0, 1, -1, MOST_VALUE, MOST_VALUE + 1, -MOST_VALUE, -MOST_VALUE - 1, 2 ** 31 - 1, -2 ** 31, 5)
ODD_DATES = tuple(YEAR_WEIGHT * year + MONTH_WEIGHT * month + day for year, month, day in (
    (0, 0, 0), (0, 1, 1), (0, 1, 0), (0, 0, 1), (0, 13, 1), (0, 2, 30), (127, 15, 31), (127, 12, 31), (24, 2, 29),
    (23, 2, 29), (100, 2, 29)))
ODD_HEADS = (b"DVARCH00", b"DVARCH03", b"dvarch02", *HEADS.values(), b"DVARCH02\1", b"DVARCH01" + b"\xff" * 168, b"\0",
             b"DVARCH022")


def put_number(slots, at, place, size, number):
    """Puts a number of so many bytes in a slot."""
    slot = bytearray(slots[at])
    slot[place:place + size] = (number % 2 ** (8 * size)).to_bytes(size, "little")
    slots[at] = bytes(slot)


def add_number(slots, at, place, size, number):
    """Adds to a number of so many bytes in a slot."""
    put_number(slots, at, place, size, int.from_bytes(slots[at][place:place + size], "little") + number)


def change_order(chance, slots, at):
    """Slots are lost, doubled, moved or cut off."""
    how = chance.randrange(5)
    if how == 0:
        del slots[at]
    elif how == 1:
        slots.insert(at, slots[at])
    elif how == 2:
        slots.insert(chance.randrange(len(slots)), slots.pop(at))
    elif how == 3:
        del slots[at:]
    else:
        summaries = [place for place, slot in enumerate(slots) if slot[KIND_PLACE] == SUMMARY_KIND]
        first = chance.randrange(SUMMARY_PARTS)
        for place in reversed(summaries[first:first + chance.choice([1, 1, 2, SUMMARY_PARTS])]):
            del slots[place]


def change_byte(chance, slots, at):
    """One byte of a slot is another."""
    place = chance.choice(PLACES + (chance.randrange(SLOT_BYTES),))
    put_number(slots, at, place, 1, chance.choice([0, 1, 2, 3, 255, chance.randrange(256)]))


def change_gate(chance, slots, at):
    """A gate or a batch word within a batch."""
    put_number(slots, at, chance.choice([GATE_PLACE, WORD_PLACE, WORD_PLACE + 1]), 1, chance.choice([1, 2, 255]))


def change_stamp(chance, slots, at):
    """Another date, time or interval."""
    how = chance.randrange(4)
    if how == 0:
        step = chance.choice([1, MONTH_WEIGHT, YEAR_WEIGHT])
        add_number(slots, at, DATE_PLACE, 2, chance.choice([step, -step]))
    elif how == 1:
        put_number(slots, at, DATE_PLACE, 2, chance.choice(ODD_DATES))
    elif how == 2:
        put_number(slots, at, TIME_PLACE, 2, chance.choice(ODD_TIMES))
    else:
        put_number(slots, at, INTERVAL_PLACE, 2, chance.choice(ODD_INTERVALS))


def change_value(chance, slots, at):
    """Another value, with or without its bit of presence."""
    field = chance.randrange(len(FIELDS))
    put_number(slots, at, VALUES_PLACE + 4 * field, 4, chance.choice(ODD_VALUES))
    if chance.random() < 0.5:
        presence = int.from_bytes(slots[at][PRESENCE_PLACE:PRESENCE_PLACE + 8], "little")
        put_number(slots, at, PRESENCE_PLACE, 8, presence | 1 << field)


def change_bits(chance, slots, at):
    """Another bit of presence or of a limited field."""
    bit = chance.choice([0, 1, len(FIELDS) - 1, len(FIELDS), len(FIELDS) + 1, 63, chance.randrange(64)])
    add_number(slots, at, chance.choice([PRESENCE_PLACE, LIMITED_PLACE]), 8, 1 << bit)


def change_entry(chance, slots, at):
    """Another number of a summary's entry."""
    place, size = chance.choice(ENTRY_NUMBERS)
    place += ENTRIES_PLACE + ENTRY.size * chance.randrange(FIELDS_OF_PART)
    add_number(slots, at, place, size, chance.choice([1, -1, 2, 256, 2 ** (8 * size - 1)]))


def rows_before(slots, at):
    """The rows of the slots up to this one, none where one is ill-formed."""
    rows = [row_of_slot(slot, False, 2) for slot in slots[:at] if slot[KIND_PLACE] == ROW_KIND]
    return [] if None in rows else rows


def add_summary(chance, slots, at):
    """A summary, or a part of one, that stands behind any slot."""
    rows = rows_before(slots, at + 1)
    if rows:
        slots[at + 1:at + 1] = summary_slots(rows_of_last_day(rows))[:chance.choice([1, 5, 12, 13, 13])]


def wrong_summary(chance, rows):
    """A summary of other rows than those of the last day."""
    day = rows_of_last_day(rows)
    midnight = rows[-1].stamp // MINUTES_OF_DAY
    return summary_slots(chance.choice([
        [row for row in rows if row.stamp // MINUTES_OF_DAY == midnight], day[1:] or day,
        [replace(row, interval=5) for row in day], rows[-len(day) - 1:]]))


def change_summary(chance, slots, at):
    """A summary that counts a midnight to the day that begins, or other rows than it should."""
    first = next((place for place in range(at, len(slots)) if slots[place][KIND_PLACE] == SUMMARY_KIND), None)
    rows = rows_before(slots, first) if first is not None else []
    if rows:
        for place, slot in enumerate(wrong_summary(chance, rows), first):
            if place < len(slots) and slots[place][KIND_PLACE] == SUMMARY_KIND:
                slots[place] = slot


SLOT_DAMAGES = {change_order: 5, change_byte: 3, change_gate: 1, change_stamp: 4, change_value: 2, change_bits: 2,
                change_entry: 2, add_summary: 1, change_summary: 2}


def damage_slots(chance, slots):
    """Damages the slots of a file once."""
    if slots:
        change = chance.choices(list(SLOT_DAMAGES), list(SLOT_DAMAGES.values()))[0]
        change(chance, slots, chance.randrange(len(slots)))


def gates_of(image):
    """The places of the open gates, as far as their batch words go, and of the gate behind them."""
    gates, at = [SLOT_BYTES], SLOT_BYTES
    while at + 4 <= len(image) and image[at] != 0 and image[at + WORD_PLACE] != 0:
        at += SLOT_BYTES * int.from_bytes(image[at + WORD_PLACE:at + WORD_PLACE + 2], "little")
        gates.append(at)
    return [gate for gate in gates if gate < len(image)]


def change_batch(chance, image):
    """Another gate or another batch word."""
    gate = chance.choice(gates_of(image) or [0])
    if chance.random() < 0.5:
        image[gate] = chance.choice([0, 0, 0, 2, 255])
        return
    word = int.from_bytes(image[gate + WORD_PLACE:gate + WORD_PLACE + 2], "little")
    number = chance.choice([0, 71, 70, 256, 65535, word + 1, max(word - 1, 0), word + 2, word + 13])
    image[gate + WORD_PLACE:gate + WORD_PLACE + 2] = (number % 2 ** 16).to_bytes(2, "little")


def open_tail(chance, image):
    """The closed gate at the end is open, over so many zeros."""
    gate = (gates_of(image) or [0])[-1]
    image[gate:] = bytes([chance.choice([1, 255])]) + bytes(chance.choice([0, 1, 2, 3, 175, 176, 177, 352, 353]))


def change_length(chance, image):
    """The file is cut off anywhere, or near the begin of a slot."""
    slot = SLOT_BYTES * chance.randint(0, len(image) // SLOT_BYTES)
    del image[max(0, chance.choice([chance.randint(0, len(image)), slot + chance.choice([-1, 0, 1, 2, 3, 4])])):]


def change_any_byte(chance, image):
    """One byte of the file is another."""
    image[chance.randrange(len(image))] = chance.randrange(256)


def change_head(chance, image):
    """Another head."""
    head = chance.choice(ODD_HEADS + (head_slot(1), head_slot(2)))
    image[:len(head)] = head


BYTE_DAMAGES = {change_batch: 4, open_tail: 1, change_length: 2, change_any_byte: 2, change_head: 1}


def damage_bytes(chance, image):
    """Damages the bytes of a file once."""
    if image:
        chance.choices(list(BYTE_DAMAGES), list(BYTE_DAMAGES.values()))[0](chance, image)
