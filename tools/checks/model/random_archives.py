"""Random archives: rows, files of them in batches of any size, reports of them and copies to others."""

from dataclasses import dataclass, replace

from .archive import CLOSED_GATE, EMPTY_BYTES, MOST_BATCH_SLOTS, MOST_VALUE, SLOT_BYTES, THIS_VERSION, head_slot
from .archive import sealed_batch, slots_to_add
from .cases import Case
from .copies import ROWS_OF_BATCH
from .random_damages import damage_bytes, damage_slots
from .records import FIELDS
from .reports import KINDS
from .rows import Row
from .stamps import FIRST_DAY, LAST_DAY, LAST_STAMP, MINUTES_OF_DAY, PERIODS, archive_day, date_of, stamp_of_texts

ANCHORS = tuple(stamp_of_texts(*text.split(" ")) for text in (
    "2000-01-01 00:00", "2127-12-30 22:00", "2127-12-31 23:30", "2024-02-28 23:40", "2023-02-28 23:40",
    "2100-02-28 23:00", "2000-02-28 20:00", "2024-12-31 23:30", "2099-12-31 22:00", "2024-06-30 23:55",
    "2024-07-01 00:00"))
STEPS = ("dense", "minute", "days", "midnight", "gaps")
SIZES = ("tiny", "byte", "word", "edge", "wide")
ODD_WORDS = ("", "Rows", "row", "day", "2024-7-01", "2024-02-30", "2023-02-29", "1999-12-30", "2128-01-01",
             "2024-13-01", "2024-00-10", "2024-01-00", "20240-1-01", "2024/01/01", " 2024-01-01", "2024-01-01 ",
             "+024-01-01", "2024-01--1", "0000-01-01", "9999-12-31", "2024-1a-01", "reports", "REPORT", "2000-02-29")
ODD_YEARS = ("", "24", "1998", "2128", "02024", "20240", "+2024", "-2024", "2O24", " 2024", "2024 ", "2024-01", "year")
# How often each kind of file is copied to.
TARGETS = {"none": 10, "short": 5, "raw": 4, "whole": 8, "part": 30, "more": 6, "different": 14, "damaged": 12,
           "version 1": 4, "other": 4}
RAW_SIZES = (0, 1, 7, 8, 9, 176, 177, 178, 179, 180, 352, 353, 354, 529)


def next_stamp(chance, stamp, step, interval):
    """A later stamp."""
    step = chance.choice(STEPS) if step == "mixed" else step
    if step == "dense":
        return stamp + interval
    if step == "minute":
        return stamp + chance.choice([1, 1, 1, 2, 7])
    if step == "days":
        return stamp + chance.choice([MINUTES_OF_DAY, MINUTES_OF_DAY + 1, MINUTES_OF_DAY - 1, 720, 2880, 4320])
    if step == "midnight":
        midnight = (stamp // MINUTES_OF_DAY + 1) * MINUTES_OF_DAY
        return max(stamp + 1, midnight + chance.choice([-1, 0, 0, 1, MINUTES_OF_DAY, MINUTES_OF_DAY + 1]))
    days = chance.choice([1, 27, 28, 29, 30, 31, 365, 366, 800, 9000])
    return stamp + days * MINUTES_OF_DAY + chance.randrange(MINUTES_OF_DAY)


def random_value(chance, size):
    """A value that an archive may hold."""
    size = chance.choice(SIZES) if size == "mixed" else size
    if size == "tiny":
        return chance.choice([-1, 0, 0, 1])
    if size == "byte":
        return chance.randrange(256)
    if size == "word":
        return chance.randrange(-2 ** 15, 2 ** 15)
    if size == "edge":
        return chance.choice([MOST_VALUE, -MOST_VALUE, MOST_VALUE - 1, 1 - MOST_VALUE, 0])
    return chance.randint(-MOST_VALUE, MOST_VALUE)


def random_rows(chance, most):
    """Up to so many rows that rise."""
    counts = [0, 1, chance.randint(2, 6), chance.randint(2, 30), chance.randint(10, max(10, most))]
    count = min(most, chance.choices(counts, [2, 6, 40, 40, 12])[0])
    stamp = chance.choice(ANCHORS) + chance.choice([0, 0, 1, 5, chance.randrange(60)])
    if chance.random() < 0.4:
        stamp = chance.randint(0, LAST_STAMP)
    step, size = chance.choice(STEPS + ("mixed",) * 2), chance.choice(SIZES + ("mixed",))
    there, limiting = chance.choice([0.0, 0.05, 0.2, 0.6, 1.0]), chance.choice([0, 0, 0.05, 0.3, 1.0])
    active = [place for place in range(len(FIELDS)) if chance.random() < chance.choice([0.1, 0.5, 1.0])]
    interval, rows = chance.choice(PERIODS), []
    while len(rows) < count and stamp <= LAST_STAMP:
        values = {place: random_value(chance, size) for place in active if chance.random() < there}
        limited = frozenset(place for place in range(len(FIELDS)) if place not in values and chance.random() < limiting)
        rows.append(Row(stamp, interval, tuple(map(values.get, range(len(FIELDS)))), limited))
        if chance.random() < 0.2:
            interval = chance.choice(PERIODS)
        stamp = next_stamp(chance, stamp, step, interval)
    return rows


@dataclass
class Plan:
    """A file to make: its rows, and how they stand in it."""
    version: int
    rows: list
    sizes: list            # slots of the batches; what is left stands in batches as great as may be
    gate: int = 1
    tail: bytes = b""      # what stands behind the closed gate
    slot_damages: int = 0
    byte_damages: int = 0


def natural_sizes(chance, rows):
    """Slots of batches that some rows each would make."""
    sizes, at, batch = [], 0, chance.choice([None, ROWS_OF_BATCH])
    while at < len(rows):
        count = batch or chance.randint(1, ROWS_OF_BATCH)
        sizes.append(len(slots_to_add(rows[:at], rows[at:at + count])))
        at += count
    return sizes


def without_limits(rows):
    """The rows as version 1 knows them."""
    return [replace(row, limited=frozenset()) for row in rows]


def random_plan(chance, rows, version):
    """A whole file of these rows."""
    how, most, sizes = chance.random(), chance.choice([1, 3, 13, 14, 70]), []
    if how < 0.4:
        sizes = natural_sizes(chance, rows)
    elif how < 0.9:
        sizes = [chance.randint(1, most) for _ in range(20 * len(rows))]
    plan = Plan(version, rows if version == THIS_VERSION else without_limits(rows), sizes)
    if chance.random() < 0.3:
        plan.gate = chance.choice([2, 255, 48, 128])
    if chance.random() < 0.35:
        size = chance.choice([chance.randrange(1, 400), chance.randrange(400, 4000)])
        plan.tail = chance.choice([bytes(size), chance.randbytes(size), b"\xff" * size])
    return plan


def bytes_of(chance, plan):
    """The bytes of a planned file."""
    slots, sizes = slots_to_add([], plan.rows), iter(plan.sizes)
    for _ in range(plan.slot_damages):
        damage_slots(chance, slots)
    image = head_slot(plan.version)
    while slots:
        size = min(next(sizes, MOST_BATCH_SLOTS), MOST_BATCH_SLOTS)
        image += sealed_batch(slots[:size], plan.gate)
        slots = slots[size:]
    image = bytearray(image + CLOSED_GATE + plan.tail)
    for _ in range(plan.byte_damages):
        damage_bytes(chance, image)
    return bytes(image)


def damaged(chance, plan):
    """The plan with damages, or with rows that do not rise."""
    rows = list(plan.rows)
    if chance.random() < 0.1 and len(rows) > 1:
        at = chance.randrange(len(rows) - 1)
        rows[at + 1] = replace(rows[at + 1], stamp=chance.choice([rows[at].stamp, rows[0].stamp]))
        return replace(plan, rows=rows)
    if chance.random() < 0.6:
        return replace(plan, slot_damages=chance.choice([1, 1, 1, 2]))
    return replace(plan, byte_damages=chance.choice([1, 1, 2]))


def random_bytes(chance):
    """Bytes that are no archive, or only begin like one."""
    size = chance.choice(RAW_SIZES + (chance.randrange(1000),))
    head = head_slot(chance.choice([1, 2]))
    first = bytes([chance.choice([0, 1]), chance.choice([1, 2]), chance.choice([0, 1, 2]), 0])
    return chance.choice([chance.randbytes(size), bytes(size), (head + chance.randbytes(size))[:size],
                          (head + first + bytes(size))[:size]])


def report_words(chance, rows):
    """The words of a report around the days of some rows; a few have a fault."""
    days = [archive_day(row.stamp) for row in rows] or [0]
    near = [day + chance.choice([0, 0, 0, -31, -1, 1, 31]) for day in chance.choices(days, k=2)]
    first, last = sorted(min(max(day, FIRST_DAY), LAST_DAY) for day in near)
    if chance.random() < 0.35:
        first, last = FIRST_DAY, LAST_DAY
    words = ["report", "old", chance.choice(KINDS), date_of(first).isoformat(), date_of(last).isoformat()]
    if chance.random() < 0.05:
        words[chance.choice([0, 2, 3, 4])] = chance.choice(ODD_WORDS)
    if chance.random() < 0.02:
        words[3:] = chance.choice([[words[4], words[3]], words[3:4], words[3:] + ["2024-07-01"]])
    return words


def files_to_read(chance, rows, whole):
    """A file of some rows, which is whole for so great a part of the cases; a few have none."""
    plan = random_plan(chance, rows, chance.choice([1, 2, 2]))
    how = chance.random()
    if how < 0.06:
        image = random_bytes(chance)
    else:
        image = bytes_of(chance, damaged(chance, plan) if how < 1 - whole else plan)
    return {} if chance.random() < 0.01 else {"old": image}


def random_report_case(chance):
    """A run of `report`."""
    rows = random_rows(chance, 120)
    return Case(report_words(chance, rows), files_to_read(chance, rows, 0.4))


def climate_words(chance, rows):
    """The words of a climate table of a year that has rows, or of one beside it; a few have a fault."""
    days = [archive_day(row.stamp) for row in rows] or [0]
    year = date_of(chance.choice(days)).year + chance.choice([0] * 12 + [1, -1])
    words = ["climate", "old", str(year)]
    if chance.random() < 0.06:
        words[chance.choice([0, 2])] = chance.choice(ODD_YEARS)
    if chance.random() < 0.02:
        words = chance.choice([words[:2], words + ["2024"]])
    return words


def rows_of_each_day(chance):
    """A row of each of 366 days from the first of a year on, which may be a leap year, at midnight or within the day."""
    first = stamp_of_texts(f"{chance.choice((2000, 2023, 2024, 2096, 2100))}-01-01", "00:05")
    first += chance.choice([-5, 0, 0, chance.randrange(MINUTES_OF_DAY - 5)])
    others = [None] * (len(FIELDS) - 1)
    return [Row(first + day * MINUTES_OF_DAY, 5, (chance.randrange(-200, 1000), *others), frozenset()) for day in range(366)]


def random_climate_case(chance):
    """A run of `climate`."""
    rows = rows_of_each_day(chance) if chance.random() < 0.02 else random_rows(chance, 200)
    return Case(climate_words(chance, rows), files_to_read(chance, rows, 0.85))


def changed_row(chance, row):
    """A row with something changed."""
    how, place = chance.randrange(4), chance.randrange(len(FIELDS))
    if how == 0:
        return replace(row, stamp=min(max(row.stamp + chance.choice([1, -1]), 0), LAST_STAMP))
    if how == 1:
        return replace(row, interval=chance.choice(PERIODS))
    if how == 2 and row.values[place] is None:
        return replace(row, limited=row.limited ^ {place})
    value = None if how == 2 else random_value(chance, "mixed")
    values = row.values[:place] + (value,) + row.values[place + 1:]
    return replace(row, values=values, limited=row.limited - {place})


def different(chance, rows):
    """The rows with one of them changed, as far as they rise."""
    at = chance.randrange(len(rows))
    row = changed_row(chance, rows[at])
    before = [other for other in rows[:at] if other.stamp < row.stamp]
    return before + [row] + [other for other in rows[at + 1:] if other.stamp > row.stamp]


def unfinished(chance, plan, rows):
    """The plan with a batch behind its rows that was written and not opened, as a crash may leave it."""
    batch = slots_to_add(plan.rows, rows[len(plan.rows):][:ROWS_OF_BATCH])
    tail = b"".join(batch)[1:]
    written = chance.choice([len(tail), chance.randrange(len(tail) + 1)])
    return replace(plan, tail=tail[:written] + chance.choice([b"", b"\0", b"\xff"]))


def torn(chance, image):
    """What a power cut may leave of bytes that were being written, with another byte now and then."""
    cut = bytes(chance.choice([byte, 0, 0xFF]) for byte in image)
    place = chance.randrange(len(cut)) if cut and chance.random() < 0.3 else len(cut)
    return cut[:place] + chance.randbytes(len(cut[place:place + 1])) + cut[place + 1:]


def target_bytes(chance, rows):
    """The bytes of a file to copy some rows to, None where there is none."""
    some = rows[:chance.randint(0, len(rows))]
    more = [row for row in random_rows(chance, 12) if not rows or row.stamp > rows[-1].stamp]
    what = chance.choices(list(TARGETS), list(TARGETS.values()))[0]
    if what == "none":
        return None
    if what == "short":
        size = chance.choice([0, 1, 8, SLOT_BYTES, EMPTY_BYTES, chance.randrange(EMPTY_BYTES)])
        return chance.choice([chance.randbytes(size), bytes(size), torn(chance, (head_slot(THIS_VERSION) + CLOSED_GATE)[:size])])
    if what == "raw":
        return random_bytes(chance)
    kept = {"whole": rows, "more": rows + more, "different": different(chance, rows) if rows else rows,
            "other": random_rows(chance, 12)}.get(what, some)
    plan = random_plan(chance, kept, 1 if what == "version 1" else THIS_VERSION)
    if what == "part" and chance.random() < 0.35:
        plan = unfinished(chance, plan, rows)
    return bytes_of(chance, damaged(chance, plan) if what == "damaged" else plan)


def random_copy_case(chance):
    """A run of `copy`."""
    rows = random_rows(chance, chance.choice([12, 30, 30, 60]))
    plan = random_plan(chance, rows, chance.choice([1, 2, 2]))
    new = target_bytes(chance, plan.rows)
    files = {} if new is None else {"new": new}
    how = chance.random()
    if how < 0.02:
        files["old"] = random_bytes(chance)
    elif how > 0.01:
        files["old"] = bytes_of(chance, damaged(chance, plan) if how < 0.12 else plan)
    words = ["copy", "old", "new"]
    if chance.random() < 0.01:
        words = chance.choice([["copy", "old", "old"], ["copy", "old"], words + ["new"], ["Copy", "old", "new"]])
    return Case(words, files)
