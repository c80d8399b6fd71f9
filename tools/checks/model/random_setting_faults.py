"""Faults of settings; each puts something in a tree that may be refused."""

import copy

from .random_settings import PARTS, Array, Table, random_calibration, random_change, random_changes, random_limits
from .random_settings import random_part
from .records import NAMES
from .settings import CALIBRATION_RANGES, GREATEST_NUMBER, LEAST_NUMBER, LIMIT_RANGES, MOST_ROWS

ODD_VALUES = ("1.0", "true", '"5"', "[5]", "2024-07-01", "nan", "{}", "1e3", "-0.0", "[]", "inf",
              "2024-07-01T00:10:00", "00:10:00", "''", "false")
ODD_KEYS = ("", "a", "zz", "Period", "perod", "outtemp", "outTemp2", "num2", "least ", "0", "-", "_", "é",
            "\U0001f600", "\uffff", "leafTemp3", "change", "changes", "from", "calibration", "limits", "period",
            "rows", "num", "den", "add", "least", "greatest", "outTemp", "UV", "zzz", "~")
ODD_STAMPS = ('"2024-07-01"', '"2024-07-01 24:00"', '"2024-02-30 00:00"', '"1999-12-31 23:59"', '"2128-01-01 00:00"',
              '"2024-07-01T00:10"', '"2024-07-01 00:10 "', '" 2024-07-01 00:10"', '"2024-7-1 00:10"',
              '"2024-07-01 00:60"', '"2024-13-01 00:10"', '"2024-00-01 00:10"', "5", "2024-07-01T00:10:00",
              "2024-07-01 00:10:00", "true", "{}", '""', '"2024-07-00 00:10"', '"+024-07-01 00:10"',
              '"2024-07-01 00:1٠"', '"2100-02-29 00:00"', '"0000-01-01 00:00"', '"2024-07-01  0:10"',
              '"2024/07/01 00:10"', "'2024-07-01 23:59'", '"20240-7-01 00:10"', "[]")
WIDE_NUMBERS = (2 ** 31, -2 ** 31 - 1, 2 ** 32, 2 ** 33 + 1, GREATEST_NUMBER, LEAST_NUMBER)
ODD_PERIODS = (0, 2, 7, -5, 121, 120 + 2 ** 16, 5 + 2 ** 8, 5 + 2 ** 32, GREATEST_NUMBER)
RANGES = {"calibration": CALIBRATION_RANGES, "limits": LIMIT_RANGES}


def changes_of(root):
    """The tables of the dated changes."""
    found = root.get("change")
    return [member for member in found if isinstance(member, Table)] if isinstance(found, Array) else []


def holder(chance, root):
    """The file's table or that of a change."""
    return chance.choice([root] + changes_of(root))


def some_part(chance, root):
    """A section's name and table, made where it is missing."""
    table, part = holder(chance, root), chance.choice(PARTS)
    if not isinstance(table.get(part), Table):
        table.put(chance, part, random_part(chance, part))
    return part, table.get(part)


def some_field(chance, root):
    """A section's name and the table of one of its fields, made where it is missing."""
    part, table = some_part(chance, root)
    if not any(isinstance(value, Table) for _, value in table):
        made = random_calibration(chance) if part == "calibration" else random_limits(chance)
        table.put(chance, chance.choice(NAMES), made)
    return part, chance.choice([value for _, value in table if isinstance(value, Table)])


def some_changes(chance, root, draw_stamp):
    """The array of changes, made where it is missing."""
    if not isinstance(root.get("change"), Array) or not root.get("change"):
        root.put(chance, "change", random_changes(chance, chance.randint(1, 3), draw_stamp))
    return root.get("change")


def put_odd(chance, table, values):
    """Puts one to three odd keys in a table."""
    for _ in range(chance.choice((1, 1, 2, 3))):
        table.put(chance, chance.choice(ODD_KEYS), chance.choice(values))


def odd_number(chance, numbers):
    """A value that is no number, or one of these."""
    return chance.choice(ODD_VALUES) if chance.random() < 0.5 else str(chance.choice(numbers))


def fault_of_keys(chance, root, draw_stamp):
    """Keys that are not known."""
    some_changes(chance, root, draw_stamp)
    table = chance.choice([root, holder(chance, root), some_part(chance, root)[1], some_field(chance, root)[1]])
    put_odd(chance, table, ("1", "{}", "[]", Table()))


def fault_of_tables(chance, root, _):
    """Something in a table's place."""
    value = chance.choice(ODD_VALUES + ("5",))
    if chance.random() < 0.5:
        holder(chance, root).put(chance, chance.choice(PARTS), value)
    else:
        some_part(chance, root)[1].put(chance, chance.choice(NAMES), value)


def fault_of_number(chance, root, _):
    """A number of a field that is out of its range."""
    part, table = some_field(chance, root)
    key, (least, greatest) = chance.choice(sorted(RANGES[part].items()))
    table.put(chance, key, odd_number(chance, (least - 1, greatest + 1) + WIDE_NUMBERS))


def fault_of_top_number(chance, root, _):
    """A period or a number of rows that is out of its range."""
    if chance.random() < 0.5:
        root.put(chance, "rows", odd_number(chance, (0, -1, MOST_ROWS + 1) + WIDE_NUMBERS))
    else:
        root.put(chance, "period", odd_number(chance, ODD_PERIODS))


def fault_of_crossed_limits(chance, root, _):
    """Limits of which the least is the greater."""
    table, least = holder(chance, root), chance.choice((0, -5, 1_999_999_999))
    if not isinstance(table.get("limits"), Table):
        table.put(chance, "limits", random_part(chance, "limits"))
    pair = Table([("greatest", str(least)), ("least", str(least + 1))])
    chance.shuffle(pair)
    table.get("limits").put(chance, chance.choice(NAMES), pair)


def fault_of_changes(chance, root, draw_stamp):
    """Something in the place of the changes or of one of them, or too many of them."""
    how = chance.randrange(3)
    if how == 0:
        root.put(chance, "change", chance.choice(ODD_VALUES + (Table([("from", '"2024-07-01 00:10"')]),)))
    elif how == 1:
        changes = some_changes(chance, root, draw_stamp)
        changes.insert(chance.randint(0, len(changes)), chance.choice(("5", "[]", '"x"', "1.5", "true")))
    else:
        root.put(chance, "change", random_changes(chance, chance.choice((16, 17, 17, 18, 30)), draw_stamp))


def fault_of_start(chance, root, draw_stamp):
    """A change without a start, or with an odd one."""
    some_changes(chance, root, draw_stamp)
    if changes_of(root):
        table = chance.choice(changes_of(root))
        table.put(chance, "from", chance.choice(ODD_STAMPS))
        if chance.random() < 0.3:
            table[:] = [pair for pair in table if pair[0] != "from"]


def fault_of_order(chance, root, draw_stamp):
    """Changes that do not rise."""
    changes = some_changes(chance, root, draw_stamp)
    if chance.random() < 0.5:
        changes.append(copy.deepcopy(chance.choice(changes)))
    else:
        changes.append(random_change(chance, draw_stamp(chance)))
        chance.shuffle(changes)


def fault_of_width(chance, root, _):
    """A number beyond 64 bits, which is no syntax."""
    wide = str(chance.choice((GREATEST_NUMBER + 1, LEAST_NUMBER - 1, 10 ** 25)))
    chance.choice((root, some_field(chance, root)[1])).put(chance, chance.choice(("period", "zz", "add")), wide)


FAULTS = (fault_of_keys, fault_of_keys, fault_of_tables, fault_of_number, fault_of_number, fault_of_top_number,
          fault_of_crossed_limits, fault_of_changes, fault_of_start, fault_of_order, fault_of_width)
