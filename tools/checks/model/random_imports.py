"""Random imports: texts of rows, some of them with a fault, into archives of any kind."""

from .cases import Case
from .random_archives import random_rows, target_bytes
from .rows import row_line

NAME, ARCHIVE = "text", "archive"
MOST_ROWS_OF_TEXT = 30
# What stands in the place of a line's byte, or is put there.
ODD_BYTES = "0123456789-+= \t\r\n:aeTlimtwr.\0\xff"
ODD_LINES = ("", "row", "row ", "bad entry 0", "page 0 place 0 revision 255", "day 2024-07-01 rain", "# row",
             "row 2024-07-01 00:05", "row 2024-07-01 00:05 5 ", "row 2024-02-30 00:05 5", "row 2128-01-01 00:00 5",
             "row 2024-07-01 00:05 7", "row 2024-07-01 00:05 5 rain=limit rain=1", "row 2024-07-01 00:05 5 rain=-0",
             "row 2024-07-01 00:05 5 rain=2000001", "row 2024-07-01 00:05 5 ET=1 rain=1")
ODD_VALUES = ("-0", "00", "01", "+1", "1.0", "limit", "limits", "", "2000000", "-2000000", "2000001", "-2000001",
              "9999999999", "10000000000", "1 ", "1=1", "300", "-1")


def with_odd_byte(chance, line):
    """The line with a byte that is another one, is gone, or is there besides."""
    place = chance.randrange(len(line) + 1)
    put = chance.choice(ODD_BYTES) if chance.random() < 0.7 else ""
    return line[:place] + put + line[place + chance.randrange(2):]


def with_odd_value(chance, line):
    """The line with another word behind one of its names, if it has one."""
    items = line.split(" ")
    places = [place for place, item in enumerate(items) if "=" in item]
    if not places:
        return line
    place = chance.choice(places)
    items[place] = items[place].partition("=")[0] + "=" + chance.choice(ODD_VALUES)
    return " ".join(items)


def with_items_moved(chance, line):
    """The line with two of its words in each other's place, or one of them twice."""
    items = line.split(" ")
    one, other = chance.randrange(len(items)), chance.randrange(len(items))
    if chance.random() < 0.5:
        items[one], items[other] = items[other], items[one]
    else:
        items.insert(one, items[other])
    return " ".join(items)


CHANGES = with_odd_byte, with_odd_byte, with_odd_value, with_items_moved


def with_faults(chance, lines):
    """The lines with some of them changed, moved, twice, or gone."""
    lines = list(lines)
    for _ in range(chance.choice([1, 1, 1, 2, 3])):
        how, place = chance.random(), chance.randrange(len(lines)) if lines else 0
        if how < 0.1 or not lines:
            lines.insert(place, chance.choice(ODD_LINES))
        elif how < 0.2:
            lines.insert(chance.randrange(len(lines) + 1), lines[place])
        elif how < 0.25:
            lines.append(lines.pop(place))
        else:
            lines[place] = chance.choice(CHANGES)(chance, lines[place])
    return lines


def text_of(chance, rows):
    """The text of rows, now and then with faults or without its last line feed."""
    lines = [row_line(row) for row in rows]
    if chance.random() < 0.45:
        lines = with_faults(chance, lines)
    text = "".join(line + "\n" for line in lines)
    return text[:-1] if chance.random() < 0.04 else text


def random_import_case(chance):
    """A run of `import`."""
    rows = random_rows(chance, chance.choice([12, MOST_ROWS_OF_TEXT]))
    archive = target_bytes(chance, rows)
    first = chance.randint(0, len(rows)) if chance.random() < 0.4 else 0
    files = {NAME: text_of(chance, rows[first:]).encode("latin-1")}
    if archive is not None:
        files[ARCHIVE] = archive
    if chance.random() < 0.01:
        del files[NAME]
    words = ["import", NAME, ARCHIVE]
    if chance.random() < 0.01:
        words = chance.choice([["import", NAME, NAME], ["import", NAME], words + [ARCHIVE], ["Import", NAME, ARCHIVE]])
    return Case(words, files)
