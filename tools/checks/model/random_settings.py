"""Random settings without a fault, as trees: tables and arrays of values that are written as they stand."""

from .records import NAMES
from .settings import MOST_CHANGES, MOST_ROWS
from .stamps import PERIODS, stamp_text

PARTS = ("calibration", "limits")
WIDEST_LIMIT = 2_000_000_000
BEST_KNOWN = "outTemp"  # the field that most cases have


class Table(list):
    """A table: its keys and values, as pairs, in the order in which they are written."""

    def get(self, key):
        """The value of a key, None where it is not there."""
        return next((value for name, value in self if name == key), None)

    def put(self, chance, key, value):
        """Sets a key, at a random place where it is new."""
        for place, (name, _) in enumerate(self):
            if name == key:
                self[place] = (key, value)
                return
        self.insert(chance.randint(0, len(self)), (key, value))


class Array(list):
    """An array of values."""


def shuffled(chance, pairs):
    """A table of these pairs in any order."""
    table = Table(pairs)
    chance.shuffle(table)
    return table


def whole_text(chance, number):
    """A spelling of a whole number."""
    choice = chance.random()
    if number >= 0 and choice < 0.08:
        return chance.choice((f"0x{number:x}", f"0x{number:X}", f"0o{number:o}", f"+{number}", bin(number)))
    if choice < 0.14 and abs(number) >= 1000:
        return f"{number:_}"
    return str(number)


def random_calibration(chance):
    """The table of one field's calibration."""
    numbers = {"num": chance.choice((0, 1, 2, 3, 16, chance.randint(0, 16))),
               "den": chance.choice((1, 2, 3, 7, 10_000, chance.randint(1, 10_000))),
               "add": chance.choice((0, 1, -1, 5, 900_000, -900_000, chance.randint(-900_000, 900_000)))}
    pairs = [(key, whole_text(chance, number)) for key, number in numbers.items()]
    return shuffled(chance, [pair for pair in pairs if chance.random() < 0.6])


def random_limits(chance):
    """The table of one field's limits, not crossed."""
    span = chance.choice((3, 300, 40_000, WIDEST_LIMIT))
    least, greatest = sorted(chance.randint(-span, span) for _ in range(2))
    if chance.random() < 0.1:
        least, greatest = chance.choice(((-WIDEST_LIMIT, WIDEST_LIMIT), (7, 7), (0, 0)))
    pairs = (("least", whole_text(chance, least)), ("greatest", whole_text(chance, greatest)))
    return shuffled(chance, [pair for pair in pairs if chance.random() < 0.75])


def random_part(chance, part):
    """A section with some fields."""
    make = random_calibration if part == "calibration" else random_limits
    most = len(NAMES) if chance.random() < 0.2 else 3
    names = chance.sample(NAMES, chance.choice((0, 1, 2, 4, most)))
    if BEST_KNOWN not in names and chance.random() < 0.7:
        names.append(BEST_KNOWN)
    return Table((name, make(chance)) for name in names)


def random_change(chance, stamp):
    """One dated change."""
    pairs = [("from", f'"{stamp_text(stamp)}"')]
    pairs += [(part, random_part(chance, part)) for part in PARTS if chance.random() < 0.7]
    return shuffled(chance, pairs)


def random_changes(chance, count, draw_stamp):
    """So many changes at stamps that rise, each drawn by `draw_stamp`."""
    stamps = set()
    while len(stamps) < count:
        stamps.add(draw_stamp(chance))
    return Array(random_change(chance, stamp) for stamp in sorted(stamps))


def random_settings(chance, draw_stamp, period=None):
    """Settings without a fault; with this period where one is given."""
    pairs = []
    if period is not None or chance.random() < 0.6:
        pairs.append(("period", whole_text(chance, period or chance.choice(PERIODS))))
    if chance.random() < 0.4:
        most = chance.choice((1, 4, 5, 9, 10, MOST_ROWS, chance.randint(1, 60), chance.randint(1, MOST_ROWS)))
        pairs.append(("rows", whole_text(chance, most)))
    pairs += [(part, random_part(chance, part)) for part in PARTS if chance.random() < 0.7]
    if chance.random() < 0.7:
        pairs.append(("change", random_changes(chance, chance.choice((0, 1, 1, 2, 3, MOST_CHANGES)), draw_stamp)))
    return shuffled(chance, pairs)
