"""Settings: the period, the most rows, calibrations, limits and dated changes, and the faults of their file."""

import tomllib
from dataclasses import dataclass, field

from .outcomes import BAD_SETTINGS, Refusal
from .records import NAMES
from .stamps import PERIODS, has_form, stamp_of_texts

MOST_ROWS = 1_048_576
MOST_CHANGES = 16
LEAST_NUMBER, GREATEST_NUMBER = -2 ** 63, 2 ** 63 - 1
CALIBRATION_RANGES = {"num": (0, 16), "den": (1, 10_000), "add": (-900_000, 900_000)}
LIMIT_RANGES = {"least": (-2_000_000_000, 2_000_000_000),
                "greatest": (-2_000_000_000, 2_000_000_000)}


class SettingsFault(Refusal):
    """The settings are refused; the text is the line that says why."""

    def __init__(self, line):
        super().__init__(BAD_SETTINGS, line)


def unknown_key(section, name, place):
    """The fault of a key that is not known; the place counts the keys of its table in byte order."""
    return SettingsFault(f"settings unknown key {section} {name or '-'} {place}")


def bad_number(section, name, place):
    """The fault of a value that is no number in its range, or no table."""
    return SettingsFault(f"settings bad number {section} {name or '-'} {place}")


@dataclass
class Corrections:
    """Calibrations and limits by field name, in force from a stamp on."""
    start: int = 0
    calibration: dict = field(default_factory=dict)
    limits: dict = field(default_factory=dict)


@dataclass
class Settings:
    """All that a settings file says; the first corrections are in force from the beginning."""
    period: int = 5
    most: int = MOST_ROWS
    corrections: list = field(default_factory=lambda: [Corrections()])


def in_byte_order(table):
    """Each key with its place and value."""
    return [(place, key, table[key])
            for place, key in enumerate(sorted(table, key=lambda key: key.encode()))]


def is_whole(value):
    """Whether a value is a whole number."""
    return isinstance(value, int) and not isinstance(value, bool)


def whole_within(value, least, greatest):
    """Whether a value is a whole number in a range."""
    return is_whole(value) and least <= value <= greatest


def has_wide_number(value):
    """Whether a value holds a whole number beyond 64 bits."""
    if isinstance(value, dict):
        return any(has_wide_number(member) for member in value.values())
    if isinstance(value, list):
        return any(has_wide_number(member) for member in value)
    return is_whole(value) and not LEAST_NUMBER <= value <= GREATEST_NUMBER


def document_of(text):
    """The table that the bytes of a settings file hold."""
    try:
        document = tomllib.loads(text.decode().removeprefix("\ufeff"))
    except (UnicodeDecodeError, tomllib.TOMLDecodeError):
        raise SettingsFault("settings syntax") from None
    if has_wide_number(document):
        raise SettingsFault("settings syntax")
    return document


def read_field_table(section, name, table, ranges):
    """One field's calibration or limits."""
    for place, key, value in in_byte_order(table):
        if key not in ranges:
            raise unknown_key(section, name, place)
        if not whole_within(value, *ranges[key]):
            raise bad_number(section, name, place)
    return table


def read_section(section, table, ranges, crossed=None):
    """The field tables of a calibration or limits section."""
    for place, name, value in in_byte_order(table):
        if name not in NAMES:
            raise unknown_key(section, None, place)
        if not isinstance(value, dict):
            raise bad_number(section, None, place)
        read_field_table(section, name, value, ranges)
        if "least" in value and "greatest" in value and value["least"] > value["greatest"]:
            raise SettingsFault(crossed.format(name))
    return table


def read_from(at, text):
    """The stamp that a change is in force from."""
    words = text.split(" ") if isinstance(text, str) else []
    if len(words) == 2 and has_form(*words):
        stamp = stamp_of_texts(*words)
        if stamp is not None:
            return stamp
    raise SettingsFault(f"settings bad from {at}")


def read_change(at, table):
    """One dated change; `at` counts them from 0."""
    change = Corrections()
    for place, key, value in in_byte_order(table):
        if key not in ("calibration", "from", "limits"):
            raise unknown_key(f"change-{at}", None, place)
        if key == "from":
            continue
        if not isinstance(value, dict):
            raise bad_number(f"change-{at}", None, place)
        if key == "calibration":
            change.calibration = read_section(
                f"change-{at}-calibration", value, CALIBRATION_RANGES)
        else:
            change.limits = read_section(
                f"change-{at}-limits", value, LIMIT_RANGES,
                "settings crossed {} change " + str(at))
    change.start = read_from(at, table.get("from"))
    return change


def read_changes(place, members):
    """All dated changes, in the order of the file."""
    if not isinstance(members, list):
        raise bad_number("top", None, place)
    if len(members) > MOST_CHANGES:
        raise SettingsFault("settings too many changes")
    changes = []
    for at, table in enumerate(members):
        if not isinstance(table, dict):
            raise bad_number("top", None, place)
        change = read_change(at, table)
        if changes and change.start <= changes[-1].start:
            raise SettingsFault(f"settings change order {at}")
        changes.append(change)
    return changes


def read_settings(text):
    """The settings that the bytes of a file hold, or the first fault."""
    settings = Settings()
    own = settings.corrections[0]
    for place, key, value in in_byte_order(document_of(text)):
        if key == "period":
            if not is_whole(value) or value not in PERIODS:
                raise SettingsFault("settings bad period")
            settings.period = value
        elif key == "rows":
            if not whole_within(value, 1, MOST_ROWS):
                raise bad_number("top", None, place)
            settings.most = value
        elif key == "change":
            settings.corrections += read_changes(place, value)
        elif key not in ("calibration", "limits"):
            raise unknown_key("top", None, place)
        elif not isinstance(value, dict):
            raise bad_number("top", None, place)
        elif key == "calibration":
            own.calibration = read_section(key, value, CALIBRATION_RANGES)
        else:
            own.limits = read_section(key, value, LIMIT_RANGES, "settings crossed {}")
    return settings


def in_force(settings, part, name, stamp):
    """The field's table of the last correction that names it and is not later than stamp."""
    tables = [getattr(corrections, part) for corrections in settings.corrections if corrections.start <= stamp]
    return next((table[name] for table in reversed(tables) if name in table), {})
