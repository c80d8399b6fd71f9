"""Rows of corrected values, and their lines."""

from dataclasses import dataclass

from .records import NAMES
from .settings import in_force
from .stamps import stamp_text


@dataclass(frozen=True)
class Row:
    """Values of one record after corrections."""
    stamp: int
    interval: int                     # minutes that the record covers
    values: tuple                     # a number or None for each field
    limited: frozenset = frozenset()  # places of fields that a limit made missing


def corrected(settings, stamp, values):
    """The row of a record's values, calibrated and then held to the limits."""
    result, limited = [], set()
    for place, value in enumerate(values):
        if value is not None:
            scale = in_force(settings, "calibration", NAMES[place], stamp)
            limits = in_force(settings, "limits", NAMES[place], stamp)
            value = value * scale.get("num", 1) // scale.get("den", 1) + scale.get("add", 0)
            if not limits.get("least", value) <= value <= limits.get("greatest", value):
                value = None
                limited.add(place)
        result.append(value)
    return Row(stamp, settings.period, tuple(result), frozenset(limited))


def row_line(row):
    """The line of a row."""
    words = [f"row {stamp_text(row.stamp)} {row.interval}"]
    for place, name in enumerate(NAMES):
        if place in row.limited:
            words.append(f"{name}=limit")
        elif row.values[place] is not None:
            words.append(f"{name}={row.values[place]}")
    return " ".join(words)
