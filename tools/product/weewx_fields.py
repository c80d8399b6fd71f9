"""What the fields of a row are in WeeWX's table `archive`: their columns, and how a count and a value become one another.

Units by WeeWX's `usUnits` (its User's Guide, "Units"): 1 has inHg, degrees Fahrenheit, mph and inches; 16 has mbar, degrees
Celsius, km/h and cm; 17 has mbar, degrees Celsius, m/s and mm. The ranges are those of an archive record (docs/FORMATS.md).
All is worked out in fractions, so a value that came of a count becomes that count again.
"""
import math
from fractions import Fraction
from typing import NamedTuple

import rows as row_lines

US, METRIC, METRICWX = 1, 16, 17
SYSTEMS = (US, METRIC, METRICWX)
HALF = Fraction(1, 2)
UNSURE = 1e-6  # as near a half as this, a floating-point number does not decide
SURE_BELOW = 1e6  # up to here its error is far less
DIRECTIONS = 16
DEGREES_A_CODE = Fraction(45, 2)
FULL_CIRCLE = 360


def is_number(value):
    """Whether a value of a database is a finite number."""
    return isinstance(value, (int, float)) and math.isfinite(value)


def exact(value):
    """A number of a database as the fraction of its shortest decimals."""
    return Fraction(repr(value))


def nearest(number):
    """The nearest whole number, and of two the greater."""
    return math.floor(number + HALF)


class Step:
    """How a value of one unit becomes one of another: times a factor, and then plus an offset."""

    def __init__(self, factor, offset=0):
        self.factor, self.offset = Fraction(factor), Fraction(offset)
        self.near_factor, self.near_offset = float(self.factor), float(self.offset)

    def then(self, counts):
        """The step that goes on to a count, of which the other unit has so many."""
        return Step(self.factor * counts, self.offset * counts)

    def there(self, value):
        """The value in the other unit."""
        return self.factor * value + self.offset

    def back(self, value):
        """The value in the first unit."""
        return (value - self.offset) / self.factor

    def count(self, value):
        """The whole number that is nearest to a value in the other unit, and of two the greater."""
        guess = value * self.near_factor + self.near_offset
        if abs(guess) < SURE_BELOW and abs(guess % 1 - 0.5) > UNSURE:
            return math.floor(guess + 0.5)
        return nearest(self.there(exact(value)))


SAME = Step(1)
FROM_CELSIUS = Step(Fraction(9, 5), 32)
FROM_MBAR = Step(1 / Fraction('33.86389'))
FROM_KM_PER_HOUR, FROM_METRES_PER_SECOND = Step(1 / Fraction('1.609344')), Step(1 / Fraction('0.44704'))
FROM_CM, FROM_MM = Step(1 / Fraction('2.54')), Step(1 / Fraction('25.4'))
TO_UNITS_OF_FIELDS = {
    US: {},
    METRIC: {'degree_F': FROM_CELSIUS, 'inHg': FROM_MBAR, 'mile_per_hour': FROM_KM_PER_HOUR, 'inch': FROM_CM,
             'inch_per_hour': FROM_CM},
    METRICWX: {'degree_F': FROM_CELSIUS, 'inHg': FROM_MBAR, 'mile_per_hour': FROM_METRES_PER_SECOND, 'inch': FROM_MM,
               'inch_per_hour': FROM_MM},
}


class Range(NamedTuple):
    """The counts that a field can have: from the least to the greatest, but for the mark of a value that is missing."""
    least: int
    greatest: int
    mark: int | None = None

    def has(self, count):
        """Whether a field can have this count."""
        return self.least <= count <= self.greatest and count != self.mark


SIGNED_WORD, WORD, FULL_BYTE = Range(-32_768, 32_767, 32_767), Range(0, 65_535), Range(0, 255)
BYTE, DEGREES, CODE = Range(0, 255, 255), Range(-90, 165, 165), Range(0, DIRECTIONS - 1)
PRESSURE, SUN = Range(0, 65_535, 0), Range(0, 65_535, 32_767)
RANGES = {
    'outTemp': SIGNED_WORD, 'rain': WORD, 'highRainRate': WORD, 'barometer': PRESSURE, 'radiation': SUN, 'inTemp': SIGNED_WORD,
    'inHumidity': BYTE, 'outHumidity': BYTE, 'windSpeed': BYTE, 'windGust': FULL_BYTE, 'windGustDir': CODE, 'windDir': CODE,
    'UV': BYTE, 'ET': FULL_BYTE, 'leafTemp1': DEGREES, 'leafTemp2': DEGREES, 'leafWet1': BYTE, 'leafWet2': BYTE,
    'soilTemp1': DEGREES, 'soilTemp2': DEGREES, 'soilTemp3': DEGREES, 'soilTemp4': DEGREES, 'extraHumid1': BYTE,
    'extraHumid2': BYTE, 'extraTemp1': DEGREES, 'extraTemp2': DEGREES, 'extraTemp3': DEGREES, 'soilMoist1': BYTE,
    'soilMoist2': BYTE, 'soilMoist3': BYTE, 'soilMoist4': BYTE,
}
OTHER_COLUMNS = {'highRainRate': 'rainRate'}
COLUMNS = {name: OTHER_COLUMNS.get(name, name) for name in RANGES}  # by the fields' numbers
ADDED_UP = {'rain', 'ET'}  # what fell or rose within the row, whose days are summed


def to_counts(name, system, bucket):
    """How a value of a field's column becomes a count, which is not rounded yet."""
    unit = row_lines.unit_of(name)
    counts = row_lines.BUCKETS[bucket] if row_lines.is_rain(name) else row_lines.FIELDS[name][0]
    if unit == 'degree_compass':
        counts = 1 / DEGREES_A_CODE
    return TO_UNITS_OF_FIELDS[system].get(unit, SAME).then(counts)


def count_of(name, step, value):
    """The count of a column's value; None if the field cannot hold it."""
    if not is_number(value):
        return None
    count = step.count(value)
    if RANGES[name] is CODE and count == DIRECTIONS and value <= FULL_CIRCLE:
        count = 0  # a full circle
    return count if RANGES[name].has(count) else None


def value_of(step, count):
    """The value of a count, as a number of a database."""
    return float(step.back(Fraction(count)))
