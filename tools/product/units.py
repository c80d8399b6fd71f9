"""The units in which values are shown: as the fields have them, or metric ones."""
import rows as row_lines
from page_texts import ENGLISH, Texts

# How the values of a unit are shown: with its sign, or by another unit with `--metric`.
AS_IT_IS = {
    'degree_F': ('°F', lambda value: value),
    'percent': ('%', lambda value: value),
    'inHg': ('inHg', lambda value: value),
    'mile_per_hour': ('mph', lambda value: value),
    'inch': ('in', lambda value: value),
    'watt_per_meter_squared': ('W/m²', lambda value: value),
    'uv_index': ('', lambda value: value),
    'inch_per_hour': ('in/h', lambda value: value),
    'centibar': ('cb', lambda value: value),
    'count': ('0–15', lambda value: value),  # of leaf wetness
}
METRIC = AS_IT_IS | {
    'degree_F': ('°C', lambda value: (value - 32) / 1.8),
    'inHg': ('hPa', lambda value: value * 33.86389),
    'mile_per_hour': ('m/s', lambda value: value * 0.44704),
    'inch': ('mm', lambda value: value * 25.4),
    'inch_per_hour': ('mm/h', lambda value: value * 25.4),
}
DIGITS = {'°F': 1, '°C': 1, '%': 0, 'inHg': 3, 'hPa': 1, 'mph': 0, 'm/s': 1, 'in': 2, 'mm': 1, 'in/h': 2, 'mm/h': 1,
          'W/m²': 0, '': 1, 'cb': 0, '0–15': 0}
MISSING = '–'
MINUS = '−'
CODES = 16
DEGREES_A_CODE = 360 / CODES
BASE_FAHRENHEIT = 65  # of degree days


class Units:
    """The units and the language of an observer's choice, and what a click of the rain bucket is."""

    def __init__(self, metric, buckets, language=ENGLISH):
        self.shown = METRIC if metric else AS_IT_IS
        self.texts = Texts(language)
        self.buckets = buckets
        self.counted_in = row_lines.EVEN if buckets.changes else buckets.first  # the rain of summaries, as even_rain has it

    def sign(self, name):
        """The sign of the unit of a field."""
        return self.shown[row_lines.unit_of(name)][0]

    def value(self, name, number):
        """A field's value, counted as in summaries, in the field's unit."""
        return row_lines.value_of(name, number, self.counted_in)

    def text(self, name, value):
        """The digits of a value that is in the field's unit, or a dash if there is none."""
        if value is None:
            return MISSING
        sign, convert = self.shown[row_lines.unit_of(name)]
        return self.texts.digits(f'{convert(value):z.{DIGITS[sign]}f}').replace('-', MINUS)

    def number(self, name, value):
        """A value that is in the field's unit, as a number in the unit that is shown, as exact as it is shown."""
        sign, convert = self.shown[row_lines.unit_of(name)]
        return round(convert(value), DIGITS[sign]) + 0.0

    def direction(self, degrees):
        """The name of a direction, which the console has as one of sixteen."""
        return self.texts.compass[round(degrees / DEGREES_A_CODE) % CODES]

    def counted(self, name, number):
        """The digits of a value that is counted as in summaries."""
        return self.text(name, None if number is None else self.value(name, number))

    def change(self, name, value, before):
        """The digits of what was added to a value, with their sign."""
        if value is None or before is None:
            return MISSING
        sign, convert = self.shown[row_lines.unit_of(name)]
        return self.texts.digits(f'{convert(value) - convert(before):+z.{DIGITS[sign]}f}').replace('-', MINUS)

    def with_sign(self, name, value):
        """A value and the sign of its unit."""
        return f'{self.text(name, value)} {self.sign(name)}'.rstrip()

    def degree_days(self, fahrenheit):
        """The digits of degree days, which are counted in degrees Fahrenheit."""
        sign, convert = self.shown['degree_F']
        return self.texts.digits(f'{convert(fahrenheit) - convert(0):.{DIGITS[sign]}f}')

    def base(self):
        """The temperature from which degree days are counted."""
        return self.with_sign('outTemp', BASE_FAHRENHEIT)
