"""The row lines that `report` and `replay` print, as values in the units of the fields (docs/FORMATS.md)."""
import re
from datetime import datetime, timedelta
from functools import cache
from typing import NamedTuple

# What each field is counted in, by its name: the number by which its value is divided, and the unit.
FAHRENHEIT_TENTHS = (10, 'degree_F')
FAHRENHEIT = (1, 'degree_F')
CODES = (1 / 22.5, 'degree_compass')  # sixteen codes go round the compass
PERCENT = (1, 'percent')
MILES = (1, 'mile_per_hour')
WATTS = (1, 'watt_per_meter_squared')
INDEX_TENTHS = (10, 'uv_index')
CENTIBARS = (1, 'centibar')
COUNT = (1, 'count')
CLICKS = (1, 'click')
CLICK_RATE = (1, 'click_per_hour')
FIELDS = {
    'outTemp': FAHRENHEIT_TENTHS, 'highOutTemp': FAHRENHEIT_TENTHS, 'lowOutTemp': FAHRENHEIT_TENTHS,
    'rain': CLICKS, 'highRainRate': CLICK_RATE, 'barometer': (1000, 'inHg'), 'radiation': WATTS, 'windSamples': COUNT,
    'inTemp': FAHRENHEIT_TENTHS, 'inHumidity': PERCENT, 'outHumidity': PERCENT, 'windSpeed': MILES, 'windGust': MILES,
    'windGustDir': CODES, 'windDir': CODES, 'UV': INDEX_TENTHS, 'ET': (1000, 'inch'), 'highRadiation': WATTS,
    'highUV': INDEX_TENTHS, 'forecastRule': COUNT, 'leafTemp1': FAHRENHEIT, 'leafTemp2': FAHRENHEIT,
    'leafWet1': COUNT, 'leafWet2': COUNT, 'soilTemp1': FAHRENHEIT, 'soilTemp2': FAHRENHEIT, 'soilTemp3': FAHRENHEIT,
    'soilTemp4': FAHRENHEIT, 'extraHumid1': PERCENT, 'extraHumid2': PERCENT, 'extraTemp1': FAHRENHEIT,
    'extraTemp2': FAHRENHEIT, 'extraTemp3': FAHRENHEIT, 'soilMoist1': CENTIBARS, 'soilMoist2': CENTIBARS,
    'soilMoist3': CENTIBARS, 'soilMoist4': CENTIBARS,
}

# How many clicks of the rain bucket an inch is, by the size of the bucket. The clicks of each go into EVEN parts of an inch.
BUCKETS = {'0.01in': 100, '0.2mm': 127, '0.1mm': 254}
DEFAULT_BUCKET = '0.01in'
EVEN = 'even'
PARTS_OF_INCH = BUCKETS | {EVEN: 12_700}
MINUTE = timedelta(minutes=1)

# Lines of a replay or a report that are no rows.
OTHER_WORDS = {'open', 'round', 'unseen', 'day', 'month', 'end'}
ROW = re.compile(r'row (\d{4}-\d\d-\d\d \d\d:\d\d) (\d+)((?: \w+=(?:-?\d+|limit))*)')


class Row(NamedTuple):
    """A row: when it ends, how long it is, and the values that it has."""
    stamp: datetime
    interval: timedelta
    values: dict


class Buckets(NamedTuple):
    """What a click of the rain bucket is, day by day."""
    first: str = DEFAULT_BUCKET
    changes: tuple = ()  # pairs of a day and the bucket from its beginning on, in order

    def on(self, day):
        """The bucket of a day."""
        return next((bucket for begin, bucket in reversed(self.changes) if begin <= day), self.first)


class NotRows(Exception):
    """What was read are no rows; says what is there in their place."""


def unit_of(name):
    """The unit of a field's values, rain being inches once its clicks are."""
    return {'click': 'inch', 'click_per_hour': 'inch_per_hour'}.get(FIELDS[name][1], FIELDS[name][1])


def is_rain(name):
    """Whether a field is counted in clicks of the rain bucket."""
    return FIELDS[name][1].startswith('click')


@cache
def counts_of(bucket):
    """How many counts of a row line the unit of each field is."""
    return {name: PARTS_OF_INCH[bucket] if is_rain(name) else counts for name, (counts, _) in FIELDS.items()}


def value_of(name, number, bucket):
    """The value of a field that a row line counts so, in the field's unit."""
    return number / counts_of(bucket)[name]


def day_of(stamp):
    """The day of a row: that of midnight is of the day before."""
    return (stamp - MINUTE).date()


def counted_row(line):
    """The row of a row line, its values counted as they are there; values that limits took away are missing."""
    match = ROW.fullmatch(line)
    if not match:
        raise NotRows(f'this is no row line: {line[:80]}')
    pairs = [pair.split('=') for pair in match[3].split()]
    for name, _ in pairs:
        if name not in FIELDS:
            raise NotRows(f"there is no field '{name}'")
    try:
        numbers = {name: int(number) for name, number in pairs if number != 'limit'}
        return Row(datetime.fromisoformat(match[1]), timedelta(minutes=int(match[2])), numbers)
    except ValueError as fault:
        raise NotRows(f'{fault}: {line[:80]}') from None


def row_of(line, buckets):
    """The row of a row line, its values in the units of their fields."""
    row = counted_row(line)
    counts = counts_of(buckets.on(day_of(row.stamp)))
    return Row(row.stamp, row.interval, {name: number / counts[name] for name, number in row.values.items()})


def whole(line):
    """A line without its line feed. One that has none is the rest of a line, whose last digits may be gone."""
    if not line.endswith('\n'):
        raise NotRows(f'the report is cut: its last line has no line feed: {line[:80]}')
    return line.removesuffix('\n')


def read_rows(lines, buckets):
    """The rows of what `report .. rows` or `replay` printed, each line with its line feed."""
    return rows_of_lines(map(whole, lines), buckets)


def rows_of_lines(lines, buckets):
    """The rows of whole lines, in order. Any other line is what the program ended with. Of two rows of one stamp, as two
    archives of a station have them, the later line is taken."""
    rows = {}
    for line in lines:
        if line.startswith('row '):
            row = row_of(line, buckets)
            rows[row.stamp] = row
        elif line.split(' ')[0] not in OTHER_WORDS:
            raise NotRows(f'the program said: {line[:80]}')
    if not rows:
        raise NotRows('there is no row')
    return [rows[stamp] for stamp in sorted(rows)]
