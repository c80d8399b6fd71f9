"""What each field of a row has to become in other units, worked out by hand, for the checks of the tools that show rows.

The count is that of a row line, by the units in docs/FORMATS.md. The numbers behind it were worked out from the units and not
by a tool: (F - 32) / 1.8 is C, an inch is 25.4 mm, an inch of mercury 33.86389 hPa, and a mile per hour 0.44704 m/s. A code of
a direction is 22.5 degrees, from north by east. Sizes of buckets are their own numbers: seven clicks of 0.2 mm are 1.4 mm.
"""
from typing import NamedTuple

from trying import Differs

NEAR = 1e-5  # the part of a number by which it may be missed: PostgreSQL keeps six digits of it
LEAST = 1e-7
DEGREES, HUMIDITY, SPEED = ('degree_F', 'degree_C'), ('percent', 'percent'), ('mile_per_hour', 'meter_per_second')
COMPASS, SUN, INDEX = (('degree_compass',) * 2), (('watt_per_meter_squared',) * 2), ('uv_index', 'uv_index')
WETNESS, MOISTURE, HEIGHT = ('count', 'count'), ('centibar', 'centibar'), ('inch', 'mm')


class Worked(NamedTuple):
    """What a field has to become: its units, its name in WeeWX's map, and its values."""
    units: tuple   # that of the field, and the metric one
    weewx: str     # empty if WeeWX's database has no place for it
    above: tuple   # a count above zero, and what it is in either unit
    zero: float    # what a count of 0 is in the metric unit
    below: tuple   # a count below zero, and what it is in either unit, if a console can have it


def degrees(weewx, above, below):
    """A temperature. Zero degrees Fahrenheit are -17.77778 degrees Celsius."""
    return Worked(DEGREES, weewx, above, -17.77778, below)


def other(units, weewx, *above):
    """A field that is never below zero."""
    return Worked(units, weewx, above, 0, ())


def fields_of_bucket(rain, rate):
    """All fields, with the rain and its rate as a bucket has them, in either unit."""
    return {
        'outTemp': degrees('outTemp', (651, 65.1, 18.38889), (-48, -4.8, -20.44444)),
        'highOutTemp': degrees('', (655, 65.5, 18.61111), (-40, -4.0, -20.0)),
        'lowOutTemp': degrees('', (644, 64.4, 18.0), (-58, -5.8, -21.0)),
        'rain': other(HEIGHT, 'rain', 7, *rain),
        'highRainRate': other(('inch_per_hour', 'mm_per_hour'), 'rainRate', 30, *rate),
        'barometer': other(('inHg', 'hPa'), 'barometer', 29921, 29.921, 1013.24145),
        'radiation': other(SUN, 'radiation', 871, 871, 871),
        'windSamples': other(WETNESS, '', 112, 112, 112),
        'inTemp': degrees('inTemp', (702, 70.2, 21.22222), (-36, -3.6, -19.77778)),
        'inHumidity': other(HUMIDITY, 'inHumidity', 41, 41, 41),
        'outHumidity': other(HUMIDITY, 'outHumidity', 48, 48, 48),
        'windSpeed': other(SPEED, 'windSpeed', 11, 11, 4.91744),
        'windGust': other(SPEED, 'windGust', 23, 23, 10.28192),
        'windGustDir': other(COMPASS, 'windGustDir', 5, 112.5, 112.5),
        'windDir': other(COMPASS, 'windDir', 14, 315, 315),
        'UV': other(INDEX, 'UV', 73, 7.3, 7.3),
        'ET': other(HEIGHT, 'ET', 19, 0.019, 0.4826),
        'highRadiation': other(SUN, '', 903, 903, 903),
        'highUV': other(INDEX, '', 81, 8.1, 8.1),
        'forecastRule': other(WETNESS, '', 45, 45, 45),
        'leafTemp1': degrees('leafTemp1', (61, 61, 16.11111), (-13, -13, -25.0)),
        'leafTemp2': degrees('leafTemp2', (59, 59, 15.0), (-22, -22, -30.0)),
        'leafWet1': other(WETNESS, 'leafWet1', 12, 12, 12),
        'leafWet2': other(WETNESS, 'leafWet2', 15, 15, 15),
        'soilTemp1': degrees('soilTemp1', (50, 50, 10.0), (-40, -40, -40.0)),
        'soilTemp2': degrees('soilTemp2', (54, 54, 12.22222), (-4, -4, -20.0)),
        'soilTemp3': degrees('soilTemp3', (57, 57, 13.88889), (-1, -1, -18.33333)),
        'soilTemp4': degrees('soilTemp4', (52, 52, 11.11111), (-7, -7, -21.66667)),
        'extraHumid1': other(HUMIDITY, 'extraHumid1', 63, 63, 63),
        'extraHumid2': other(HUMIDITY, 'extraHumid2', 64, 64, 64),
        'extraTemp1': degrees('extraTemp1', (68, 68, 20.0), (-10, -10, -23.33333)),
        'extraTemp2': degrees('extraTemp2', (77, 77, 25.0), (-9, -9, -22.77778)),
        'extraTemp3': degrees('extraTemp3', (86, 86, 30.0), (-90, -90, -67.77778)),
        'soilMoist1': other(MOISTURE, 'soilMoist1', 31, 31, 31),
        'soilMoist2': other(MOISTURE, 'soilMoist2', 32, 32, 32),
        'soilMoist3': other(MOISTURE, 'soilMoist3', 33, 33, 33),
        'soilMoist4': other(MOISTURE, 'soilMoist4', 200, 200, 200),
    }


# Seven clicks, and thirty in an hour, of each bucket.
FIELDS = {
    '0.01in': fields_of_bucket(rain=(0.07, 1.778), rate=(0.3, 7.62)),
    '0.2mm': fields_of_bucket(rain=(0.05511811, 1.4), rate=(0.2362205, 6)),
    '0.1mm': fields_of_bucket(rain=(0.02755906, 0.7), rate=(0.1181102, 3)),
}
NAMES = list(FIELDS['0.01in'])
STAMPS, MINUTES = ('2024-02-03 04:05', '2024-02-03 04:15', '2024-02-03 04:45'), (5, 10, 30)
COUNTS = (
    {name: worked.above[0] for name, worked in FIELDS['0.01in'].items()},
    dict.fromkeys(NAMES, 0),
    {name: worked.below[0] for name, worked in FIELDS['0.01in'].items() if worked.below},
)
LINES = [f'row {stamp} {minutes} ' + ' '.join(f'{name}={count}' for name, count in counts.items()) + '\n'
         for stamp, minutes, counts in zip(STAMPS, MINUTES, COUNTS)]


def values(bucket):
    """The values of the three rows by field, in the units of the fields."""
    return {name: (worked.above[1], 0, worked.below[1] if worked.below else None) for name, worked in FIELDS[bucket].items()}


def metric_values(bucket):
    """The values of the three rows by field, in metric units."""
    return {name: (worked.above[2], worked.zero, worked.below[2] if worked.below else None)
            for name, worked in FIELDS[bucket].items()}


def is_near(seen, wanted):
    """Whether a value is the one that is wanted, or neither is there."""
    if seen is None or wanted is None:
        return seen is wanted
    return abs(seen - wanted) <= NEAR * abs(wanted) + LEAST


def hold_values(what, seen, wanted):
    """Holds the values of the rows, by field, against those that are wanted."""
    for name in wanted:
        if len(seen[name]) != len(wanted[name]) or not all(map(is_near, seen[name], wanted[name])):
            raise Differs(f'{what}: {name} is {seen[name]}, in place of {wanted[name]}')
