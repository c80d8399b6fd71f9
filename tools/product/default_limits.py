"""The limits that setup writes into a station's settings: beyond any weather, and beyond what a sensor can show.

Each is in the unit of the field's rows (docs/FORMATS.md). A value that limits remove is stored nowhere, so a limit has to be wider
than every weather that was ever measured. The model is StdQC of WeeWX, whose limits are narrower. Sources:

    WeeWX   the section StdQC of weewx.conf, version 5
    WMO     the World Weather and Climate Extremes Archive of the World Meteorological Organization, and for rain its manual on
            the estimation of probable maximum precipitation, WMO-No. 1045
    Davis   the specification sheets of the Vantage Pro2 and of its sensors of sun (6450), UV (6490), soil (6440) and leaf (6420),
            and the serial communication reference manual

A record has its place and its year, by which it can be found there. These pages were not open as the numbers were written down.
"""
from typing import NamedTuple


class Limit(NamedTuple):
    """The least and the greatest value of some fields, and why they are these."""
    fields: str
    least: int
    greatest: int
    reason: str


LIMITS = (
    Limit('outTemp highOutTemp lowOutTemp', -1300, 1500,
          'Tenths of a degree F. WMO: -128.6 F (-89.2 degrees C) at Vostok in 1983, 134.1 F (56.7 degrees C) at Furnace Creek,\n'
          'California, in 1913. Davis: the sensor has -40 to 150 F. WeeWX: -40 to 120 F.'),
    Limit('inTemp', -400, 1500, 'Tenths of a degree F. Davis: 32 to 140 F. WeeWX: 10 to 120 F.'),
    Limit('outHumidity inHumidity extraHumid1 extraHumid2', 0, 100,
          'Percent, by definition, as WeeWX has it. If you add to a humidity, raise its greatest value by as much.'),
    Limit('barometer', 16_000, 32_500,
          'Thousandths of an inch of mercury. Davis: the sensor has 16.0 to 32.5 inHg. WMO, at sea level: 25.69 inHg (870 hPa) in\n'
          'the typhoon Tip in 1979, 32.01 (1,083.8 hPa) at Agata, Siberia, in 1968, and 32.17 (1,089.4 hPa), from high ground, at\n'
          'Tosontsengel, Mongolia, in 2004. WeeWX: 26.0 to 32.5 inHg.'),
    Limit('windSpeed windGust', 0, 253,
          'Miles an hour. WMO: the strongest gust had 253 mph (113.3 m/s), at Barrow Island, Australia, in 1996.\n'
          'Davis: 0 to 200 mph. WeeWX: 0 to 120 mph.'),
    Limit('windDir windGustDir', 0, 15, 'Sixteenths of the compass. Davis: the codes are 0 to 15.'),
    Limit('rain', 0, 5_080,
          'Clicks of a record, up to 20 inches by the smallest click. WMO: 19.0 inches (483 mm) fell in 130 minutes at Rockport,\n'
          'West Virginia, in 1889. WeeWX: 10 inches.'),
    Limit('highRainRate', 0, 24_384,
          'Clicks an hour, up to 96 inches an hour by the smallest click. Davis: 0 to 96 inches an hour. WMO: 38 mm fell in a minute\n'
          'at Barot, Guadeloupe, in 1970, which is 90 inches an hour.'),
    Limit('radiation highRadiation', 0, 2_000,
          'Watts per square metre. Davis: 0 to 1,800. The sun above the air has 1,361 (Kopp and Lean, 2011). Beside bright clouds\n'
          '1,832 were measured in the Andes of Ecuador (Emck and Richter, 2008).'),
    Limit('UV highUV', 0, 254,
          'Tenths of the UV index, all that a record can have. Davis: 0 to 16. High mountains have more: 43 on Licancabur, Bolivia,\n'
          'in 2003 (Cabrol and others, 2014).'),
    Limit('ET', 0, 160,
          'Thousandths of an inch. The sun above the air could evaporate 0.16 inches in two hours, at 2.45 MJ a kilogram of water\n'
          '(FAO, Irrigation and Drainage Paper 56).'),
    Limit('windSamples', 0, 3_600, 'One in each two seconds of two hours, the longest period.'),
    Limit('forecastRule', 0, 254, 'A number of the console, all that a record can have.'),
    Limit('extraTemp1 extraTemp2 extraTemp3 soilTemp1 soilTemp2 soilTemp3 soilTemp4 leafTemp1 leafTemp2', -90, 150,
          'Degrees F. A record has no lower value than -90 F. Davis: these sensors end at 150 F.'),
    Limit('leafWet1 leafWet2', 0, 15, 'Davis: 0 is dry, 15 is wet.'),
    Limit('soilMoist1 soilMoist2 soilMoist3 soilMoist4', 0, 200, 'Centibars. Davis: 0 to 200.'),
)

HEAD = """
# Limits. A value beyond them becomes missing when its record is stored, and is kept nowhere. They are wider than any weather that
# was measured, so they remove what a broken sensor shows, for example 199.9 F. Change them as you like: USING has how.
[limits]
"""


def limits_text():
    """The limits as a part of a file of settings."""
    parts = []
    for limit in LIMITS:
        parts += [f'# {line}\n' for line in limit.reason.split('\n')]
        parts += [f'{field} = {{ least = {limit.least}, greatest = {limit.greatest} }}\n' for field in limit.fields.split()]
    return HEAD + ''.join(parts)
