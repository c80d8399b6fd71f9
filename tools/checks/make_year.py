#!/usr/bin/env python3
"""Prints the rows of a made-up year of a garden in the middle of Europe, with probes in soil and leaf and sensors of the sun.

    tools/checks/make_year.py 2024-09-15 >year.rows

The year ends with noon of that day. The weather is made up of smooth curves and a little chance. Some rows are missing, as they
are in a year. The same words come of each run.
"""
import math
import random
import sys
from datetime import datetime, timedelta

PERIOD = timedelta(minutes=5)
DAYS = 365
SHORTEST_DAY = 355  # of a year
GAPS = ((40, 41.2), (200, 200.4))  # in days from the beginning, in which the computer and the console are off
FRONTS = 120  # of low pressure in the year


def wave(number, period, phase=0.0):
    """A smooth curve from -1 to 1 over days."""
    return math.sin(2 * math.pi * (number / period + phase))


def season(moment):
    """The time of the year as a number from -1 in midwinter to 1 in midsummer."""
    return -math.cos(2 * math.pi * (moment.timetuple().tm_yday - SHORTEST_DAY - 20) / 365)


def height_of_sun(moment):
    """The sine of how high the sun stands, at 47 degrees north."""
    tilt = math.radians(-23.44 * math.cos(2 * math.pi * (moment.timetuple().tm_yday + 10) / 365))
    hour = math.radians(15 * (moment.hour + moment.minute / 60 - 12.5))
    north = math.radians(47)
    return math.sin(north) * math.sin(tilt) + math.cos(north) * math.cos(tilt) * math.cos(hour)


def bell(distance, width):
    """A smooth rise to 1 and back."""
    return math.exp(-(distance / width) ** 2)


class Year:
    """A year's weather."""

    def __init__(self, last):
        self.chance = random.Random(last.toordinal())
        self.begin = last - DAYS * timedelta(days=1)
        self.fronts = sorted(self.chance.uniform(0, DAYS) for _ in range(FRONTS))
        self.wet = self.damp_soil = 0.0

    def front(self, number):
        """How near a front of low pressure is, from 0 to 1 or a little more."""
        return sum(bell(number - one, 0.35) for one in self.fronts if abs(number - one) < 1.5)

    def values(self, moment):
        """The values of a row that ends at a moment, counted as a row has them."""
        chance, number = self.chance, (moment - self.begin) / timedelta(days=1)
        front, warm, sun = self.front(number), season(moment), max(0.0, height_of_sun(moment))
        clouds = min(1.0, 0.25 + 0.3 * wave(number, 3.7) + 0.7 * front)
        radiation = 1100 * sun * (1 - 0.75 * max(0.0, clouds)) * chance.uniform(0.9, 1.0)
        air = 50 + 20 * warm + 5 * wave(number, 11, 0.2) + 16 * (sun - 0.3) * (1 - 0.6 * clouds) - 4 * front + chance.gauss(0, 0.2)
        humid = max(22.0, min(99.0, 78 - 1.1 * (air - 50 - 15 * warm) + 18 * front + chance.gauss(0, 1)))
        wind = max(0.0, 2 + 2.5 * sun + 9 * front + 2 * wave(number, 5.3) + chance.gauss(0, 1.2))
        gust = wind * 1.5 + abs(chance.gauss(0, 2)) if wind > 0.5 else 0
        rain = int(front > 0.7 and chance.random() < 0.25 * front) * chance.choice((1, 1, 2, 5))
        self.wet = min(15.0, self.wet + 3 * rain + 0.02 * (humid > 94)) * (0.97 if sun else 0.995)
        self.damp_soil = min(1.0, self.damp_soil + 0.004 * rain) * (1 - 0.0003 * (1 + sun + warm))
        soil = 49 + 17 * season(moment - timedelta(days=20))
        return {
            'outTemp': round(10 * air), 'highOutTemp': round(10 * air + 3 + 2 * chance.random()),
            'lowOutTemp': round(10 * air - 3 - 2 * chance.random()), 'rain': rain, 'highRainRate': rain * chance.choice((12, 24, 48)),
            'barometer': round(30_050 + 220 * wave(number, 9) - 480 * front + chance.gauss(0, 2)), 'radiation': round(radiation),
            'windSamples': 110, 'inTemp': round(680 + 25 * sun + 10 * warm), 'inHumidity': round(42 + 8 * warm),
            'outHumidity': round(humid), 'windSpeed': round(wind), 'windGust': round(gust),
            'windGustDir': round(10 + 3 * wave(number, 2.3) + chance.gauss(0, 0.6)) % 16,
            'windDir': round(10 + 3 * wave(number, 2.3) + chance.gauss(0, 0.6)) % 16, 'UV': round(80 * sun * (1 - 0.6 * clouds)),
            'ET': round(5 * radiation / 800 * chance.uniform(0.3, 1)) if moment.minute == 0 else 0,
            'highRadiation': round(radiation * 1.08), 'highUV': round(84 * sun * (1 - 0.6 * clouds)), 'forecastRule': 45,
            'leafTemp1': round(air + 4 * sun - 1), 'leafWet1': round(self.wet), 'soilTemp1': round(soil + 6 * (sun - 0.3)),
            'soilTemp2': round(soil + 2 * (sun - 0.3)), 'soilMoist1': round(10 + 110 * (1 - self.damp_soil)),
            'soilMoist2': round(20 + 60 * (1 - self.damp_soil)),
        }

    def rows(self):
        """The lines of the year's rows."""
        for number in range(1, DAYS * 288 + 1):
            moment = self.begin + number * PERIOD
            values = self.values(moment)
            if not any(begin < number / 288 <= end for begin, end in GAPS):
                yield f'row {moment:%Y-%m-%d %H:%M} 5 ' + ' '.join(f'{name}={value}' for name, value in values.items())


def main():
    if len(sys.argv) != 2:
        sys.exit(__doc__)
    for line in Year(datetime.fromisoformat(sys.argv[1]) + timedelta(hours=12)).rows():
        print(line)


if __name__ == '__main__':
    main()
