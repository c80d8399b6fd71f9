#!/usr/bin/env python3
"""Writes the schedule of a stormy week: what a console records, and the rounds that catch up with it.

    tools/checks/make_week.py >examples/week.schedule

The computer is off for nine days while a gale with a cold front passes, and a lesser one two days later.
The weather is made up of smooth curves and a little noise. The same words come of each run.
"""
import math
import random
from datetime import datetime, timedelta

PERIOD = timedelta(minutes=5)
RUN = 3  # records that have one line together
FIRST = datetime(2024, 10, 11, 20, 20)
POWERED = datetime(2024, 10, 20, 22, 0)  # the computer is on again
UNHEARD = (datetime(2024, 10, 17, 9, 0), datetime(2024, 10, 17, 13, 0))  # no temperature, no humidity
BATTERIES = (datetime(2024, 10, 18, 20, 0), datetime(2024, 10, 18, 23, 0))  # the console is off
SPIKE = datetime(2024, 10, 15, 12, 5)  # a temperature that no air has
GALE = datetime(2024, 10, 17, 6, 0)  # the front of the first gale, and then of the second
SECOND_GALE = datetime(2024, 10, 19, 10, 0)
DEGREES_A_CODE = 22.5


def hours(moment, since):
    """The hours from one moment to another."""
    return (moment - since) / timedelta(hours=1)


def bell(moment, centre, width):
    """A smooth rise to 1 at the centre and back, so many hours wide."""
    return math.exp(-(hours(moment, centre) / width) ** 2)


def passed(moment, centre):
    """How far a front has passed, from 0 to 1."""
    return 1 / (1 + math.exp(-hours(moment, centre) / 1.2))


def warmth(moment, peak):
    """The time of day as a number from -1 to 1, which is 1 at this hour."""
    return math.cos(2 * math.pi * (moment.hour + moment.minute / 60 - peak) / 24)


def clicks(moment, noise):
    """The clicks of the rain bucket in five minutes: the warm front's rain, the cold front's, and showers behind."""
    warm_front = 1.6 * bell(moment, GALE - timedelta(hours=9), 5)
    cold_front = 9 * bell(moment, GALE + timedelta(hours=1), 1.1)
    showers = 4 * bell(moment, GALE + timedelta(hours=14), 9) * (noise > 0.8)
    second = 4 * bell(moment, SECOND_GALE, 2.5)
    return int(warm_front + cold_front + showers + second + 0.4 * noise)


def weather(moment, chance):
    """The values of a record that ends at a moment, by their names."""
    noise = chance.random()
    gale, second = bell(moment, GALE, 20), bell(moment, SECOND_GALE, 10)
    calm = max(0.0, 1 - gale - 0.6 * second)
    behind = passed(moment, GALE) * math.exp(-max(0.0, hours(moment, GALE)) / 60)
    slow = math.sin(hours(moment, FIRST) / 13)
    temperature = 545 + 18 * slow + 85 * calm * warmth(moment, 15) + 60 * gale - 130 * behind - 40 * second + 4 * noise
    wind = 3 + 3 * calm * (1 + warmth(moment, 14)) + 27 * bell(moment, GALE, 13) + 14 * second + 4 * noise
    direction = 150 + 135 * passed(moment, GALE) - 60 * passed(moment, SECOND_GALE - timedelta(hours=12)) + 25 * noise
    rain = clicks(moment, noise)
    humidity = 66 - 20 * calm * warmth(moment, 15) + 22 * gale + 15 * second - 14 * behind - 4 * slow + 2 * noise
    return {
        'outTemp': round(temperature),
        'highOutTemp': round(temperature + 3 + 9 * noise),
        'lowOutTemp': round(temperature - 3 - 9 * chance.random()),
        'rain': rain,
        'highRainRate': 14 * rain,
        'barometer': round(30180 + 30 * warmth(moment, 10) + 70 * slow - 1150 * gale - 330 * second + 3 * noise),
        'windSamples': 112 + int(5 * noise),
        'outHumidity': min(98, round(humidity)),
        'windSpeed': round(wind),
        'windGust': round(wind * 1.45 + 5 * chance.random()),
        'windDir': round(direction / DEGREES_A_CODE) % 16,
    }


def measured(first, chance):
    """What the line of the records from a stamp on says of their values."""
    values = weather(first, chance)
    if UNHEARD[0] < first <= UNHEARD[1]:
        values = {name: value for name, value in values.items() if 'Temp' not in name and name != 'outHumidity'}
    if first == SPIKE:
        values |= {'outTemp': 1999, 'highOutTemp': 1999}
    return ' '.join(f'{name}={value}' for name, value in values.items())


def records(first, last, chance):
    """Prints the lines of the records from a stamp to another."""
    while first <= last:
        if not BATTERIES[0] < first <= BATTERIES[1]:
            count = min(RUN, (last - first) // PERIOD + 1)
            print(f'run {first:%Y-%m-%d %H:%M} {count} {measured(first, chance)}')
        first += RUN * PERIOD


def half_hour(last, chance):
    """Prints the lines of the records of the half hour that ends at a stamp."""
    records(last - timedelta(minutes=25), last, chance)


def main():
    chance = random.Random(2024)
    print('# A stormy week, while the computer is off. Of 2,577 records the console keeps the last 2,560.')
    records(FIRST, POWERED, chance)
    print('# The computer is on again. The disk stops within change 1,199, which opens the gate of the 300th batch.')
    print('round\nstop 1199 0')
    print('# It begins again. Pages are lost, cut, changed and late on a bad line, and are asked for again.')
    print('round\nreply 10 lost\nreply 40 cut 100\nreply 75 flip 30 01\nreply 90 late 2 120')
    half_hour(POWERED + timedelta(minutes=30), chance)
    print('# Nothing comes of what the console answers to nine calls, and the round is given up.')
    print('round')
    for reply in range(1, 10):
        print(f'reply {reply} lost')
    half_hour(POWERED + timedelta(minutes=60), chance)
    print('# A record falls due while the pages are on their way.')
    mid = POWERED + timedelta(minutes=65)
    print(f'round\nmid 4 {mid:%Y-%m-%d %H:%M} {measured(mid, chance)}')
    print('# A quiet hour to midnight.')
    records(mid + PERIOD, POWERED + timedelta(minutes=120), chance)
    print('round')


if __name__ == '__main__':
    main()
