"""Which fields of an archive have gone silent, and which show one value all the time."""
from datetime import timedelta
from typing import NamedTuple

DAY = timedelta(days=1)
HOUR = timedelta(hours=1)
WEEK_DAYS = 7  # so many days in a row a field has to have had values, to be missed
NO_TIME = timedelta(0)

# A wind has a direction only while it blows.
DIRECTIONS = ('windDir', 'windGustDir')
WIND = ('windSpeed', 'windGust')


class Silent(NamedTuple):
    """A field without values, and how long its rows are."""
    name: str
    last: object  # the stamp of its last value
    length: timedelta


class Stuck(NamedTuple):
    """A sensor of one value, and how long its rows are."""
    title: str
    text: str
    length: timedelta
    patience: int  # as many times as long as others it may stand still


class Sensor(NamedTuple):
    """A sensor: the fields of which one has to move, and where it may stand still for longer."""
    title: str
    names: tuple
    patience: int = 1
    steady: object = None  # whether these values may stand longer
    steady_patience: int = 1


# Wind may fail for days in a sheltered place, and fog holds the humidity at its top. A heated room changes little.
CALM_PATIENCE, FOG_PATIENCE, ROOM_PATIENCE = 3, 7, 7
FOG = 95  # percent
SENSORS = (
    Sensor('outTemp', ('outTemp',)),
    Sensor('outHumidity', ('outHumidity',), steady=lambda values: values[0] >= FOG, steady_patience=FOG_PATIENCE),
    Sensor('wind', WIND, steady=lambda values: not any(values), steady_patience=CALM_PATIENCE),
    Sensor('barometer', ('barometer',)),
    Sensor('inTemp', ('inTemp',), ROOM_PATIENCE),
    Sensor('inHumidity', ('inHumidity',), ROOM_PATIENCE),
)


def days_with(rows, name, last):
    """On how many of the days up to a stamp a field had values."""
    begin = last - WEEK_DAYS * DAY
    return len({(last - row.stamp) // DAY for row in rows if begin < row.stamp <= last and name in row.values})


def is_calm(rows, since):
    """Whether no wind was blowing behind a stamp."""
    return not any(row.values.get(name) for row in rows if row.stamp > since for name in WIND)


def silent_fields(rows):
    """The fields that had values for a week and have none in the rows since, each with the length of these rows."""
    last_values, length, found = {}, NO_TIME, []
    for row in reversed(rows):
        for name in row.values:
            last_values.setdefault(name, (row.stamp, length))
        length += row.interval
    for name, (last, without) in last_values.items():
        if without and days_with(rows, name, last) == WEEK_DAYS and not (name in DIRECTIONS and is_calm(rows, last)):
            found.append(Silent(name, last, without))
    return found


def standing(rows, names):
    """The last values of these fields, and the length of the rows that have just them, without a row of others between."""
    last, length = None, NO_TIME
    for row in reversed(rows):
        values = tuple(row.values[name] for name in names if name in row.values)
        if len(values) < len(names):
            continue
        last = last or values
        if values != last:
            break
        length += row.interval
    return last, length


def stuck_sensors(rows):
    """The sensors with how long each shows its last values."""
    found = []
    for sensor in SENSORS:
        values, length = standing(rows, sensor.names)
        if values is not None:
            is_steady = sensor.steady is not None and sensor.steady(values)
            patience = sensor.steady_patience if is_steady else sensor.patience
            found.append(Stuck(sensor.title, ' and '.join(map(str, values)), length, patience))
    return found
