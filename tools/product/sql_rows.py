"""Rows of many stations, and how they are brought into the tables of PostgreSQL: those of a group in one transaction."""
import io
from typing import NamedTuple
from zoneinfo import ZoneInfo

from rows import MINUTE
from sql_tables import INCOMING, NAMES, make_tables

MOST_ROWS = 10_000  # in a group, but for those of its last station: so many are in memory
NULL = '\\N'
COLUMNS = ', '.join(['minutes', *NAMES])
NEW_COLUMNS = ', '.join(f'excluded.{name}' for name in ['minutes', *NAMES])
OLD_COLUMNS = ', '.join(f'old.{name}' for name in ['minutes', *NAMES])
COPY = f'COPY incoming (station, time, {COLUMNS}) FROM STDIN'
# Of two runs at once each takes the names in order, and then the numbers, so that one waits for the other and never both. A name
# that is there takes no number.
NAME_STATIONS = """\
INSERT INTO station (name, zone) SELECT name, zone FROM unnest(%s, %s) AS given (name, zone)
WHERE NOT EXISTS (SELECT FROM station WHERE station.name = given.name) ORDER BY name ON CONFLICT (name) DO NOTHING"""
LOCK_STATIONS = 'SELECT name, number, zone FROM station WHERE name = ANY (%s) ORDER BY number FOR UPDATE'
COUNT_OLD = 'SELECT station, count(*) FROM incoming JOIN weather USING (station, time) GROUP BY station'
# A row that is there with the same values is not written again, so the log of the database and its triggers stay quiet.
MERGE = f"""\
WITH written AS (
    INSERT INTO weather AS old (station, time, {COLUMNS}) SELECT station, time, {COLUMNS} FROM incoming
    ON CONFLICT (station, time) DO UPDATE SET ({COLUMNS}) = ROW ({NEW_COLUMNS})
    WHERE ({OLD_COLUMNS}) IS DISTINCT FROM ({NEW_COLUMNS})
    RETURNING old.station)
SELECT station, count(*) FROM written GROUP BY station"""


class StationRows(NamedTuple):
    """The rows of a station by their times, and how many were left out."""
    name: str
    zone: ZoneInfo
    timed: dict
    left_out: int


class Written(NamedTuple):
    """What was written of a station: how many rows were new, and how many had other values. Or, in place of it, its trouble."""
    station: StationRows
    added: int = 0
    changed: int = 0
    trouble: str | None = None


def line_of(number, time, row):
    """A row as a line of COPY."""
    values = (row.values.get(name) for name in NAMES)
    cells = [number, time.isoformat(), row.interval // MINUTE, *(NULL if value is None else value for value in values)]
    return '\t'.join(map(str, cells)) + '\n'


def known_stations(cursor, stations):
    """The number and the zone of each of these stations by its name. They are locked until the end of the transaction."""
    names = [station.name for station in stations]
    cursor.execute(NAME_STATIONS, [names, [station.zone.key for station in stations]])
    cursor.execute(LOCK_STATIONS, [names])
    return {name: (number, zone) for name, number, zone in cursor.fetchall()}


def counts_of(cursor, question):
    """A count for each station that has one, by its number."""
    cursor.execute(question)
    return dict(cursor.fetchall())


def merge(cursor, stations):
    """Writes the rows of some stations that differ; gives what was written of each. A station with another zone has a trouble."""
    known = known_stations(cursor, stations)
    good = [station for station in stations if known[station.name][1] == station.zone.key]
    lines = (line_of(known[station.name][0], time, row) for station in good for time, row in station.timed.items())
    cursor.execute(INCOMING)
    cursor.copy_expert(COPY, io.StringIO(''.join(lines)))
    old, written = counts_of(cursor, COUNT_OLD), counts_of(cursor, MERGE)

    def written_of(station):
        number, zone = known[station.name]
        if zone != station.zone.key:
            return Written(station, trouble=f'its zone is {zone} in this database: the rows would be there twice')
        added = len(station.timed) - old.get(number, 0)
        return Written(station, added, written.get(number, 0) - added)

    return list(map(written_of, stations))


class Group:
    """Stations whose rows are written together. They are written once they have enough rows, or a station comes again."""

    def __init__(self, link, tell):
        self.link, self.tell = link, tell
        self.stations = {}

    def take(self, station):
        """Takes the rows of a station."""
        if station.name in self.stations:
            self.write()
        self.stations[station.name] = station
        if sum(len(one.timed) for one in self.stations.values()) >= MOST_ROWS:
            self.write()

    def write(self):
        """Writes the rows in one transaction, and tells what was written of each station."""
        stations, self.stations = list(self.stations.values()), {}
        if not stations:
            return
        make_tables(self.link, sorted({time.year for station in stations for time in station.timed}))
        with self.link, self.link.cursor() as cursor:
            written = merge(cursor, stations)
        for one in written:
            self.tell(one)
