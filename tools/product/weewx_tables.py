"""Writes rows into a database as WeeWX has it: a new one, or one that is there, which gets what is later than its last row."""
import os
import sqlite3
from collections import Counter
from contextlib import closing
from datetime import datetime, timedelta, timezone
from pathlib import Path
from tempfile import TemporaryDirectory
from typing import NamedTuple

import rows as row_lines
import weewx_fields as fields
import weewx_schema as schema
from reports import FIRST_DAY
from weewx_rows import MINUTE_SECONDS, MOST_KEPT, NotTaken, quoted

WAIT_SECONDS = 10  # for another process that is writing
DAY = timedelta(days=1)


class Values(dict):
    """The values of a field's counts, each worked out once."""

    def __init__(self, step):
        super().__init__()
        self.step = step

    def __missing__(self, count):
        if len(self) >= MOST_KEPT:
            self.clear()
        self[count] = fields.value_of(self.step, count)
        return self[count]


class Station(NamedTuple):
    """What is known of a station: the zone of its clock, its rain bucket, and what gives its rows from a day on."""
    zone: object
    buckets: row_lines.Buckets
    rows_from: object


class Entries:
    """The entries that rows become in a database: it counts them, and names what has no place there."""

    def __init__(self, columns, system, station, tell):
        self.names = [name for name, column in fields.COLUMNS.items() if column in columns]
        self.system, self.station, self.tell = system, station, tell
        self.made = {}
        self.count = self.left_out = self.doubled = 0
        self.without_place = Counter()

    def values_of(self, bucket):
        """What gives the values of each field's counts."""
        if bucket not in self.made:
            self.made[bucket] = {name: Values(fields.to_counts(name, self.system, bucket)) for name in self.names}
        return self.made[bucket]

    def moment(self, stamp, last):
        """The moment of a stamp, of two the first one; None if it is not later than a last one, or no clock of the zone shows it."""
        first = stamp.replace(tzinfo=self.station.zone)
        moment = int(first.astimezone(timezone.utc).timestamp())
        if moment <= last:
            return None
        ahead, behind = first.utcoffset(), first.replace(fold=1).utcoffset()
        if ahead < behind:
            self.left_out += 1
            self.tell(f'left out: {stamp:%Y-%m-%d %H:%M} does not come in {self.station.zone.key}')
            return None
        self.doubled += ahead > behind
        return moment

    def entry(self, moment, row):
        """The keys and the values of a row."""
        values = self.values_of(self.station.buckets.on(row_lines.day_of(row.stamp)))
        found = {name: values[name][count] for name, count in row.values.items() if name in values}
        self.without_place.update(row.values.keys() - found.keys())
        self.count += 1
        minutes = int(row.interval.total_seconds()) // MINUTE_SECONDS
        return (moment, self.system, minutes, *map(found.get, self.names))

    def insert(self, link, first_day, last):
        """Writes the rows that are later than a moment into the table."""
        names = [*schema.KEY_NAMES, *(fields.COLUMNS[name] for name in self.names)]
        timed = ((self.moment(row.stamp, last), row) for row in self.station.rows_from(first_day))
        entries = (self.entry(moment, row) for moment, row in timed if moment is not None)
        link.executemany(f'INSERT INTO {schema.TABLE} ({quoted(names)}) VALUES ({", ".join("?" * len(names))})', entries)


def make(name, station, tell):
    """Makes a database of a station's rows. It has its name once it is whole."""
    entries = Entries(schema.WVIEW_EXTENDED, fields.US, station, tell)
    with TemporaryDirectory(prefix='.new-', dir=os.path.dirname(name) or '.') as folder:
        draft = os.path.join(folder, os.path.basename(name))
        with closing(sqlite3.connect(draft, isolation_level=None)) as link:
            link.execute('PRAGMA synchronous=OFF')
            link.execute('BEGIN')
            link.execute(schema.create_statement(schema.WVIEW_EXTENDED))
            entries.insert(link, FIRST_DAY, float('-inf'))
            link.execute('COMMIT')
        if not entries.count:
            raise NotTaken('there is no row')
        with open(draft, 'rb') as file:
            os.fsync(file.fileno())
        if os.path.lexists(name):
            raise NotTaken(f'{name} is there now: it was made meanwhile, and is left as it is')
        os.rename(draft, name)
    return entries


def day_before(moment, zone):
    """The day before the moment of a last row, or the first day of all."""
    try:
        return max(FIRST_DAY, (datetime.fromtimestamp(moment, zone) - DAY).date())
    except (TypeError, ValueError, OverflowError, OSError):
        raise NotTaken(f'the dateTime {moment} of the last row is no time: which rows are later is not known') from None


def update(name, station, tell):
    """Adds to a database, in its own units, the rows that are later than its last one: all of them, or none."""
    with closing(sqlite3.connect(f'{Path(name).absolute().as_uri()}?mode=rw', uri=True, timeout=WAIT_SECONDS,
                                 isolation_level=None)) as link:
        link.execute('BEGIN IMMEDIATE')
        columns = [row[1] for row in link.execute(f'PRAGMA table_info({schema.TABLE})')]
        if not {*schema.KEY_NAMES} <= {*columns}:
            raise NotTaken(f'{name} has no table {schema.TABLE} of WeeWX')
        newest = link.execute(f'SELECT dateTime, usUnits FROM {schema.TABLE} ORDER BY dateTime DESC LIMIT 1').fetchone()
        last, system = newest or (float('-inf'), fields.US)
        if system not in fields.SYSTEMS:
            raise NotTaken(f'{name}: usUnits {system} is none of 1, 16 and 17')
        entries = Entries(columns, system, station, tell)
        entries.insert(link, day_before(last, station.zone) if newest else FIRST_DAY, last)
        if entries.count and link.execute(DAY_TABLE).fetchone():
            tell(f'{name} has daily summaries of WeeWX, which lack these rows: have WeeWX make them anew')
        link.execute('COMMIT')
    return entries


DAY_TABLE = f"SELECT 1 FROM sqlite_master WHERE type = 'table' AND name GLOB '{schema.DAY_TABLES}*'"


def write_database(name, station, tell):
    """Writes a station's rows into a database. Gives what was written."""
    try:
        return (update if os.path.lexists(name) else make)(name, station, tell)
    except sqlite3.Error as fault:
        raise NotTaken(f'{name}: {fault}') from None
