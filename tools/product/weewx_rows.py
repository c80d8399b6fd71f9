"""The row lines of a database of WeeWX, which is only read, and what of it has no place in them."""
import sqlite3
from datetime import datetime
from fractions import Fraction
from pathlib import Path

import rows as row_lines
import weewx_fields as fields
import weewx_schema as schema
from reports import FIRST_DAY, LAST_DAY

PERIODS = (1, 5, 10, 15, 30, 60, 120)  # that a row can have, in minutes
MOST_KEPT = 16_384  # values of one column whose counts are kept, since most come often
WAIT_SECONDS = 30  # for another process that is writing
MINUTE_SECONDS = 60
FIRST_STAMP = datetime(FIRST_DAY.year + 1, 1, 1)
END_OF_STAMPS = datetime(LAST_DAY.year + 1, 1, 1)


class NotTaken(Exception):
    """Why a database cannot be taken."""


class BeyondRange(Exception):
    """A value that its field cannot hold."""


class Counted(dict):
    """The words of a field for the values of its column, each worked out once."""

    def __init__(self, name, step):
        super().__init__()
        self.name, self.step = name, step

    def __missing__(self, value):
        count = fields.count_of(self.name, self.step, value)
        if count is None:
            raise BeyondRange
        if len(self) >= MOST_KEPT:
            self.clear()
        self[value] = f' {self.name}={count}'
        return self[value]

    word = dict.__getitem__


class AddedUp:
    """The words of a field whose values are summed. What rounding left of a row goes on to the next one."""

    def __init__(self, name, rests, step):
        self.name, self.rests, self.step = name, rests, step

    def word(self, value):
        """The word of a row's value."""
        if value == 0:
            return f' {self.name}=0'  # the rest is at most half a count
        if not fields.is_number(value) or value < 0:
            raise BeyondRange
        wanted = self.step.there(fields.exact(value)) + self.rests[self.name]
        count = fields.nearest(wanted)
        if not fields.RANGES[self.name].has(count):
            raise BeyondRange
        self.rests[self.name] = wanted - count
        return f' {self.name}={count}'


class Words:
    """The words of a row's values, by the units of the database and the bucket of the station."""

    def __init__(self, names, buckets):
        self.names, self.buckets = names, buckets
        self.made, self.bucket = {}, buckets.first
        self.rests = dict.fromkeys(fields.ADDED_UP, Fraction(0))  # in counts

    def change_bucket(self, bucket):
        """Goes on in the clicks of another bucket."""
        clicks = [fields.to_counts('rain', fields.US, one).factor for one in (self.bucket, bucket)]
        self.rests['rain'] *= clicks[1] / clicks[0]
        self.bucket = bucket

    def field_words(self, system):
        """What gives the words of each field in a system of units."""
        key = system, self.bucket
        if key not in self.made:
            steps = {name: fields.to_counts(name, *key) for name in self.names}
            self.made[key] = [AddedUp(name, self.rests, step) if name in fields.ADDED_UP else Counted(name, step)
                              for name, step in steps.items()]
        return self.made[key]

    def of(self, stamp, system, values):
        """The words of the values of a row, and the names and values of those that their fields cannot hold."""
        bucket = self.buckets.on(row_lines.day_of(stamp)) if self.buckets.changes else self.bucket
        if bucket != self.bucket:
            self.change_bucket(bucket)
        words, beyond = [], []
        for field, value in zip(self.field_words(system), values):
            if value is not None:
                try:
                    words.append(field.word(value))
                except BeyondRange:
                    beyond.append((field.name, value))
        return ''.join(words), beyond


class Told:
    """Names the rows and values that are left out, and counts them and the rows that are not."""

    def __init__(self, tell):
        self.tell, self.rows, self.values, self.lines, self.cut = tell, 0, 0, 0, 0

    def row(self, moment, reason):
        """A row is left out."""
        self.rows += 1
        self.tell(f'left out: the row of dateTime {moment}: {reason}')

    def value(self, stamp, name, value):
        """A value is left out."""
        self.values += 1
        self.tell(f'left out: {fields.COLUMNS[name]} {value} of {stamp:%Y-%m-%d %H:%M}: a row cannot hold it')

    @property
    def is_all(self):
        """Whether nothing is left out."""
        return not self.rows and not self.values


class Database:
    """A database of WeeWX, of which one moment is read."""

    def __init__(self, name):
        self.name = name
        self.link = sqlite3.connect(f'{Path(name).absolute().as_uri()}?mode=ro', uri=True, timeout=WAIT_SECONDS,
                                    isolation_level=None)
        self.link.execute('BEGIN')
        self.columns = [row[1] for row in self.link.execute(f'PRAGMA table_info({schema.TABLE})')]
        if not {*schema.KEY_NAMES} <= {*self.columns}:
            raise NotTaken(f'{name} has no table {schema.TABLE} of WeeWX')
        self.names = [name for name, column in fields.COLUMNS.items() if column in self.columns]

    def __enter__(self):
        return self

    def __exit__(self, *_):
        self.link.close()

    def rows(self):
        """The keys and values of all rows, in order of time."""
        wanted = [*schema.KEY_NAMES, *(fields.COLUMNS[name] for name in self.names)]
        return self.link.execute(f'SELECT {quoted(wanted)} FROM {schema.TABLE} ORDER BY dateTime')

    def without_place(self):
        """How many values there are of each column that no field has."""
        taken = {*schema.KEY_NAMES, *fields.COLUMNS.values()}
        others = [column for column in self.columns if column not in taken]
        if not others:
            return {}
        counts = self.link.execute(f'SELECT {", ".join(f"count({quoted([one])})" for one in others)} FROM {schema.TABLE}')
        return {column: count for column, count in zip(others, counts.fetchone()) if count}


def quoted(columns):
    """Names of columns in a statement."""
    return ', '.join('"' + column.replace('"', '""') + '"' for column in columns)


def refusal_of(moment, system, minutes):
    """Why a row cannot be taken by its keys, if so."""
    if not isinstance(moment, int):
        return 'this is no time'
    if system not in fields.SYSTEMS:
        return f'usUnits {system} is none of 1, 16 and 17'
    if minutes not in PERIODS:
        return f'an interval of {minutes} minutes is none that a row can have'
    return None


def civil(moment, zone):
    """The minute that a clock of the zone shows at a moment; None if no row can have it."""
    try:
        stamp = datetime.fromtimestamp(moment - moment % MINUTE_SECONDS, zone).replace(tzinfo=None)
    except (ValueError, OverflowError, OSError):
        return None
    return stamp if FIRST_STAMP <= stamp < END_OF_STAMPS else None


def lines_of(database, zone, buckets, told):
    """The row lines of a database, with their line feeds. Names what is left out."""
    words, last = Words(database.names, buckets), datetime.min
    for moment, system, minutes, *values in database.rows():
        reason = refusal_of(moment, system, minutes)
        stamp = None if reason else civil(moment, zone)
        if not stamp:
            told.row(moment, reason or 'it is before 2000 or after 2127')
            continue
        if stamp <= last:
            told.row(moment, f'{stamp:%Y-%m-%d %H:%M} is not later than {last:%Y-%m-%d %H:%M} of the row before it')
            continue
        last = stamp
        told.cut += moment % MINUTE_SECONDS != 0
        text, beyond = words.of(stamp, system, values)
        for name, value in beyond:
            told.value(stamp, name, value)
        told.lines += 1
        yield f'row {stamp:%Y-%m-%d %H:%M} {int(minutes)}{text}\n'
    if not told.lines:
        raise NotTaken(f'{database.name} has no row' + (' that can be taken' if told.rows else ''))


def write_rows(name, zone, buckets, file, told):
    """Writes the row lines of a database to a file. Gives how many values there are in columns that no field has."""
    try:
        with Database(name) as database:
            file.writelines(lines_of(database, zone, buckets, told))
            return database.without_place()
    except sqlite3.Error as fault:
        raise NotTaken(f'{name}: {fault}') from None
