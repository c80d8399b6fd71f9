"""The tables of PostgreSQL in which the rows of many stations are kept, and how they are made."""
import rows as row_lines

NAMES = list(row_lines.FIELDS)  # PostgreSQL takes capitals for small letters in names of columns
MAKERS = 0x6A6F6669  # the lock of runs that make tables

STATION = """\
CREATE TABLE station (
    number integer GENERATED ALWAYS AS IDENTITY PRIMARY KEY,
    name text NOT NULL UNIQUE,
    zone text NOT NULL)"""
WEATHER = """\
CREATE TABLE weather (
    station integer NOT NULL REFERENCES station,
    time timestamptz NOT NULL,
    minutes smallint NOT NULL,
    {},
    PRIMARY KEY (station, time)) PARTITION BY RANGE (time)"""
YEAR = """\
CREATE TABLE weather_{0} PARTITION OF weather
    FOR VALUES FROM ('{0}-01-01 00:00+00') TO ('{1}-01-01 00:00+00')"""
COMMENT = "COMMENT ON COLUMN {}.{} IS '{}'"
COMMENTS = {
    ('station', 'number'): 'the number of the station in weather',
    ('station', 'name'): 'the name of the station',
    ('station', 'zone'): "the time zone of the console's clock",
    ('weather', 'station'): 'the number of the station',
    ('weather', 'time'): 'the moment at which the row ends',
    ('weather', 'minutes'): 'how long the row is, in minutes',
}
VIEW = """\
CREATE VIEW weather_metric AS
    SELECT station.name AS station, time, minutes,
    {}
    FROM weather JOIN station ON station.number = weather.station"""
FIND_TABLE = 'SELECT 1 FROM pg_tables WHERE tablename = %s AND schemaname = ANY (current_schemas(false))'
INCOMING = 'CREATE TEMPORARY TABLE IF NOT EXISTS incoming (LIKE weather) ON COMMIT DELETE ROWS'

# What a unit becomes in the view of metric ones.
METRIC = {
    'degree_F': ('({} - 32) / 1.8', 'degree_C'),
    'inHg': ('{} * 33.86389', 'hPa'),
    'mile_per_hour': ('{} * 0.44704', 'meter_per_second'),
    'inch': ('{} * 25.4', 'mm'),
    'inch_per_hour': ('{} * 25.4', 'mm_per_hour'),
}


def metric(name):
    """A field in metric units, and the unit that it has then."""
    unit = row_lines.unit_of(name)
    form, metric_unit = METRIC.get(unit, ('{}', unit))
    return form.format(name), metric_unit


def statements():
    """What makes the tables and the view, with a comment on each column."""
    yield STATION
    yield WEATHER.format(',\n    '.join(f'{name} real' for name in NAMES))
    yield VIEW.format(',\n    '.join(f'{metric(name)[0]} AS {name}' for name in NAMES))
    for (table, column), words in COMMENTS.items():
        yield COMMENT.format(table, column, words.replace("'", "''"))
    for name in NAMES:
        yield COMMENT.format('weather', name, row_lines.unit_of(name))
        yield COMMENT.format('weather_metric', name, metric(name)[1])


def has_table(cursor, name):
    """Whether a table is there, as of this moment."""
    cursor.execute(FIND_TABLE, [name])
    return cursor.fetchone() is not None


def make_tables(link, years):
    """Makes the tables, and those of some years, where they are not there. Of two runs one waits for the other."""
    with link, link.cursor() as cursor:
        wanted = ['weather', *(f'weather_{year}' for year in years)]
        if all(has_table(cursor, name) for name in wanted):
            return
        cursor.execute('SELECT pg_advisory_xact_lock(%s)', [MAKERS])
        if not has_table(cursor, 'weather'):
            for statement in statements():
                cursor.execute(statement)
        for year in years:
            if not has_table(cursor, f'weather_{year}'):
                cursor.execute(YEAR.format(year, year + 1))
