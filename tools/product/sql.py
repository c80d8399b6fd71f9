#!/usr/bin/python3
"""Brings the tables of a database of PostgreSQL up to date from row lines. Run again, it changes nothing.

    jofitrana-sql --station roof --days 2024-07-01 2024-07-31 dbname=weather
    jofitrana-sql --since --station roof dbname=weather    # the days to report from, as two words
    jofitrana report roof.archive rows 2024-07-01 2024-07-31 | jofitrana-sql --station roof --zone Etc/GMT-1 dbname=weather

Tables that are not there are made. Just the rows that differ are written, those of a station in one transaction, and stations
with few rows together. Without `--station` the input has rows of many stations, those of each behind a line `station NAME`. The
zone of a console's clock and the rain bucket are those of its station's settings, unless the words name others. With `--since` a
row that is ahead of this machine's clock is named on standard error, and does not count. A row in the hour that the end of summer
time doubles could be of either time, and one in the hour that its beginning leaves out of none: such rows are named on standard
error and left out.
Statuses: 0, 1 if a station has no rows or no name, if the input is cut or the database fails, 2 if the words are out of form,
3 if rows were left out.
"""
import argparse
import os
import sys
from datetime import datetime, timedelta, timezone
from itertools import groupby

sys.dont_write_bytecode = True  # nothing is left beside an installed script

try:
    import psycopg2
except ImportError:
    sys.exit('sql: psycopg2 is missing; on Debian: apt install python3-psycopg2')

import chosen_rows
import export
import rows as row_lines
import stations
from reports import FIRST_DAY, LAST_DAY, Archive, Refused
from sql_rows import Group, StationRows
from sql_tables import has_table

MINUTE = timedelta(minutes=1)
BEGIN = 'station '  # of a line that names the station of the rows behind it
NUL, SHOWN_NUL = '\0', '\\0'  # no text of PostgreSQL has this byte
SLACK = timedelta(minutes=5)  # by which a console's clock may be ahead of this machine's
FIND_STATION = 'SELECT number FROM station WHERE name = %s'
LAST_TIME = 'SELECT time FROM weather WHERE station = %s AND time <= %s ORDER BY time DESC LIMIT 1'


class Trouble(Exception):
    """Why the rows of a station are not written."""


def trouble_of_name(name):
    """Why a text is no name of a station, if so."""
    if not name:
        return 'a station needs a name'
    return 'no name has a byte of zero' if NUL in name else None


def stations_of(lines, name):
    """The name of each station with its lines, of which there may be none."""
    if name is not None:
        yield name, lines
        return
    for is_name, group in groupby(lines, lambda line: line.startswith(BEGIN)):
        if is_name:
            *without_lines, name = (row_lines.whole(line).removeprefix(BEGIN) for line in group)
            yield from ((one, ()) for one in without_lines)
        elif name is None:
            raise Trouble("the rows have no station: give --station, or a line 'station NAME' before them")
        else:
            yield name, group
            name = None
    if name is not None:
        yield name, ()


def settings_of(name, chosen):
    """The settings of the station of a name. If the words name the zone, there may be none."""
    is_there = stations.trouble_of_name(name) is None and os.path.lexists(os.path.join(chosen.settings_folder, f'{name}.env'))
    if chosen.zone and not is_there:
        return None
    return stations.read_station(name, chosen.settings_folder, chosen.archive_folder)


def zone_of(chosen, station):
    """The zone of the console's clock: what the words say, or else the station's settings."""
    zone = chosen.zone or station.zone
    if zone is None:
        raise Trouble(f'{station.environment} has no TZ=, the zone of the console\'s clock: write it there, or give --zone')
    return zone


def rows_of_station(name, lines, chosen):
    """The rows of a station by their times, from its row lines. Those whose stamps name no one time are left out."""
    trouble = trouble_of_name(name)
    if trouble:
        raise Trouble(trouble)
    station = settings_of(name, chosen)
    rows = row_lines.read_rows(lines, stations.buckets_of(station, chosen.bucket))
    zone = zone_of(chosen, station)
    kept = export.told(rows, zone)
    timed = {row.stamp.replace(tzinfo=zone).astimezone(timezone.utc): row for row in kept}
    return StationRows(name, zone, timed, len(rows) - len(kept))


def lines_of(chosen):
    """The row lines that the words choose: the input, or days of the station's archive."""
    if not chosen.days:
        return sys.stdin
    archive = stations.station_of(chosen).archive
    return [line + '\n' for line in Archive(chosen.program, archive).lines_of_rows(*chosen.days)]


class Outcome:
    """What is told of the stations, and the status that comes of it."""

    def __init__(self):
        self.status = 0

    def tell(self, written):
        """Prints what was written of a station, or its trouble."""
        if written.trouble:
            self.tell_trouble(written.station.name, written.trouble)
            return
        name, _, timed, left_out = written.station
        print(f'station {name} rows {len(timed)} added {written.added} changed {written.changed} left out {left_out}', flush=True)
        if left_out:
            self.status = self.status or export.LEFT_OUT

    def tell_trouble(self, name, trouble):
        """Prints a station's trouble."""
        print(f'sql: station {name.replace(NUL, SHOWN_NUL)}: {trouble}', file=sys.stderr)
        self.status = 1


def take_all(group, lines, chosen, outcome):
    """Takes the rows of the stations of the input into a group. A station with a trouble does not stop the others."""
    name = None
    for name, lines_of_station in stations_of(lines, chosen.station):
        try:
            group.take(rows_of_station(name, lines_of_station, chosen))
        except (row_lines.NotRows, stations.StationFault, Trouble) as trouble:
            outcome.tell_trouble(name, trouble)
    if name is None:
        raise Trouble('there is no row')


def write_all(link, lines, chosen):
    """Brings the stations of the input up to date; gives the status. What stands before a name that is cut is written."""
    outcome = Outcome()
    group = Group(link, outcome.tell)
    try:
        take_all(group, lines, chosen, outcome)
    except row_lines.NotRows:
        group.write()
        raise
    group.write()
    return outcome.status


def last_time(cursor, name, latest):
    """The time of a station's last row that is not later than a moment, if there is one."""
    cursor.execute(FIND_STATION, [name])
    cursor.execute(LAST_TIME, [(cursor.fetchone() or [None])[0], latest])
    return next(iter(cursor.fetchone() or []), None)


def days_to_report(link, name, zone):
    """The first and the last day of which rows may be new: the row of midnight is of the day before. A row of the future is
    told, and does not count: rows before it are still to come."""
    now = datetime.now(timezone.utc)
    with link, link.cursor() as cursor:
        if not has_table(cursor, 'weather'):
            return FIRST_DAY, LAST_DAY
        last, known = last_time(cursor, name, 'infinity'), last_time(cursor, name, now + SLACK)
    if last != known:
        print(f'sql: station {name}: its row of {last.astimezone(zone):%Y-%m-%d %H:%M} is ahead of this machine\'s clock, '
              'and does not count here', file=sys.stderr)
    return (known.astimezone(zone) - MINUTE).date() if known else FIRST_DAY, LAST_DAY


def main():
    words = argparse.ArgumentParser(prog='sql', description='Brings tables of PostgreSQL up to date from row lines.')
    words.add_argument('database', help="the database as libpq takes it, for example 'dbname=weather'")
    words.add_argument('--zone', type=export.zone_word, help="the zone of the console's clock, as Etc/GMT-1")
    words.add_argument('--since', action='store_true', help='print the days to report from, and write nothing')
    chosen_rows.add_options(words)
    chosen = words.parse_args()
    if chosen.station is not None and trouble_of_name(chosen.station):
        words.error(trouble_of_name(chosen.station))
    if chosen.since and chosen.station is None:
        words.error('--since takes --station')
    if not chosen.since:
        chosen_rows.hold_days(words, chosen)
    try:
        link = psycopg2.connect(chosen.database)
        if chosen.since:
            station = settings_of(chosen.station, chosen)
            print(*days_to_report(link, chosen.station, zone_of(chosen, station)))
            return
        sys.exit(write_all(link, lines_of(chosen), chosen))
    except (row_lines.NotRows, stations.StationFault, Refused, Trouble, OSError, psycopg2.Error) as trouble:
        sys.exit('sql: ' + ' '.join(str(trouble).split()))


if __name__ == '__main__':
    main()
