#!/usr/bin/python3
"""Prints the rows of a database of WeeWX as row lines, and writes a station's rows into such a database.

    jofitrana-weewx rows weewx.sdb --station roof >old.rows
    jofitrana-weewx database --station roof weewx.sdb

DATABASE is an SQLite file with WeeWX's table `archive`, in any of its three systems of units. `rows` only reads it, and prints
its lines once all were read. `database` makes it if it is not there, in US units; else it adds, all or none, the rows that are
later than its last one, in its units. What has no place on the other side is named on standard error. This was not tried with
WeeWX. The zone and the rain bucket are those of the station, or of the options.
Statuses: 0, 1 if a database or a report is refused or nothing can be written, 2 if the words are out of form, 3 if rows or
values were left out that have a place.
"""
import argparse
import shutil
import sys
import tempfile

sys.dont_write_bytecode = True  # nothing is left beside an installed script
import rows as row_lines
import stations
import weewx_rows
import weewx_tables
from export import zone_word
from reports import Refused
from row_stream import counted_rows
from stopping import stop_as_refused

LEFT_OUT = 3


def tell(text):
    """Reports a thing on standard error."""
    print(f'weewx: {text}', file=sys.stderr)


def counted(number, one):
    """A count of things, in words."""
    return f'{number} {one}{"" if number == 1 else "s"}'


def tell_counts(what, counts):
    """Reports how many values there are of each name, if any."""
    if counts:
        tell(f'{what}: ' + ', '.join(f'{name} {count}' for name, count in sorted(counts.items())))


def print_rows(chosen, zone, buckets):
    """Prints the row lines of a database; gives the status. Nothing is printed of one that is refused."""
    told = weewx_rows.Told(tell)
    with tempfile.TemporaryFile('w+', encoding='ascii') as lines:
        without_place = weewx_rows.write_rows(chosen.database, zone, buckets, lines, told)
        lines.seek(0)
        shutil.copyfileobj(lines, sys.stdout)
        sys.stdout.flush()
    tell_counts('without a place in a row', without_place)
    if told.cut:
        tell(f'{counted(told.cut, "row")} did not end on a full minute: the seconds are cut off')
    tell(f'{counted(told.lines, "row")}; left out: {counted(told.rows, "row")} and {counted(told.values, "value")}')
    return 0 if told.is_all else LEFT_OUT


def write_database(chosen, zone, buckets, archives):
    """Writes the rows of the archives into a database; gives the status."""
    station = weewx_tables.Station(zone, buckets, lambda day: counted_rows(chosen.program, archives, day))
    written = weewx_tables.write_database(chosen.database, station, tell)
    tell_counts('without a place in the database', written.without_place)
    if written.doubled:
        tell(f'{counted(written.doubled, "row")} of an hour that comes twice in {zone.key}: each is taken as of the first time')
    tell(f'{counted(written.count, "row")} added; left out: {counted(written.left_out, "row")}')
    return LEFT_OUT if written.left_out else 0


def words_of_command():
    """What a command line may have."""
    words = argparse.ArgumentParser(prog='weewx', description='Brings rows from and to a database of WeeWX.')
    words.add_argument('command', choices=('rows', 'database'), help='print its rows, or write into it')
    words.add_argument('database', help='the database, for example weewx.sdb')
    words.add_argument('--zone', type=zone_word, help="the zone of the console's clock, for example Etc/GMT-1 or <+01>-1")
    words.add_argument('--bucket', choices=row_lines.BUCKETS, help='a click of the rain bucket')
    words.add_argument('--archive', help='the archive whose rows are written')
    words.add_argument('--also', action='append', default=[], metavar='OLD', help='an older archive of the station, put aside')
    words.add_argument('--program', default='jofitrana', help='the program, if it is another one')
    stations.add_station_option(words)
    return words


def main():
    stop_as_refused('weewx')
    words = words_of_command()
    chosen = words.parse_args()
    try:
        station = stations.station_of(chosen)
        zone, bucket = chosen.zone or station and station.zone, chosen.bucket or station and station.bucket
        archive = chosen.archive or station and station.archive
        if not zone:
            words.error('the zone is not known: --zone, or TZ= of the station')
        if not bucket:
            words.error('the rain bucket is not known: --bucket, or BUCKET= of the station')
        buckets = stations.buckets_of(station, chosen.bucket)
        if chosen.command == 'rows':
            sys.exit(print_rows(chosen, zone, buckets))
        if not archive:
            words.error('the archive is not known: --archive, or --station')
        sys.exit(write_database(chosen, zone, buckets, [archive, *chosen.also]))
    except (Refused, weewx_rows.NotTaken, row_lines.NotRows, stations.StationFault, OSError) as trouble:
        sys.exit(f'weewx: {trouble}')


if __name__ == '__main__':
    main()
