"""The rows that a tool takes: those of its input, or with `--station` and `--days` those of the station's archive."""
import argparse
import sys
from datetime import date

import rows as row_lines
import stations
from reports import Archive, Refused

TROUBLES = (row_lines.NotRows, stations.StationFault, Refused, OSError)


def day_named(text):
    """The day of a word."""
    try:
        return date.fromisoformat(text)
    except ValueError:
        raise argparse.ArgumentTypeError(f'{text} is no day, as 2024-07-01') from None


def add_options(parser):
    """Gives a tool the options of a station and of the days of its archive."""
    stations.add_station_option(parser)
    parser.add_argument('--days', nargs=2, type=day_named, metavar=('FIRST', 'LAST'),
                        help="with --station: take these days of the station's archive, and no input")
    parser.add_argument('--bucket', choices=row_lines.BUCKETS, help='a click of the rain bucket')
    parser.add_argument('--program', default='jofitrana', help='the program, if it is another one')


def hold_days(parser, chosen):
    """Ends a tool whose words name days and no station, or whose rows would have to be typed."""
    if chosen.days and chosen.station is None:
        parser.error('--days takes --station')
    if not chosen.days and sys.stdin is not None and sys.stdin.isatty():
        parser.error('there are no rows: give them as input, or --station NAME --days FIRST LAST')


def rows_of(chosen, station):
    """The rows that the words of a tool choose."""
    buckets = stations.buckets_of(station, chosen.bucket)
    if chosen.days:
        return row_lines.rows_of_lines(Archive(chosen.program, station.archive).lines_of_rows(*chosen.days), buckets)
    return row_lines.read_rows(sys.stdin, buckets)
