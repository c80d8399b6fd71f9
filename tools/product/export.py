#!/usr/bin/python3
"""Writes the rows of an archive as CSV, and beside it the configuration with which WeeWX imports it.

    jofitrana-export --station roof --days 2024-01-01 2024-12-31 weather.csv
    jofitrana report weather.archive rows 2024-01-01 2024-12-31 |
        jofitrana-export --zone Etc/GMT-1 --bucket 0.2mm weather.csv

With `--station` the rain bucket and the zone of the console's clock are the station's. The configuration is weather.conf then.
Neither file may be there already. Both are written under other names first, and are there once they are whole. Stamps are the
console's own civil time. With a zone each row has its time in UTC besides. A row in the hour that the end of summer time doubles
could be of either time, and one in the hour that its beginning leaves out of none: each such row is named on standard error and
left out.
Statuses: 0, 1 if the input has no rows or is cut or a file is there or cannot be written, 2 if the words are out of form, 3
if rows were left out.
"""
import argparse
import csv
import os
import sys
from contextlib import contextmanager
from datetime import timezone
from tempfile import TemporaryDirectory

sys.dont_write_bytecode = True  # nothing is left beside an installed script
import chosen_rows
import rows as row_lines
import stations
from stopping import stop_as_refused
from zones import NoZone, zone_named

LEFT_OUT = 3
STAMP = 'stamp'
UTC = 'time (UTC)'
EPOCH = 'time (unix_epoch)'
INTERVAL = 'interval (minute)'
DIGITS = 6  # behind the point: a click of 0.1 mm is 0.003937 inch

# What WeeWX calls a field otherwise, and what its database has no place for.
OTHER_NAMES = {'highRainRate': 'rainRate'}
WITHOUT_PLACE = {'highOutTemp', 'lowOutTemp', 'windSamples', 'highRadiation', 'highUV', 'forecastRule'}

CONFIGURATION = """\
# WeeWX 5 imports {file} with: weectl import --import-config={conf}
source = CSV

[CSV]
    file = "{file}"
    source_encoding = utf-8
    delimiter = ','
    interval = derive
    qc = True
    calc_missing = True
    raw_datetime_format = %Y-%m-%d %H:%M
    UV_sensor = {has_uv}
    solar_sensor = {has_sun}
    [[FieldMap]]
{map}"""

ENTRY = """\
        [[[{name}]]]
            source_field = {column}
            unit = {unit}
"""


def column(name):
    """The head of a field's column."""
    return f'{name} ({row_lines.unit_of(name)})'


def offset(stamp, zone, fold):
    """How far a zone's clocks were ahead of UTC at a stamp, at its first time or its second."""
    return stamp.replace(tzinfo=zone, fold=fold).utcoffset()


def trouble_of(stamp, zone):
    """Why a stamp names no one time of a zone, if so."""
    first, second = offset(stamp, zone, 0), offset(stamp, zone, 1)
    if first == second:
        return None
    return 'comes twice' if first > second else 'does not come'


def times(stamp, zone):
    """The columns of a stamp, and of its time in UTC where there is a zone."""
    cells = {STAMP: f'{stamp:%Y-%m-%d %H:%M}'}
    if zone:
        time = stamp.replace(tzinfo=zone).astimezone(timezone.utc)
        cells |= {UTC: f'{time:%Y-%m-%dT%H:%M:%SZ}', EPOCH: int(time.timestamp())}
    return cells


def told(rows, zone):
    """The rows whose stamps name one time; the others are named on standard error."""
    kept = []
    for row in rows:
        trouble = trouble_of(row.stamp, zone) if zone else None
        if trouble:
            print(f'export: left out: {row.stamp:%Y-%m-%d %H:%M} {trouble} in {zone.key}', file=sys.stderr)
        else:
            kept.append(row)
    return kept


def write_table(file, rows, names, zone):
    """Writes the rows as CSV, a value that is missing as nothing."""
    heads = [*times(rows[0].stamp, zone), INTERVAL, *map(column, names)] if rows else []
    table = csv.DictWriter(file, heads, restval='', lineterminator='\n')
    table.writeheader()
    for row in rows:
        values = {column(name): f'{value:.{DIGITS}f}'.rstrip('0').rstrip('.') for name, value in row.values.items()}
        minutes = {INTERVAL: int(row.interval.total_seconds()) // 60}
        table.writerow(times(row.stamp, zone) | minutes | values)


def configuration_of(name, table, names, zone):
    """The configuration for WeeWX, whose table has these fields."""
    entries = [('dateTime', EPOCH if zone else STAMP, 'unix_epoch'), ('interval', INTERVAL, 'minute')]
    entries += [(OTHER_NAMES.get(field, field), column(field), row_lines.unit_of(field))
                for field in names if field not in WITHOUT_PLACE]
    mapped = ''.join(ENTRY.format(name=name, column=column, unit=unit) for name, column, unit in entries)
    return CONFIGURATION.format(file=os.path.abspath(table), conf=os.path.abspath(name), map=mapped,
                                has_uv='UV' in names, has_sun='radiation' in names)


@contextmanager
def draft(folder, name):
    """A new file in the folder of drafts. At its end the disk has all of it, or has told that it cannot."""
    with open(os.path.join(folder, os.path.basename(name)), 'x', encoding='utf-8', newline='') as file:
        yield file
        file.flush()
        os.fsync(file.fileno())


def write_both(table, configuration, rows, zone):
    """Writes the table and the configuration. They have their names once both are whole."""
    names = [name for name in row_lines.FIELDS if any(name in row.values for row in rows)]
    with TemporaryDirectory(prefix='.new-', dir=os.path.dirname(table) or '.') as folder:
        with draft(folder, table) as file:
            write_table(file, rows, names, zone)
        with draft(folder, configuration) as file:
            file.write(configuration_of(configuration, table, names, zone))
        refuse_taken([table, configuration])
        for name in (table, configuration):
            os.rename(os.path.join(folder, os.path.basename(name)), name)


def refuse_taken(names):
    """Ends if a file of one of these names is there, since it would be written over."""
    for name in names:
        if os.path.lexists(name):
            sys.exit(f'export: {name} is there already: nothing was written. Move it away, or choose another name')


def table_name(name):
    """A name that ends as a table's does, so that the configuration has another."""
    if not name.endswith('.csv'):
        raise argparse.ArgumentTypeError(f'{name} does not end in .csv')
    return name


def zone_word(name):
    """The time zone of a word."""
    try:
        return zone_named(name)
    except NoZone as reason:
        raise argparse.ArgumentTypeError(str(reason)) from None


def main():
    stop_as_refused('export')
    words = argparse.ArgumentParser(prog='export', description='Writes the rows of the input as CSV.')
    words.add_argument('table', type=table_name, help='the file to write, NAME.csv; NAME.conf is written beside it')
    words.add_argument('--zone', type=zone_word, help="the zone of the console's clock, as Etc/GMT-1")
    chosen_rows.add_options(words)
    chosen = words.parse_args()
    chosen_rows.hold_days(words, chosen)
    configuration = chosen.table.removesuffix('.csv') + '.conf'
    refuse_taken([chosen.table, configuration])
    try:
        station = stations.station_of(chosen)
        zone = chosen.zone or station and station.zone
        rows = chosen_rows.rows_of(chosen, station)
        kept = told(rows, zone)
        write_both(chosen.table, configuration, kept, zone)
    except chosen_rows.TROUBLES as trouble:
        sys.exit(f'export: {trouble}')
    sys.exit(0 if len(kept) == len(rows) else LEFT_OUT)


if __name__ == '__main__':
    main()
