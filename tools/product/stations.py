"""A station's own settings for the tools. They stand in /etc/jofitrana/NAME.env, where the units of systemd read them too:

    ADDRESS=192.168.1.20:22222      where the console is
    DEVICE=/dev/serial/by-id/NAME   the adapter that is served at ADDRESS, if the console is on a serial line of this machine
    TZ=<+01>-1                      the zone of the console's clock: a rule, or a name such as Etc/GMT-1
    TITLE=Roof, Bern                what pages and charts are headed; without it, NAME
    UNITS=metric                    metric or us; without it, us
    BUCKET=0.2mm                    a click of the rain bucket: 0.01in, 0.2mm or 0.1mm
    BUCKET_FROM=2025-06-01 0.1mm    another bucket from the beginning of that day on; several with commas, in order of time
    ALERT=mail -s Weather roof@example.org    a command for alerts

Every key may be left out. A tool takes `add_station_option(parser)`, and then `station_of(chosen)` of its parsed words. Values
are quoted as systemd's EnvironmentFile has it. A key that stands twice is refused, since systemd would keep the last value alone.
"""
import os
import re
import sys
from datetime import date, datetime
from typing import NamedTuple
from zoneinfo import ZoneInfo

import archives
from rows import BUCKETS, DEFAULT_BUCKET, Buckets
from zones import NoZone, zone_named

SETTINGS, ARCHIVES = '/etc/jofitrana', '/var/lib/jofitrana'
US, METRIC = UNITS = ('us', 'metric')

# A name is one word of the units, and no name of another file.
NAME = re.compile(r'[A-Za-z0-9][A-Za-z0-9_.-]*')
ARCHIVE_END = '.archive'
TAKEN_ENDS = (*archives.SETTINGS_ENDS, ARCHIVE_END, '.timer', '.service')

# An entry of an EnvironmentFile: a key, and behind quoted parts the rest of the line, in which a backslash keeps a character.
COMMENT = re.compile(r'[ \t]*(?:[#;](?:\\\n|[^\n])*)?(?:\n|\Z)')
KEY = re.compile(r'[ \t]*([A-Za-z_][A-Za-z0-9_]*)=')
SINGLE_QUOTED = re.compile(r"[ \t]*'([^']*)'")
DOUBLE_QUOTED = re.compile(r'[ \t]*"((?:\\.|[^"\\])*)"', re.DOTALL)
BARE = re.compile(r'''[ \t]*+(?!['"])((?:\\.|[^\\\n])*)(?:\n|\Z)''', re.DOTALL)
ESCAPED = re.compile(r'\\(.)', re.DOTALL)
ESCAPED_IN_QUOTES = re.compile(r'\\(["\\`$\n])')
BUCKET_CHANGE = re.compile(r'\s*(\d{4}-\d\d-\d\d) (\S+)\s*')


class StationFault(Exception):
    """Why a station's settings cannot be used, in one line."""


class Station(NamedTuple):
    """A station's settings. What the file leaves out is None, but for the title, the units and the changes."""
    name: str
    settings: str  # NAME.toml
    environment: str  # NAME.env
    archive: str
    address: str | None
    device: str | None
    zone: ZoneInfo | None
    title: str
    units: str
    bucket: str | None
    bucket_changes: tuple  # pairs of a day and the bucket from its beginning on, in order
    alert: str | None
    keys: dict  # all keys of NAME.env with their values

    def now(self):
        """What the console's clock shows if it is right; without a zone, what this machine's does."""
        return datetime.now(self.zone).replace(tzinfo=None)


def trouble_of_name(name):
    """Why a word is no name of a station, if so."""
    if NAME.fullmatch(name) and not name.endswith(TAKEN_ENDS):
        return None
    return (f'{name} is no name of a station: take letters, digits and _ . - alone, and none of the ends '
            f'{" ".join(TAKEN_ENDS)}')


def without_escape(match):
    """The character behind a backslash. A line that goes on behind it has none."""
    return match[1].replace('\n', '')


def value_at(text, place):
    """The value that begins at a place, and where its line ends; nothing if a quote is not closed."""
    parts = []
    while quoted := SINGLE_QUOTED.match(text, place) or DOUBLE_QUOTED.match(text, place):
        is_single = quoted.re is SINGLE_QUOTED
        parts.append(quoted[1] if is_single else ESCAPED_IN_QUOTES.sub(without_escape, quoted[1]))
        place = quoted.end()
    bare = BARE.match(text, place)
    if not bare:
        return None
    return ''.join([*parts, ESCAPED.sub(without_escape, bare[1].rstrip(' \t\r'))]), bare.end()


def keys_of(text, name):
    """The keys of the text of an EnvironmentFile, with their values."""
    keys, place = {}, 0
    while place < len(text):
        comment = COMMENT.match(text, place)
        if comment:
            place = comment.end()
            continue
        line = f'{name} line {text.count(chr(10), 0, place) + 1}'
        key = KEY.match(text, place)
        if not key:
            raise StationFault(f'{line}: this is no KEY=VALUE')
        if key[1] in keys:
            raise StationFault(f'{line}: {key[1]} stands twice: keep one line')
        found = value_at(text, key.end())
        if not found:
            raise StationFault(f'{line}: a quote of {key[1]} is not closed')
        keys[key[1]], place = found
    return keys


def read_keys(name):
    """The keys of an EnvironmentFile, with their values."""
    try:
        with open(name, encoding='utf-8') as file:
            return keys_of(file.read(), name)
    except UnicodeDecodeError:
        raise StationFault(f'{name} is no text in UTF-8') from None
    except OSError as fault:
        raise StationFault(f'{name}: {fault.strerror}') from None


def change_of(text):
    """A day and the bucket from its beginning on."""
    match = BUCKET_CHANGE.fullmatch(text)
    if not match or match[2] not in BUCKETS:
        raise ValueError(text)
    return date.fromisoformat(match[1]), match[2]


def changes_of(text):
    """The changes of the bucket, which are in order of time."""
    try:
        changes = tuple(map(change_of, text.split(','))) if text else ()
    except ValueError:
        raise StationFault(f'BUCKET_FROM={text} is not a day and a bucket, for example 2025-06-01 0.2mm') from None
    days = [day for day, _ in changes]
    if days != sorted(set(days)):
        raise StationFault(f'BUCKET_FROM={text} is not in order of time')
    return changes


def one_of(keys, key, choices):
    """The value of a key that has to be one of these, if it is there."""
    value = keys.get(key)
    if value and value not in choices:
        raise StationFault(f'{key}={value} is none of {", ".join(choices)}')
    return value or None


def station_with(name, keys, folder, archive_folder):
    """The station of the keys of its NAME.env."""
    bucket, changes = one_of(keys, 'BUCKET', BUCKETS), changes_of(keys.get('BUCKET_FROM', ''))
    if changes and not bucket:
        raise StationFault('BUCKET_FROM stands without BUCKET, the bucket before that day')
    return Station(
        name=name, settings=os.path.join(folder, f'{name}.toml'), environment=os.path.join(folder, f'{name}.env'),
        archive=os.path.join(archive_folder, name + ARCHIVE_END), address=keys.get('ADDRESS') or None,
        device=keys.get('DEVICE') or None, zone=zone_named(keys['TZ']) if keys.get('TZ') else None,
        title=keys.get('TITLE') or name, units=one_of(keys, 'UNITS', UNITS) or US, bucket=bucket,
        bucket_changes=changes, alert=keys.get('ALERT') or None, keys=keys)


def read_station(name, folder=SETTINGS, archive_folder=ARCHIVES):
    """The settings of the station of a name. Raises StationFault if they are missing or out of form."""
    trouble = trouble_of_name(name)
    if trouble:
        raise StationFault(trouble)
    environment = os.path.join(folder, f'{name}.env')
    keys = read_keys(environment)
    try:
        return station_with(name, keys, folder, archive_folder)
    except (NoZone, StationFault) as fault:
        raise StationFault(f'{environment}: {fault}') from None


def station_of_archive(archive, folder=SETTINGS, archive_folder=ARCHIVES):
    """The name of the station whose archive a file is by its place, if that has settings."""
    place, name = os.path.split(os.path.realpath(archive))
    name, ending = os.path.splitext(name)
    is_station = ending == ARCHIVE_END and place == os.path.realpath(archive_folder)
    return name if is_station and os.path.exists(os.path.join(folder, f'{name}.env')) else None


def add_station_option(parser, settings_option='--settings'):
    """Gives a tool the option of a station, and those of the folders in which its files stand."""
    parser.add_argument('--station', metavar='NAME', help=f'take what {SETTINGS}/NAME.env has of the station')
    parser.add_argument(settings_option, dest='settings_folder', default=SETTINGS, metavar='FOLDER',
                        help=f'where NAME.env and NAME.toml stand, if not in {SETTINGS}')
    parser.add_argument('--archives', dest='archive_folder', default=ARCHIVES, metavar='FOLDER',
                        help=f'where NAME.archive stands, if not in {ARCHIVES}')


def buckets_of(station, bucket=None):
    """What a click of the rain bucket is: what a tool's words say, or else the station's settings."""
    if bucket or station is None:
        return Buckets(bucket or DEFAULT_BUCKET)
    if station.bucket is None:
        print(f'{station.environment} has no BUCKET=: a click of the rain bucket is taken as {DEFAULT_BUCKET}', file=sys.stderr)
    return Buckets(station.bucket or DEFAULT_BUCKET, station.bucket_changes)


def is_metric(station, metric):
    """Whether values are shown in metric units: by a tool's words, or by the station's settings."""
    return metric or station is not None and station.units == METRIC


def station_of(chosen):
    """The station of a tool's parsed words, or None if they name none. Raises StationFault."""
    if chosen.station is None:
        return None
    return read_station(chosen.station, chosen.settings_folder, chosen.archive_folder)
