"""What setup writes of a station: NAME.toml and NAME.env. Files that are there are kept, and compared with the console."""
import errno
import os
import sys
import tomllib
from datetime import date

import archives
import rows as row_lines
import settings_faults
import stations
from default_limits import limits_text

METRIC_BUCKETS = ('0.2mm', '0.1mm')
DEFAULT_PERIOD = 5

# Fields of which a unit or a few matter.
SMALL_UNITS = {'click', 'click_per_hour', 'mile_per_hour', 'uv_index', 'inch'}
SMALL_FIELDS = [name for name, (_, unit) in row_lines.FIELDS.items() if unit in SMALL_UNITS]
SMALL_VALUES = range(1, 4)
LATE_CHANGE = 5  # a ratio that changes no value below this is reported


def write(name, text):
    """Makes a file of a text, and none if it cannot be written whole."""
    data = text.encode()
    with open(name, 'xb', buffering=0) as file:
        try:
            if file.write(data) < len(data):
                raise OSError(errno.ENOSPC, os.strerror(errno.ENOSPC))
            os.fsync(file.fileno())
        except OSError as fault:
            os.remove(name)
            raise OSError(fault.errno, fault.strerror, name) from fault


def write_new(name, text, report):
    """Makes a file of the station, and its folder."""
    os.makedirs(os.path.dirname(name), exist_ok=True)
    write(name, text)
    report.found(f'Written: {name}')


def compare(name, pairs, found, report):
    """Reports which of these keys and values a file that is there does not have."""
    for key, value in pairs:
        if found.get(key) != value:
            report.trouble(f'{name} has {key}{found.get(key, "(nothing)")} in place of {key}{value}: change that line.')


def tables_of(settings):
    """Each table of a calibrated field in settings: how it is written, the field, and the table."""
    sections = [('calibration', settings.get('calibration', {}))]
    sections += [('change.calibration', change.get('calibration', {})) for change in settings.get('change', [])]
    return [(f'[{section}.{field}]', field, table) for section, fields in sections for field, table in fields.items()]


def look_at_roundings(name, settings, report):
    """Reports calibrations that round most of a field's small values away, or leave them as they are."""
    for head, field, table in tables_of(settings):
        num, den = table.get('num', 1), table.get('den', 1)
        if field not in SMALL_FIELDS or num == den:
            continue
        calibrated = [value * num // den for value in SMALL_VALUES]
        if calibrated[0] == 0:
            pairs = ', '.join(f'{value} becomes {other}' for value, other in zip(SMALL_VALUES, calibrated))
            report.trouble(f'{name}: {head} loses small values for good, since values are rounded down:\n'
                           f'  {pairs}. Take that table out. What a click of rain is belongs to the station: BUCKET=.')
        elif num > den and den // (num - den) >= LATE_CHANGE:
            report.trouble(f'{name}: {head} changes no value below {-(-den // (num - den))}, since values are rounded down.')


def read_settings(name, program, report):
    """The settings of a file that is there, looked through; nothing if the program or the reader here refuses them."""
    line, status = archives.run(program, 'pages', name, os.devnull)
    with open(name, 'rb') as file:
        data = file.read()
    if status:
        explained = settings_faults.explained(name, data, line) if line.startswith('settings ') else name
        report.trouble(f'The program refuses {name}: {line}\n  {explained}')
        return None
    try:
        settings = tomllib.loads(data.decode('utf-8-sig'))
    except tomllib.TOMLDecodeError as fault:
        report.trouble(f'{name} is taken by the program, and cannot be looked through here: {fault}')
        return None
    look_at_roundings(name, settings, report)
    return settings


def settings_text(period, with_limits):
    """The text of new settings."""
    return (f'period = {period}\n' if period else '') + (limits_text() if with_limits else '')


def look_at_settings(station, chosen, period, report):
    """Writes NAME.toml, or compares the one that is there with the console and looks through it."""
    if not os.path.exists(station.settings):
        write_new(station.settings, settings_text(period, chosen.limits), report)
        return
    settings = read_settings(station.settings, station.program, report)
    if settings is not None:
        report.found(f'Kept as it is: {station.settings}')
        pairs = [('period = ', period)] if period else []
        compare(station.settings, pairs, {'period = ': settings.get('period', DEFAULT_PERIOD)}, report)


def check_settings(name, program, report):
    """Reports the first fault of a file of settings with its line, and calibrations that lose values."""
    if read_settings(name, program, report) is not None:
        report.found(f'{name} has no fault.')


def asked(question, default, choices=None):
    """What the observer answers at a terminal, or else the default."""
    if sys.stdin is None or not sys.stdin.isatty():
        return default
    while True:
        answer = input(f'{question} [{default}] ').strip() or default
        if choices is None or answer in choices:
            return answer
        print(f'  {answer} is none of {", ".join(choices)}.')


def quoted(value):
    """A value as systemd's EnvironmentFile reads it back."""
    is_plain = value == value.strip() and not any(byte in value for byte in '"\'\\\n')
    return value if is_plain else '"' + ''.join('\\' + byte if byte in '"\\`$' else byte for byte in value) + '"'


def environment_text(station, chosen, zone, bucket):
    """The text of a new NAME.env, with what the observer chooses."""
    title = chosen.title or asked('Title of the station?', station.name)
    bucket = chosen.bucket or asked('A click of its rain bucket?', bucket, row_lines.BUCKETS) if bucket else chosen.bucket
    units = stations.METRIC if bucket in METRIC_BUCKETS else stations.US
    units = chosen.units or asked('Units, us or metric?', units, stations.UNITS)
    pairs = [('ADDRESS', station.address), ('DEVICE', station.device), ('TZ', zone), ('TITLE', title), ('UNITS', units),
             ('BUCKET', bucket)]
    return ''.join(f'{key}={quoted(value)}\n' for key, value in pairs if value)


def look_at_bucket(known, bucket, report):
    """Reports whether a station's own settings have the bucket that its console has now."""
    own = stations.Buckets(known.bucket, known.bucket_changes).on(date.today())
    if not bucket or own == bucket:
        return
    if own is None:
        report.trouble(f'{known.environment} has no BUCKET: add the line BUCKET={bucket}')
        return
    report.trouble(f'{known.environment} has {own} for a click of rain, and the console has {bucket}. If the bucket was changed,\n'
                   f'  keep BUCKET={known.bucket}, and add the day of the change: BUCKET_FROM=YYYY-MM-DD {bucket}\n'
                   '  Else correct the line.')


def look_at_environment(station, chosen, zone, bucket, report):
    """Writes NAME.env, or compares the one that is there with the console and the words."""
    if not os.path.exists(station.environment):
        write_new(station.environment, environment_text(station, chosen, zone, bucket), report)
        return
    report.found(f'Kept as it is: {station.environment}')
    try:
        known = stations.read_station(station.name, os.path.dirname(station.environment))
    except stations.StationFault as fault:
        report.trouble(str(fault))
        return
    wanted = [('ADDRESS=', station.address), ('DEVICE=', station.device), ('TZ=', zone), ('TITLE=', chosen.title),
              ('UNITS=', chosen.units)]
    found = {f'{key}=': value for key, value in known.keys.items()}
    compare(station.environment, [pair for pair in wanted if pair[1]], found, report)
    look_at_bucket(known, chosen.bucket or bucket, report)
