"""Databases with the columns of WeeWX, and runs of weewx.py over them, for the trials of weewx.py."""
import sqlite3
import subprocess
from contextlib import closing
from datetime import datetime, timedelta, timezone
from pathlib import Path

import field_values
from trying import hold

TOOLS = Path(__file__).resolve().parent.parent
ZONE = '<+01>-1'  # one hour ahead of UTC
DATABASE, ARCHIVE = 'weewx.sdb', 'rows'
FIRST = 1_720_000_200  # a full minute of July 2024
BUCKET = '0.01in'
COLUMNS = '''altimeter appTemp appTemp1 barometer batteryStatus1..8 cloudbase co co2 consBatteryVoltage dewpoint dewpoint1 ET
    extraHumid1..8 extraTemp1..8 forecast hail hailBatteryStatus hailRate heatindex heatindex1 heatingTemp heatingVoltage humidex
    humidex1 inDewpoint inHumidity inTemp inTempBatteryStatus leafTemp1..2 leafWet1..2 lightning_distance
    lightning_disturber_count lightning_energy lightning_noise_count lightning_strike_count luminosity maxSolarRad nh3 no2 noise
    o3 outHumidity outTemp outTempBatteryStatus pb pm10_0 pm1_0 pm2_5 pressure radiation rain rainBatteryStatus rainRate
    referenceVoltage rxCheckPercent signal1..8 snow snowBatteryStatus snowDepth snowMoisture snowRate so2 soilMoist1..4
    soilTemp1..4 supplyVoltage txBatteryStatus UV uvBatteryStatus windBatteryStatus windchill windDir windGust windGustDir
    windrun windSpeed'''
OLD_COLUMNS = '''barometer pressure altimeter inTemp outTemp inHumidity outHumidity windSpeed windDir windGust windGustDir rainRate
    rain dewpoint windchill heatindex ET radiation UV extraTemp1..3 soilTemp1..4 leafTemp1..2 extraHumid1..2 soilMoist1..4
    leafWet1..2 rxCheckPercent txBatteryStatus consBatteryVoltage hail hailRate heatingTemp heatingVoltage supplyVoltage
    referenceVoltage windBatteryStatus rainBatteryStatus outTempBatteryStatus inTempBatteryStatus'''
LOST = {name for name, worked in field_values.FIELDS['0.01in'].items() if not worked.weewx}

PRINTS = '''#!/bin/sh
[ -e "$2" ] || { echo 'disk fault'; exit 7; }
awk -v first="$4" '$2 >= first || $1 != "row"' "$2" | if [ -e cutting ]; then head -c -1; else cat; fi
[ ! -e refused ] || { echo 'damaged at 352'; exit 11; }
'''


def names_of(text):
    """The names of a list of columns."""
    for word in text.split():
        name, _, last = word.partition('1..')
        yield from [f'{name}{number}' for number in range(1, int(last) + 1)] if last else [name]


def run(program, *words, **options):
    """Runs the tool in a case's folder; gives its status, and what it printed on both outputs."""
    for option, value in (('--zone', ZONE), ('--bucket', BUCKET)):
        if option not in words and '--station' not in words:
            words = (*words, option, value)
    ran = subprocess.run([TOOLS / 'product/weewx.py', *words], cwd=program.folder, capture_output=True, text=True, check=False, **options)
    return ran.returncode, ran.stdout, ran.stderr


def rows(program, *words, **options):
    """Prints the rows of the database of a case; gives its status, lines and troubles."""
    status, printed, told = run(program, 'rows', DATABASE, *words, **options)
    return status, printed.splitlines(keepends=True), told


def fill(program, lines, *words):
    """Writes row lines into the database of a case; gives the status and what was told."""
    program.write(ARCHIVE, ''.join(lines))
    program.write('prints', PRINTS)
    (program.folder / 'prints').chmod(0o755)
    status, printed, told = run(program, 'database', DATABASE, '--archive', ARCHIVE, '--program', './prints', *words)
    hold('what is printed', printed, '')
    return status, told


def link_to(program, name=DATABASE):
    """A link to a database of a case."""
    return closing(sqlite3.connect(program.folder / name, isolation_level=None))


def make_table(program, columns, entries, name=DATABASE):
    """Makes a database with these columns of WeeWX and these rows, whose keys are the time, the units and the interval."""
    kinds = ['dateTime INTEGER NOT NULL UNIQUE PRIMARY KEY', 'usUnits INTEGER NOT NULL', '`interval` INTEGER NOT NULL']
    with link_to(program, name) as link:
        link.execute(f'CREATE TABLE archive ({", ".join([*kinds, *(f"{column} REAL" for column in names_of(columns))])})')
        link.execute('BEGIN')
        for moment, system, minutes, values in entries:
            link.execute(f'INSERT INTO archive ({", ".join(["dateTime", "usUnits", "`interval`", *values])}) '
                         f'VALUES (?, ?, ?{", ?" * len(values)})', [moment, system, minutes, *values.values()])
        link.execute('COMMIT')


def values_in(program, *columns):
    """The rows of a database."""
    with link_to(program) as link:
        return link.execute(f'SELECT {", ".join(columns)} FROM archive ORDER BY dateTime').fetchall()


def stamp(moment):
    """The stamp of a moment by a clock of the zone."""
    return f'{datetime.fromtimestamp(moment, timezone(timedelta(hours=1))):%Y-%m-%d %H:%M}'


def without(line, names):
    """A row line without some fields."""
    return ' '.join(word for word in line.rstrip('\n').split(' ') if word.split('=')[0] not in names) + '\n'
