"""The table `archive` of WeeWX's databases: its columns with their types, in their order.

Source: `schemas/wview_extended.py` of WeeWX 4 and 5 (in WeeWX 5 `src/schemas/`), and `schemas/wview.py` of WeeWX 3, written down
from knowledge of them. WeeWX itself was not at hand: neither was compared with its files.
"""
TABLE = 'archive'
KEYS = (('dateTime', 'INTEGER NOT NULL UNIQUE PRIMARY KEY'), ('usUnits', 'INTEGER NOT NULL'), ('interval', 'INTEGER NOT NULL'))
KEY_NAMES = tuple(name for name, _ in KEYS)
VALUE = 'REAL'
DAY_TABLES = 'archive_day_'  # what the names of its daily summaries begin with


def numbered(name, count):
    """Columns of one kind, with rising numbers."""
    return [f'{name}{number}' for number in range(1, count + 1)]


WVIEW_EXTENDED = (
    'altimeter', 'appTemp', 'appTemp1', 'barometer', *numbered('batteryStatus', 8), 'cloudbase', 'co', 'co2',
    'consBatteryVoltage', 'dewpoint', 'dewpoint1', 'ET', *numbered('extraHumid', 8), *numbered('extraTemp', 8), 'forecast',
    'hail', 'hailBatteryStatus', 'hailRate', 'heatindex', 'heatindex1', 'heatingTemp', 'heatingVoltage', 'humidex', 'humidex1',
    'inDewpoint', 'inHumidity', 'inTemp', 'inTempBatteryStatus', 'leafTemp1', 'leafTemp2', 'leafWet1', 'leafWet2',
    'lightning_distance', 'lightning_disturber_count', 'lightning_energy', 'lightning_noise_count', 'lightning_strike_count',
    'luminosity', 'maxSolarRad', 'nh3', 'no2', 'noise', 'o3', 'outHumidity', 'outTemp', 'outTempBatteryStatus', 'pb', 'pm10_0',
    'pm1_0', 'pm2_5', 'pressure', 'radiation', 'rain', 'rainBatteryStatus', 'rainRate', 'referenceVoltage', 'rxCheckPercent',
    *numbered('signal', 8), 'snow', 'snowBatteryStatus', 'snowDepth', 'snowMoisture', 'snowRate', 'so2',
    *numbered('soilMoist', 4), *numbered('soilTemp', 4), 'supplyVoltage', 'txBatteryStatus', 'UV', 'uvBatteryStatus',
    'windBatteryStatus', 'windchill', 'windDir', 'windGust', 'windGustDir', 'windrun', 'windSpeed',
)
WVIEW = (
    'barometer', 'pressure', 'altimeter', 'inTemp', 'outTemp', 'inHumidity', 'outHumidity', 'windSpeed', 'windDir', 'windGust',
    'windGustDir', 'rainRate', 'rain', 'dewpoint', 'windchill', 'heatindex', 'ET', 'radiation', 'UV', *numbered('extraTemp', 3),
    *numbered('soilTemp', 4), *numbered('leafTemp', 2), *numbered('extraHumid', 2), *numbered('soilMoist', 4),
    *numbered('leafWet', 2), 'rxCheckPercent', 'txBatteryStatus', 'consBatteryVoltage', 'hail', 'hailRate', 'heatingTemp',
    'heatingVoltage', 'supplyVoltage', 'referenceVoltage', 'windBatteryStatus', 'rainBatteryStatus', 'outTempBatteryStatus',
    'inTempBatteryStatus',
)


def create_statement(columns):
    """The statement that makes the table with these columns of values."""
    parts = [*KEYS, *((name, VALUE) for name in columns)]
    return f'CREATE TABLE {TABLE} ({", ".join(f"`{name}` {kind}" for name, kind in parts)})'
