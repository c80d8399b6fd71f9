"""What a station's page shows of the last row and its day, in words and as data."""
import json
from datetime import date, datetime, timedelta, timezone
from typing import NamedTuple

import derived
import rows as row_lines
from climate_tables import greatest, least

DAY, HOUR, MINUTE = timedelta(days=1), timedelta(hours=1), timedelta(minutes=1)
TREND = timedelta(hours=3)
PERIODS_TO_OLD = 3  # a row that is older than so many of its periods is marked
UNITS_OF_DATA = {'degree_compass': '°', 'count': ''}

# The lines of the last row: a field, and the fields of the day's extremes. The first ones are shown without a value too.
ALWAYS = (
    ('outTemp', ('lowOutTemp', 'outTemp'), ('highOutTemp', 'outTemp')),
    ('outHumidity', ('outHumidity',), ('outHumidity',)),
    ('barometer', ('barometer',), ('barometer',)),
    ('windSpeed', ('windSpeed',), ('windSpeed',)),
    ('windGust', ('windGust',), ('windGust',)),
)
WITH_VALUES = (
    ('highRainRate', ('highRainRate',), ('highRainRate',)),
    ('radiation', ('radiation',), ('highRadiation', 'radiation')),
    ('UV', ('UV',), ('highUV', 'UV')),
)
INSIDE = (('inTemp', ('inTemp',), ('inTemp',)), ('inHumidity', ('inHumidity',), ('inHumidity',)))
PROBES = {'soilTemp': 4, 'soilMoist': 4, 'leafTemp': 2, 'leafWet': 2}  # how many there may be of each
GROWING = tuple((f'{name}{number}', (f'{name}{number}',), (f'{name}{number}',))
                for name, count in PROBES.items() for number in range(1, count + 1))


class NowLine(NamedTuple):
    """A line of the last row, as text."""
    title: str
    sign: str
    value: str
    beside: str  # where a wind comes from
    change: str
    low: str
    low_at: str
    high: str
    high_at: str


class Sums(NamedTuple):
    """What fell or rose in the day, the month and the year."""
    caption: str
    lines: list


class Now(NamedTuple):
    """What is shown of the last row."""
    stamp: datetime
    age: str
    due: datetime | None  # when a later row was due, if the row is old
    day: date
    lines: list
    growing: list
    has_derived: bool
    sums: list


class Seen(NamedTuple):
    """What the page knows: the rows of some days, the summaries of days and months, and the archive's first day."""
    rows: list
    days: dict
    months: dict
    first_day: date


def age_text(stamp, made, texts):
    """How old a row is, in words."""
    words, minutes = texts['page'], (made - stamp) // MINUTE
    if abs(minutes) == 1:
        return words['one_minute_ahead' if minutes < 0 else 'one_minute_old']
    if minutes < 0:
        return words['minutes_ahead'].format(count=-minutes)
    if minutes < 2 * HOUR // MINUTE:
        return words['minutes_old'].format(count=minutes)
    if minutes < 2 * DAY // MINUTE:
        return words['hours_old'].format(count=minutes * MINUTE // HOUR)
    return words['days_old'].format(count=(made - stamp).days)


def is_old(row, made):
    """Whether a row is older than three of its periods."""
    return made - row.stamp > PERIODS_TO_OLD * row.interval


def row_before(rows, span):
    """The row so long before the last one, if there is one."""
    wanted = rows[-1].stamp - span
    return next((row for row in reversed(rows) if row.stamp == wanted), None)


def wind_words(values, name, units):
    """Where the wind of a row comes from, beside its speed."""
    if name != 'windSpeed' or not values.get(name) or 'windDir' not in values:
        return ''
    return units.texts['page']['from'].format(direction=units.direction(values['windDir']))


def time_text(stamp):
    """The time of a stamp, if there is one."""
    return f'{stamp:%H:%M}' if stamp else ''


def title_of(name, units):
    """The title of a line: one of several probes has its number."""
    lines = units.texts['lines']
    return lines[name] if name in lines else lines[name[:-1]].format(number=name[-1])


def now_line(rows, fields, units, words):
    """A line of the last row."""
    name, lowest, highest = words
    values, before = rows[-1].values, row_before(rows, TREND)
    low, low_at = least(fields, *lowest)
    high, high_at = greatest(fields, *highest)
    return NowLine(title_of(name, units), units.sign(name), units.text(name, values.get(name)), wind_words(values, name, units),
                   units.change(name, values.get(name), before and before.values.get(name)),
                   units.counted(name, low), time_text(low_at), units.counted(name, high), time_text(high_at))


def derived_line(name, rows, day, units):
    """The line of a value that the page works out, if any row of the day has it."""
    found = [(derived.derived_of(name, row.values), row.stamp) for row in rows if row_lines.day_of(row.stamp) == day]
    there = [(value, stamp) for value, stamp in found if value is not None]
    if not there:
        return None
    low, low_at = min(there, key=lambda pair: pair[0])
    high, high_at = max(there, key=lambda pair: pair[0])
    value, before = found[-1][0], row_before(rows, TREND)
    return NowLine(title_of(name, units), units.sign('outTemp'), units.text('outTemp', value), '',
                   units.change('outTemp', value, before and derived.derived_of(name, before.values)),
                   units.text('outTemp', low), time_text(low_at), units.text('outTemp', high), time_text(high_at))


def sum_of(fields, name):
    """The sum of a field, if it has values."""
    return fields[name].sum if name in fields else None


def sums_of(name, caption, seen, day, units):
    """The sums of a field by day, month and year; the titles say from when on there are rows."""
    texts, months = units.texts, seen.months
    of_year = [sum_of(fields, name) for title, fields in months.items() if title.startswith(f'{day.year}-')]
    year = sum(one for one in of_year if one is not None) if any(one is not None for one in of_year) else None
    spans = ((day.replace(day=1), texts.months[day.month - 1],
              sum_of(months.get(f'{day:%Y-%m}', {}), name)), (date(day.year, 1, 1), str(day.year), year))
    lines = [(texts.day(day), units.counted(name, sum_of(seen.days.get(day.isoformat(), {}), name)))]
    lines += [(texts.since(title, seen.first_day) if first < seen.first_day else title, units.counted(name, amount))
              for first, title, amount in spans]
    return Sums(texts['page'][caption].format(unit=units.sign(name)), lines)


def has_evaporation(seen):
    """Whether anything evaporated: a console without the sensor reports 0."""
    return any(sum_of(fields, 'ET') for fields in seen.months.values())


def now_of(seen, units, made, has_inside=False):
    """What is shown of the last row, by the summaries of its day and of the months."""
    rows, last = seen.rows, seen.rows[-1]
    day = row_lines.day_of(last.stamp)
    fields = seen.days.get(day.isoformat(), {})
    chosen = [*ALWAYS, *(words for words in (*WITH_VALUES, *(INSIDE if has_inside else ())) if words[0] in fields)]
    worked_out = list(filter(None, (derived_line(name, rows, day, units) for name in derived.DERIVED)))
    sums = [sums_of('rain', 'rain_in', seen, day, units)]
    if has_evaporation(seen):
        sums.append(sums_of('ET', 'evaporation_in', seen, day, units))
    return Now(last.stamp, age_text(last.stamp, made, units.texts), last.stamp + last.interval if is_old(last, made) else None, day,
               [now_line(rows, fields, units, words) for words in chosen] + worked_out,
               [now_line(rows, fields, units, words) for words in GROWING if words[0] in fields], bool(worked_out), sums)


def utc_text(stamp, zone):
    """A moment in UTC, by what the console's clock shows."""
    moment = stamp.replace(tzinfo=zone) if zone else stamp
    return f'{moment.astimezone(timezone.utc):%Y-%m-%dT%H:%M:%SZ}'


def field_of_data(name, value, units):
    """A field of the last row as data: a number with its unit."""
    unit = row_lines.unit_of(name)
    if unit in UNITS_OF_DATA:
        return {'value': value, 'unit': UNITS_OF_DATA[unit]}
    return {'value': units.number(name, value), 'unit': units.sign(name)}


def data_of(row, units, station, zone):
    """The last row as data, for programs: its time in UTC, and each field with its unit."""
    fields = {name: field_of_data(name, value, units) for name, value in row.values.items()}
    worked_out = {name: derived.derived_of(name, row.values) for name in derived.DERIVED}
    fields |= {name: field_of_data('outTemp', value, units) | {'derived': True}
               for name, value in worked_out.items() if value is not None}
    return json.dumps({'station': station, 'time': utc_text(row.stamp, zone), 'minutes': row.interval // MINUTE,
                       'fields': fields}, ensure_ascii=False, indent=1) + '\n'
