#!/usr/bin/python3
"""Tries what rows.py, export.py, units.py and chart.py make of each field, in both systems of units, and what they refuse.

    tools/checks/try_fields.py

What is expected was worked out by hand, and stands in field_values.py. The last line is 'N passed, M failed', and the status
is 1 if any failed. Without matplotlib no chart is tried, which is reported.
"""
import csv
import os
import re
import resource
import subprocess
import sys
from datetime import datetime
from pathlib import Path

sys.dont_write_bytecode = True  # nothing is left beside the scripts

import rooms  # first: the imports below are of other rooms too
import field_values
import rows as row_lines
import svg_text
import units
from field_values import LINES, MINUTES, NAMES, STAMPS, hold_values
from trying import Differs, LeftOut, hold, try_all

TOOLS = Path(__file__).resolve().parent.parent
PROGRAM = os.devnull  # these tools read row lines alone
TABLE, CONFIGURATION = 'table.csv', 'table.conf'
ZONE = 'Etc/GMT-1'  # one hour ahead of UTC
TIMES = ('2024-02-03T03:05:00Z', '2024-02-03T03:15:00Z', '2024-02-03T03:45:00Z')
EPOCHS = ('1706929500', '1706930100', '1706931900')  # by `date -d TIME +%s`
DIRECTIONS = ('N', 'NNE', 'NE', 'ENE', 'E', 'ESE', 'SE', 'SSE', 'S', 'SSW', 'SW', 'WSW', 'W', 'WNW', 'NW', 'NNW')
CUT = 'the report is cut: its last line has no line feed: row 2024-07-01 00:05 5 outTemp=65'
FULL_BYTES = 2048  # of a file on a disk that is full

# The panels of a chart: their titles with the signs of their units, and the fields of their lines.
SIGNS = {'AS_IT_IS': ('°F', '%', 'inHg', 'mph', 'in'), 'METRIC': ('°C', '%', 'hPa', 'm/s', 'mm')}
TITLES = ('Temperature', 'Humidity', 'Pressure', 'Wind', 'Rain')
DRAWN = ({'outside': 'outTemp'}, {'': 'outHumidity'}, {'': 'barometer'}, {'gust': 'windGust', 'wind': 'windSpeed'}, {})


def run(folder, tool, lines, *words, **options):
    """Runs a tool on row lines; gives its status, and what it printed of trouble."""
    ran = subprocess.run([TOOLS / 'product' / tool, *words], input=lines, capture_output=True, text=True, cwd=folder, check=False, **options)
    return ran.returncode, ran.stdout + ran.stderr


def export(folder, *words):
    """Exports the three rows; gives the lines of the table and the sections of the configuration."""
    hold('an export', run(folder, 'export.py', ''.join(LINES), *words, TABLE), (0, ''))
    with open(folder / TABLE, encoding='utf-8', newline='') as file:
        table = list(csv.DictReader(file))
    return table, sections((folder / CONFIGURATION).read_text(encoding='utf-8'))


def sections(text):
    """The keys of a configuration with their values. A section is a dictionary, whose depth its brackets tell."""
    open_sections = [{}]
    for line in text.splitlines():
        line = line.strip()
        head = re.fullmatch(r'(\[+)([^][]+)(\]+)', line)
        if head:
            hold(f'the brackets of {line}', len(head[3]), len(head[1]))
            del open_sections[len(head[1]):]
            open_sections.append(open_sections[-1].setdefault(head[2], {}))
        elif line and not line.startswith('#'):
            key, value = line.split(' = ', 1)
            hold(f'another {key}', key in open_sections[-1], False)
            open_sections[-1][key] = value
    return open_sections[0]


def rows_of_all_fields(_):
    """Row lines become values in the units of the fields, by each bucket."""
    for bucket in field_values.FIELDS:
        rows = row_lines.read_rows(LINES, row_lines.Buckets(bucket))
        hold('the stamps', [f'{row.stamp:%Y-%m-%d %H:%M}' for row in rows], [*STAMPS])
        hold('the minutes', [row.interval.total_seconds() / 60 for row in rows], [*MINUTES])
        seen = {name: tuple(row.values.get(name) for row in rows) for name in NAMES}
        hold_values(f'rows of {bucket}', seen, field_values.values(bucket))
    hold('the fields', list(row_lines.FIELDS), NAMES)


def table_of_all_fields(program):
    """The table has each field in its unit, by each bucket, with the stamp, its time and the minutes of each row."""
    for bucket in field_values.FIELDS:
        table, _ = export(program.folder, '--bucket', bucket, '--zone', ZONE)
        heads = {name: f'{name} ({worked.units[0]})' for name, worked in field_values.FIELDS[bucket].items()}
        hold('its heads', [*table[0]], ['stamp', 'time (UTC)', 'time (unix_epoch)', 'interval (minute)', *heads.values()])
        hold('its stamps', [line['stamp'] for line in table], [*STAMPS])
        hold('its times', [line['time (UTC)'] for line in table], [*TIMES])
        hold('its seconds', [line['time (unix_epoch)'] for line in table], [*EPOCHS])
        hold('its minutes', [line['interval (minute)'] for line in table], [*map(str, MINUTES)])
        seen = {name: tuple(float(line[head]) if line[head] else None for line in table) for name, head in heads.items()}
        rounded = {name: tuple(None if value is None else round(value, 6) for value in of_field)
                   for name, of_field in field_values.values(bucket).items()}
        hold_values(f'a table of {bucket}', seen, rounded)
        for name in (TABLE, CONFIGURATION):
            (program.folder / name).unlink()


def wanted_configuration(folder, stamp, names, has_sun):
    """What the configuration has to say of a table of some fields, whose rows have this stamp."""
    worked = {name: field_values.FIELDS['0.01in'][name] for name in names}
    entries = {'dateTime': (stamp, 'unix_epoch'), 'interval': ('interval (minute)', 'minute')}
    entries |= {one.weewx: (f'{name} ({one.units[0]})', one.units[0]) for name, one in worked.items() if one.weewx}
    return {'source': 'CSV', 'CSV': {
        'file': f'"{folder / TABLE}"', 'source_encoding': 'utf-8', 'delimiter': "','", 'interval': 'derive', 'qc': 'True',
        'calc_missing': 'True', 'raw_datetime_format': '%Y-%m-%d %H:%M', 'UV_sensor': has_sun, 'solar_sensor': has_sun,
        'FieldMap': {name: {'source_field': source, 'unit': unit} for name, (source, unit) in entries.items()}}}


def hold_nested(what, seen, wanted):
    """Holds dictionaries within dictionaries key by key against those that are wanted."""
    for key in {**wanted, **seen}:
        one, other = seen.get(key), wanted.get(key)
        if isinstance(one, dict) and isinstance(other, dict):
            hold_nested(f'{what} {key}', one, other)
        else:
            hold(f'{what} {key}', one, other)


def configuration_of_all_fields(program):
    """The configuration names each column with its unit, and how a stamp is read; with a zone the seconds are taken."""
    for stamp, words in (('stamp', ()), ('time (unix_epoch)', ('--zone', ZONE))):
        table, seen = export(program.folder, *words)
        hold_nested('weather.conf', seen, wanted_configuration(program.folder, stamp, NAMES, 'True'))
        form = seen['CSV']['raw_datetime_format']
        hold('the stamps by that form', [datetime.strptime(line['stamp'], form) for line in table],
             [datetime.fromisoformat(one) for one in STAMPS])
        for name in (TABLE, CONFIGURATION):
            (program.folder / name).unlink()
    hold('a row', run(program.folder, 'export.py', 'row 2024-02-03 04:05 5 rain=1\n', TABLE), (0, ''))
    seen = sections((program.folder / CONFIGURATION).read_text(encoding='utf-8'))
    hold_nested('weather.conf', seen, wanted_configuration(program.folder, 'stamp', ['rain'], 'False'))


def directions(_):
    """The sixteen codes of a direction go from north by east, as degrees and as names."""
    degrees = [row_lines.value_of('windDir', code, '0.01in') for code in range(16)]
    hold('the degrees', degrees, [22.5 * code for code in range(16)])
    hold('their names', tuple(map(units.Units(False, row_lines.Buckets()).direction, degrees)), DIRECTIONS)


def reports_that_are_cut(program):
    """A report whose last line has no line feed is refused, since its last digits may be gone."""
    line = 'row 2024-07-01 00:05 5 outTemp=65'
    hold('an export', run(program.folder, 'export.py', line, TABLE), (1, f'export: {CUT}\n'))
    hold('what is there', os.listdir(program.folder), [])
    for cut in (line, 'row 2024-07-01 00:05 5 outTemp=651\n' + line):
        try:
            row_lines.read_rows(cut.splitlines(keepends=True), row_lines.Buckets())
        except row_lines.NotRows as reason:
            hold('the reason', str(reason), CUT)
        else:
            raise Differs(f'rows of {cut!r}')


def fill_disk():
    """Lets no file of a process that begins grow beyond some bytes, as a disk that is full."""
    resource.setrlimit(resource.RLIMIT_FSIZE, (FULL_BYTES, FULL_BYTES))


def disks_that_are_full(program):
    """If the table or the configuration cannot be written whole, nothing of either is left."""
    for what, lines in (('table', [LINES[0].replace('04:05', f'04:{minute}') for minute in range(10, 40)]),
                        ('configuration', LINES[:1])):
        hold(f'a {what} that has no room', run(program.folder, 'export.py', ''.join(lines), TABLE, preexec_fn=fill_disk),
             (1, 'export: [Errno 27] File too large\n'))
        hold(f'what is left of a {what}', os.listdir(program.folder), [])
    hold('one that has room', run(program.folder, 'export.py', 'row 2024-07-01 00:05 5 rain=1\n', TABLE, preexec_fn=fill_disk),
         (0, ''))
    hold('what is there', sorted(os.listdir(program.folder)), [CONFIGURATION, TABLE])
    hold('the mode of a table', oct((program.folder / TABLE).stat().st_mode & 0o777), oct(0o666 & ~umask()))


def umask():
    """The mask of this process."""
    mask = os.umask(0)
    os.umask(mask)
    return mask


def rows_of_two_archives(program):
    """The reports of two archives, one behind the other, are the rows of both in order, each stamp once."""
    lines = [f'row 2024-07-01 00:{minute:02} 5 outTemp={600 + minute}\n' for minute in (5, 10, 15)]
    later = [lines[2].replace('=615', '=700'), 'row 2024-07-01 00:20 5 outTemp=620\n']
    hold('an export', run(program.folder, 'export.py', ''.join([*lines, *later]), TABLE), (0, ''))
    hold('its rows', (program.folder / TABLE).read_text().splitlines()[1:], [
        '2024-07-01 00:05,5,60.5', '2024-07-01 00:10,5,61', '2024-07-01 00:15,5,70', '2024-07-01 00:20,5,62'])
    (program.folder / TABLE).unlink()
    (program.folder / CONFIGURATION).unlink()
    hold('the later one first', run(program.folder, 'export.py', ''.join([*later, *lines[:2]]), TABLE), (0, ''))
    hold('its stamps', [line[:16] for line in (program.folder / TABLE).read_text().splitlines()[1:]],
         [f'2024-07-01 00:{minute:02}' for minute in (5, 10, 15, 20)])


def chart_module():
    """The module of charts, if its library is here."""
    try:
        import chart
    except SystemExit:
        raise LeftOut('python3-matplotlib is missing') from None
    return chart


def texts(numbers):
    """Values as they are compared: with three digits behind the point, or none."""
    return ['none' if number is None or number != number else f'{number:.3f}' for number in numbers]


def lines_of(axes):
    """The lines of a panel by their names, without the dots of lone values."""
    drawn = [line for line in axes.get_lines() if line.get_linestyle() != 'None']
    return {'' if line.get_label().startswith('_') else line.get_label(): texts(line.get_ydata()) for line in drawn}


def band_of(axes):
    """The least and the greatest height of the filled area of a panel at each of its places, in order."""
    heights = {}
    for path in (path for area in axes.collections for path in area.get_paths()):
        for place, height in path.vertices:
            heights.setdefault(place, []).append(height)
    return [(min(heights[place]), max(heights[place])) for place in sorted(heights)]


def charts_of_all_fields(_):
    """A chart draws each of its fields in its unit, in either system: lines, the band of extremes, and bars of rain."""
    chart = chart_module()
    for system, worked in (('AS_IT_IS', field_values.values), ('METRIC', field_values.metric_values)):
        for bucket in field_values.FIELDS:
            wanted = worked(bucket)
            axes = chart.Picture(row_lines.read_rows(LINES, row_lines.Buckets(bucket)), getattr(units, system)).figure().axes
            hold('the panels', [one.get_ylabel() for one in axes],
                 [f'{title}\n{sign}' for title, sign in zip(TITLES, SIGNS[system])])
            for title, sign, one, fields in zip(TITLES, SIGNS[system], axes, DRAWN):
                hold(f'{title} in {sign}', lines_of(one), {name: texts(wanted[field]) for name, field in fields.items()})
            hold(f'the band of {SIGNS[system][0]}', [texts(pair) for pair in band_of(axes[0])],
                 [texts(pair) for pair in zip(wanted['lowOutTemp'], wanted['highOutTemp'])])
            hold(f'the rain of {bucket} in {SIGNS[system][-1]}', texts(band_of(axes[-1])[0]), texts((0, wanted['rain'][0])))


def bars_of_rain(_):
    """Rain has a bar for each row; over more than two days one for each hour, and over more than sixty days one for each day."""
    chart = chart_module()
    begin = '2024-07-01 10:00'
    lines = [f'row 2024-07-01 {10 + minute // 60}:{minute % 60:02} 5 rain=1\n' for minute in range(5, 75, 5)]
    for last, title, wanted in (('2024-07-01 11:15', 'Rain', {begin: '0.010', '2024-07-01 11:05': '0.010'}),
                                ('2024-07-04 11:15', 'Rain an hour', {begin: '0.120', '2024-07-01 11:00': '0.020'}),
                                ('2024-09-04 11:15', 'Rain a day', {'2024-07-01 00:00': '0.140'})):
        rows = row_lines.read_rows([*lines, f'row {last} 5 rain=0\n'], row_lines.Buckets())
        picture = chart.Picture(rows, units.AS_IT_IS)
        bars, ending = picture.bars_of('rain')
        heights = {f'{stamp:%Y-%m-%d %H:%M}': f'{height:.3f}' for stamp, (height, _) in bars.items()}
        hold(f'the title up to {last}', picture.words[f'rain{ending}'], title)
        hold(f'the bars up to {last}', {stamp: heights.get(stamp) for stamp in wanted}, wanted)


def chart_that_is_cut(program):
    """A chart of a report that is cut is refused."""
    chart_module()
    hold('a chart', run(program.folder, 'chart.py', 'row 2024-07-01 00:05 5 outTemp=65', 'chart.svg'), (1, f'chart: {CUT}\n'))
    hold('what is there', os.listdir(program.folder), [])


def charts_on_a_full_disk(program):
    """If a picture cannot be written whole, the one before stays as it is, and nothing else is left."""
    chart_module()
    for name in ('chart.svg', 'chart.png'):
        program.write(name, 'the one before')
        ended = run(program.folder, 'chart.py', LINES[0], name, preexec_fn=fill_disk)
        hold(f'a {name} that has no room', ended, (1, 'chart: [Errno 27] File too large\n'))
        hold(f'the {name} before', program.read(name), b'the one before')
    hold('what is there', sorted(os.listdir(program.folder)), ['chart.png', 'chart.svg'])
    os.symlink('chart.svg', program.folder / 'link.svg')
    hold('a chart by a link', run(program.folder, 'chart.py', LINES[0], 'link.svg'), (0, ''))
    hold('what the link names', program.read('chart.svg')[:5], b'<svg ')
    hold('the mode of a chart', oct((program.folder / 'chart.svg').stat().st_mode & 0o777), oct(0o666 & ~umask()))


def paths_of_pictures(_):
    """A path keeps its places, to a tenth of a point."""
    hold('a path', svg_text.PATH.sub(svg_text.short_path, ' d="M 10.04 20.06 \nL 11.16 20.06 \nL 9.96 18.96 \nz\n"'),
         ' d="M10 20.1l1.2 0-1.2-1.1 z"')


CASES = (rows_of_all_fields, table_of_all_fields, configuration_of_all_fields, directions, reports_that_are_cut,
         disks_that_are_full, rows_of_two_archives, charts_of_all_fields, bars_of_rain, chart_that_is_cut,
         charts_on_a_full_disk, paths_of_pictures)
AT_ONCE = 2

if __name__ == '__main__':
    sys.exit(try_all([*sys.argv, PROGRAM], __doc__, CASES, AT_ONCE))
