#!/usr/bin/python3
"""Tries what a page shows and keeps beside its tables: old rows, young archives, derived values, panels by what has values, winds
of long spans, languages, the last row as data, and which files of its folder it touches.

    tools/checks/try_page_views.py PROGRAM

A script of the model is in the program's place. What is expected was worked out by hand or stands in the sources of derived.py.
The last line is 'N passed, M failed', and the status is 1 if any failed.
"""
import json
import os
import re
import subprocess
import sys
from contextlib import contextmanager
from datetime import datetime, timedelta

sys.dont_write_bytecode = True  # nothing is left beside the scripts

import rooms  # first: the imports below are of other rooms too
from made_pages import (ARCHIVE, FOLDER, GROWERS, INDEX, PERIOD, TOOLS, Texts, Units, make, make_tables, made, now_of, page, page_charts,
                        page_now, row_at, row_lines, rows_from, seen, served, table, values_read)
from stand_in import write_archive
from trying import hold, need, try_all
from try_fields import band_of, lines_of, texts

import derived
import page_texts

FIRST = '2024-07-01 00:05'
METRIC = Units(True, row_lines.Buckets())
US = Units(False, row_lines.Buckets())

# By the charts of the National Weather Service for wind chill and heat index, in whole degrees Fahrenheit.
CHILLS = (((0, 15), -19), ((40, 5), 36), ((-45, 60), -98), ((30, 10), 21), ((20, 20), 4))
HEATS = (((100, 50), 118), ((96, 40), 101), ((110, 40), 136), ((86, 50), 88), ((88, 60), 95), ((94, 60), 110), ((80, 50), 81))
# By tables of dew points, in degrees Celsius.
DEW_POINTS = (((20, 50), 9.3), ((30, 80), 26.2), ((25, 60), 16.7), ((0, 100), 0.0), ((-10, 80), -12.8))
# The texts that are the same in both languages.
ALIKE = ['month_of_year', 'lines.windSpeed', 'charts.wind', 'charts.evaporation', 'climate.wind']
GROWERS_PANELS = ['sun', 'uv', 'evaporation', 'soil', 'moisture', 'leaf', 'wetness']


def formulas(_):
    """The derived values are those of the published charts, and there is none where a formula does not hold."""
    for (warmth, mph), wanted in CHILLS:
        hold(f'the wind chill of {warmth} and {mph}', round(derived.wind_chill(warmth, mph)), wanted)
    for (warmth, humidity), wanted in HEATS:
        hold(f'the heat index of {warmth} and {humidity}', round(derived.heat_index(warmth, humidity)), wanted)
    for (celsius, humidity), wanted in DEW_POINTS:
        point = (derived.dew_point(celsius * 1.8 + 32, humidity) - 32) / 1.8
        hold(f'the dew point of {celsius} and {humidity}', round(point, 1) + 0.0, wanted)
    hold('the adjustment of dry air', round(derived.heat_index(95, 5) - derived.regression(95, 5), 9), -2.0)
    hold('the adjustment of damp air', round(derived.heat_index(80, 100) - derived.regression(80, 100), 9), 2.1)
    hold('that of dry air which is hotter', round(derived.heat_index(100, 5) - derived.regression(100, 5), 5), -1.68034)
    hold('the warmest air that has a wind chill', round(derived.wind_chill(50, 5)), 48)
    hold('where there is none', [derived.wind_chill(50.1, 20), derived.wind_chill(40, 3), derived.heat_index(78, 50),
                                 derived.heat_index(80, 40), derived.dew_point(50, 0)], [None] * 5)


def derived_lines(_):
    """What the page works out is shown with its extremes, marked as derived; what no row has is not shown."""
    rows = [row_at('2024-07-01 00:00', outTemp=1050, outHumidity=60),  # of the day before
            row_at('2024-07-01 09:00', outTemp=680, outHumidity=50, windSpeed=9),
            row_at('2024-07-01 12:00', outTemp=1000, outHumidity=50, windSpeed=9)]
    now = now_of(rows)
    lines = {line.title: line for line in now.lines if line.title.endswith('*')}
    hold('the lines', [*lines], ['Dew point*', 'Heat index*'])
    hold('the heat index', lines['Heat index*'][1:], ('°F', '118.3', '', '–', '118.3', '12:00', '118.3', '12:00'))
    hold('the dew point', lines['Dew point*'][1:], ('°F', '78.0', '', '+29.4', '48.7', '09:00', '78.0', '12:00'))
    cold = now_of([row_at(FIRST, outTemp=0, windSpeed=15)], METRIC)
    hold('the wind chill', [(line.title, line.value) for line in cold.lines if '*' in line.title], [('Wind chill*', '−28.6')])
    hold('nothing to work out', now_of([row_at(FIRST, outTemp=600)]).has_derived, False)


def rows_that_are_old(program):
    """A row older than three of its periods is marked, with when a later one was due."""
    write_archive(program.folder / ARCHIVE, [row_at('2024-07-01 12:00', outTemp=600)])
    row = values_read([row_at('2024-07-01 12:00', outTemp=600)])[0]
    for minutes, is_old in ((15, False), (16, True), (-10, False)):
        hold(f'a row {minutes} minutes old', page_now.is_old(row, row.stamp + timedelta(minutes=minutes)), is_old)
    hold('a row of an hour', page_now.is_old(row._replace(interval=timedelta(hours=1)), row.stamp + timedelta(hours=3)), False)
    hold('the making', made(program), (0, ''))
    shown = seen(program)
    hold('its mark', ('p', {'class': 'old'}) in shown.elements, True)
    hold('when a row was due', 'This reading is old: a later one was due at 2024-07-01 12:05.' in shown.text, True)
    hold('the change', 'Past 3 hours' in shown.text, True)
    fresh = f'{datetime.utcnow():%Y-%m-%d %H:%M}'
    write_archive(program.folder / ARCHIVE, [row_at(fresh, outTemp=600)])
    hold('the making', made(program, env=os.environ | {'TZ': 'UTC'}), (0, ''))
    hold('no mark', [tag for tag, attributes in seen(program).elements if attributes.get('class') == 'old'], [])


def lengths_of(span, rows, days_there):
    """The lengths of the charts that are drawn of a span, by how many days there are; none is that of the rows."""
    lengths, draw = [], page_charts.drawn

    def noted(of_span, of_rows, units, panels, length):
        lengths.append(length)
        return draw(of_span, of_rows, units, panels, length)

    page_charts.drawn = noted
    try:
        for count in days_there:
            page_charts.chart_of(span, rows, US, count)
    finally:
        page_charts.drawn = draw
    return lengths


def young_archives(program):
    """A year of 13 days says so, in the title of its chart, of its table and of its rain."""
    rows = [row_at(f'2024-07-{day:02} 12:00', outTemp=600, rain=1) for day in range(3, 16)]
    hold('titles', [page_charts.title_of(span, 13, US) for span in page_charts.SPANS],
         ['Day', 'Week', 'Month: 13 days so far', 'Year: 13 days so far'])
    hold('the title of one day', page_charts.title_of('Week', 1, US), 'Week: 1 day so far')
    of_days = page_charts.chart_of('Year', [row._replace(interval=timedelta(days=1)) for row in values_read(rows)], US, 13)
    hold('the days of its chart', ('2024-07-02 to 2024-07-14' in of_days.svg, of_days.words[:24]), (True, 'Year up to 2024-07-14: t'))
    hold('titles of a year', [page_charts.title_of(span, 365, US) for span in page_charts.SPANS], ['Day', 'Week', 'Month', 'Year'])
    make_tables(program, rows)
    captions = [text for text in re.findall('<caption>(.*?)</caption>', (program.folder / FOLDER / 'climate-2024.html').read_text())]
    hold('captions', captions, ['2024, since 3 July', 'July 2024, since 3 July'])
    hold('the rain', [title for title, _ in now_of(rows).sums[0].lines], ['15 July', 'July, since 3 July', '2024, since 3 July'])
    hold('the lengths of a chart of 13 days, and of one of 31', lengths_of('Month', values_read(rows), (13, 31)),
         [None, timedelta(days=31)])
    picture = page_charts.chart.Picture(values_read(rows), US.shown)
    chart = page_charts.chart_of('Month', values_read(rows), US, 13)
    hold('where its chart begins', chart.svg.count('2024-07-03 12:00 to 2024-07-15 12:00') > 0, True)
    hold('its span', picture.begin, datetime(2024, 7, 3, 11, 55))
    days = [row._replace(interval=timedelta(days=1)) for row in values_read(rows)]
    hold('its rain', page_charts.chart.Picture(days, US.shown).bars_of('rain')[1], '_day')
    hold('a chart of a month that is there', page_charts.chart_of('Month', values_read(rows), US, 31).title, 'Month')


def winds_of_long_spans(_):
    """The wind of more than two days is a line of its means, and a band from there to the strongest gust; of less, two lines."""
    rows = values_read(rows_from(FIRST, 8928, lambda number: {'windSpeed': 4 + 2 * (number % 2), 'windGust': 10 + number % 7}))
    axes = page_charts.chart.Picture(rows, US.shown, panels=['wind'], span=timedelta(days=31)).figure().axes[0]
    lines, band = lines_of(axes), band_of(axes)
    hold('its lines', [*lines], ['wind'])
    hold('its means', {round(float(value), 1) for value in lines['wind']} <= {4.9, 5.0, 5.1}, True)
    hold('its steps', len(lines['wind']), 120)
    hold('its band', {(round(low), high) for low, high in band}, {(5, 16)})
    day = page_charts.chart.Picture(rows[:288], US.shown, panels=['wind'], span=timedelta(days=1)).figure().axes[0]
    hold('the lines of a day', [*lines_of(day)], ['gust', 'wind'])
    for count, wanted in ((2 * 288, ['gust', 'wind']), (2 * 288 + 1, ['wind'])):
        axes = page_charts.chart.Picture(rows[:count], US.shown, panels=['wind']).figure().axes[0]
        hold(f'the lines of {count} rows of five minutes', [*lines_of(axes)], wanted)
    gap = [row for row in rows if not 2000 < (row.stamp - rows[0].stamp) / timedelta(minutes=5) < 4000]
    axes = page_charts.chart.Picture(gap, US.shown, panels=['wind'], span=timedelta(days=31)).figure().axes[0]
    hold('a gap', lines_of(axes)['wind'].count('none'), 1)


def panels_with_values(_):
    """A chart has a panel for what has values, and none else. Charts for growers have those of sun, evaporation, soil and leaf."""
    rows = values_read(rows_from(FIRST, 3, lambda number: GROWERS | {'outTemp': 600 + number, 'inTemp': 700, 'rain': 0}))
    hold('panels of weather', page_charts.panels_of('weather', rows, False), ['temperature', 'rain'])
    hold('panels with those inside', page_charts.panels_of('weather', rows, True), ['temperature', 'rain', 'indoors'])
    hold('panels for growers', page_charts.panels_of('growing', rows, False), GROWERS_PANELS)
    few = values_read(rows_from(FIRST, 3, lambda number: {'outTemp': 600, 'ET': 0, 'soilTemp2': 50}))
    hold('panels of one probe', page_charts.panels_of('growing', few, False), ['soil'])
    for units, wanted in ((US, ('400', '3.1', '0.009', '50', '32', '61', '3')), (METRIC, ('400', '3.1', '0.2286', '10', '32', '16.1111', '3'))):
        axes = page_charts.chart.Picture(rows, units.shown, panels=GROWERS_PANELS).figure().axes
        seen_values = [band_of(one)[0][1] if panel == 'evaporation' else float(next(iter(lines_of(one).values()))[0])
                       for panel, one in zip(GROWERS_PANELS, axes)]
        hold('what they show', texts(seen_values), texts(map(float, wanted)))
    hold('their labels', [one.get_ylabel() for one in page_charts.chart.Picture(rows, METRIC.shown, panels=GROWERS_PANELS).figure().axes],
         ['Radiation\nW/m²', 'UV index\n', 'ET\nmm', 'Soil temp.\n°C', 'Soil moisture\ncb', 'Leaf temp.\n°C', 'Leaf wetness\n0–15'])
    hold('the probes of soil', [*lines_of(axes[3])], ['1', '3'])


def what_is_inside(program):
    """What is measured inside is shown by option alone."""
    rows = [row_at(FIRST, outTemp=600, inTemp=700, inHumidity=41, soilTemp1=50)]
    hold('without it', [line.title for line in now_of(rows).lines if 'inside' in line.title], [])
    hold('with it', [(line.title, line.value) for line in now_of(rows, has_inside=True).lines if 'inside' in line.title],
         [('Temperature inside', '70.0'), ('Humidity inside', '41')])
    hold('soil', [(line.title, line.value) for line in now_of(rows).growing], [('Soil temperature 1', '50.0')])
    shown = make(program, [row_at(FIRST, rain=1, ET=9, inTemp=700), row_at('2024-07-01 00:10', ET=10, inTemp=710)], '--metric', '--inside')
    hold('with it, on a page', shown.row('Temperature inside °C'), ['21.7', '–', '21.1 00:05', '21.7 00:10'])
    hold('in a chart', 'temperature inside from 21.1 to 21.7 °C' in shown.all('img', 'alt')[0], True)
    hold('rain and evaporation', [row[1] for row in shown.rows if row[0] == '1 July'], ['0.3', '0.5'])
    hold('evaporation that is none', [sums.caption for sums in now_of([row_at(FIRST, ET=0, rain=0)]).sums], ['Rain, in'])


def all_texts(texts_of, path=''):
    """The texts of a language by their places."""
    for key, value in texts_of.items():
        if isinstance(value, dict):
            yield from all_texts(value, f'{path}{key}.')
        else:
            yield f'{path}{key}', value


def is_text(value):
    """Whether a value of a language is one text."""
    return isinstance(value, str)


def languages(program):
    """Each language has all texts, with the same words to put in. A German page has no English text, and commas in its numbers."""
    hold('the languages', page_texts.LANGUAGES, ['de', 'en'])
    english, german = (dict(all_texts(Texts(language).sections)) for language in ('en', 'de'))
    hold('their texts', [*german], [*english])
    hold('those that are alike', [key for key in english if english[key] == german[key]], ALIKE)
    for key, text in english.items():
        if is_text(text):
            hold(f'what is put into {key}', sorted(re.findall(r'{\w*}', german[key])), sorted(re.findall(r'{\w*}', text)))
    rows = [row_at('2024-10-01 12:00', outTemp=651, outHumidity=40, windSpeed=7, windDir=2, rain=3, soilTemp1=50, radiation=300)]
    one, made_of = make_tables(program, rows, '--metric', language='de')
    chart = page_charts.chart_of('Month', values_read(rows), one.units, 1)
    one.write_files({}, [[chart], []], made_of, made=values_read(rows)[-1].stamp, now=now_of(rows, one.units))
    shown, climate = seen(program), seen(program, 'climate-2024.html')
    hold('its language', shown.all('html', 'lang'), ['de'])
    hold('its temperature', shown.row('Temperatur °C')[0], '18,4')
    hold('its wind', shown.row('Wind m/s')[0], '3,1 aus NO')
    hold('its rain', shown.row('1. Oktober'), ['0,8'])
    hold('the table of the year', climate.row('Oktober')[2], '18,4')
    hold('the table as data', table(program, 'climate-2024')[-1].split(',')[3], '18.4')
    hold('the words of its chart', chart.words[:60], 'Monat bis 2024-10-01 12:00: Temperatur von 18,4 bis 18,4 °C,')
    said = shown.text + climate.text + re.sub('<[^>]*>', ' ', chart.svg)
    words = {text for text in english.values() if is_text(text) and re.fullmatch(r'[A-Z][a-z]+[a-z *]*', text)}
    hold('English texts in it', sorted(word for word in words - {*filter(is_text, german.values())} if re.search(rf'\b{re.escape(word)}\b', said)), [])
    ticks = page_charts.chart.Picture(values_read(rows_from('2024-09-20 00:05', 8000, lambda _: {'outTemp': 650})), METRIC.shown,
                                      panels=['temperature'], texts=Texts('de')).svg()
    hold('its months', ('Okt' in ticks, 'Oct' in ticks, 'Okt 2024' in ticks), (True, False, True))


def last_row_as_data(program):
    """The last row stands beside the page as data: its time in UTC, and each field with its unit, as `curl` and `jq` read it."""
    need('curl', '--version')
    need('jq', '--version')
    write_archive(program.folder / ARCHIVE, [row_at('2024-07-01 00:30', outTemp=651, outHumidity=48, rain=2, highRainRate=30, windDir=4,
                                                    windSpeed=11, barometer=29921, leafWet1=12, windSamples=112)])
    hold('the making', made(program, '--metric', '--name', 'Roof "1"', env=os.environ | {'TZ': '<+01>-1'}), (0, ''))
    with served(program.folder / FOLDER) as (place, _):
        got = subprocess.run(['curl', '-sSf', f'{place}/last.json'], capture_output=True, check=True)
    for query, wanted in (('.station', 'Roof "1"'), ('.time', '2024-06-30T23:30:00Z'), ('.minutes', PERIOD),
                          ('.fields.outTemp', {'value': 18.4, 'unit': '°C'}), ('.fields.rain', {'value': 0.5, 'unit': 'mm'}),
                          ('.fields.highRainRate', {'value': 7.6, 'unit': 'mm/h'}), ('.fields.windDir', {'value': 90, 'unit': '°'}),
                          ('.fields.windSpeed', {'value': 4.9, 'unit': 'm/s'}), ('.fields.barometer', {'value': 1013.2, 'unit': 'hPa'}),
                          ('.fields.leafWet1', {'value': 12, 'unit': ''}), ('.fields.windSamples', {'value': 112, 'unit': ''}),
                          ('.fields.dewPoint', {'value': 7.2, 'unit': '°C', 'derived': True}), ('.fields.inTemp', None)):
        read = subprocess.run(['jq', '-c', query], input=got.stdout, capture_output=True, check=True)
        hold(query, json.loads(read.stdout), wanted)


def is_refused(folder):
    """Whether a table is refused in a folder since a file of others is in its way."""
    try:
        with page.Folder(folder) as place:
            place.write({'table.csv': 'ours'}, [], {})
    except page.Foreign:
        return True
    return False


def files_of_others(program):
    """Files that the page did not make are neither replaced nor taken away, whatever their names and age."""
    folder = program.folder / FOLDER
    folder.mkdir()
    foreign = ['day-0123456789ab.svg', '.new-old', 'climate-1999.html', 'notes.txt', '.new-notes']
    for name in foreign:
        (folder / name).write_text('mine')
        os.utime(folder / name, (0, 0))
    (folder / INDEX).write_text('mine')
    write_archive(program.folder / ARCHIVE, [])
    refused = f'page: {FOLDER}/{INDEX} is there, and was not made by this tool: choose another folder, or --replace\n'
    hold('a page of others', made(program), (1, refused))
    hold('what is there', sorted(os.listdir(folder)), sorted([*foreign, INDEX]))
    hold('that page', (folder / INDEX).read_text(), 'mine')
    hold('a page of others that may go', made(program, '--replace'), (0, ''))
    note = json.loads((folder / page_folder_note()).read_text())
    (folder / page_folder_note()).write_text(json.dumps(note | {'files': [*note['files'], '../mine']}))
    program.write('mine', 'mine')
    os.utime(program.folder / 'mine', (0, 0))
    hold('a next run', made(program), (0, ''))
    hold('a file of another folder that the list names', program.read('mine'), b'mine')
    hold('what is there', sorted(os.listdir(folder)), sorted([*foreign, INDEX, page_folder_note()]))
    hold('what is in them', {(folder / name).read_text() for name in foreign}, {'mine'})
    (folder / 'last.json').write_text('mine')
    write_archive(program.folder / ARCHIVE, [row_at(FIRST, outTemp=600)])
    before = (folder / INDEX).read_text()
    hold('data of others', made(program)[0], 1)
    hold('what is left of that run', ((folder / 'last.json').read_text(), (folder / INDEX).read_text()), ('mine', before))
    (folder / '.new-table.csv').write_text('mine')
    hold('a draft of others', (is_refused(folder), (folder / '.new-table.csv').read_text()), (True, 'mine'))
    (folder / page_folder_note()).write_text('{"files": 5}')
    hold('a list out of form', is_refused(folder), True)


def page_folder_note():
    """The name of the list of its own files."""
    return '.made.json'


def files_of_its_own(program):
    """Its own files are taken away once they are old, also those of a page that was made before there was a list."""
    folder = program.folder / FOLDER
    folder.mkdir()
    for name in ('day-0123456789ab.svg', 'climate-2023.html', 'climate-2023-01.csv', INDEX, 'climate-2022.html', 'week-1.svg'):
        (folder / name).write_text('old')
        os.utime(folder / name, (0, 0))
    (folder / page_folder_note()).write_text('{"2023": "0123"}')
    write_archive(program.folder / ARCHIVE, [])
    hold('the making', made(program), (0, ''))
    hold('what is there', sorted(os.listdir(folder)), sorted(['climate-2022.html', 'week-1.svg', INDEX, page_folder_note()]))


@contextmanager
def noted_spans():
    """The spans whose charts are drawn, in their order."""
    drawn, draw = [], page_charts.drawn

    def noted(span, *words):
        drawn.append(span)
        return draw(span, *words)

    page_charts.drawn = noted
    try:
        yield drawn
    finally:
        page_charts.drawn = draw


def spans_drawn(program, rows, language='en', is_metric=True, bucket=row_lines.DEFAULT_BUCKET, has_inside=False):
    """Makes a page of some rows; gives the spans whose charts were drawn."""
    write_archive(program.folder / ARCHIVE, rows)
    archive = page.Archive(TOOLS / 'checks/stand_in.py', program.folder / ARCHIVE)
    units = Units(is_metric, row_lines.Buckets(bucket), language)
    with noted_spans() as drawn, page.Folder(program.folder / FOLDER) as folder:
        page.Page(archive, folder, units, 'Roof', has_inside).write(datetime(2024, 7, 2))
    return drawn


def what_did_not_change(program):
    """Charts and tables that did not change are not made anew; with a new row those are that show it."""
    rows = rows_from(FIRST, 30, lambda number: {'outTemp': 600 + number})
    more = [*rows, row_at('2024-07-01 02:35', outTemp=100)]
    hold('what is drawn first', spans_drawn(program, rows), [*page_charts.SPANS])
    files = {file.name: file.stat().st_mtime_ns for file in (program.folder / FOLDER).glob('*.*g')}
    hold('what is drawn of the same', spans_drawn(program, rows), [])
    hold('its files', {file.name: file.stat().st_mtime_ns for file in (program.folder / FOLDER).glob('*.*g')}, files)
    hold('what is drawn of another row', spans_drawn(program, more), [*page_charts.SPANS])
    hold('what is drawn in another language', spans_drawn(program, more, 'de'), [*page_charts.SPANS])
    charts = seen(program).all('img', 'src')
    (program.folder / FOLDER / next(name for name in charts if name.startswith('week-'))).unlink()
    hold('what is drawn of a chart that is gone', spans_drawn(program, more, 'de'), ['Week'])
    hold('the charts', all((program.folder / FOLDER / name).exists() for name in charts), True)


def what_other_words_draw(program):
    """Each word of the command that changes what charts show has them drawn anew."""
    rows, words = rows_from(FIRST, 3, lambda number: {'outTemp': 600 + number, 'inTemp': 700}), {}
    hold('what is drawn first', spans_drawn(program, rows), [*page_charts.SPANS])
    for word, value in (('is_metric', False), ('bucket', '0.2mm'), ('has_inside', True)):
        words[word] = value
        hold(f'what is drawn by {words}', spans_drawn(program, rows, **words), [*page_charts.SPANS])
    hold('what is drawn by the same words', spans_drawn(program, rows, **words), [])


CASES = (formulas, derived_lines, rows_that_are_old, young_archives, winds_of_long_spans, panels_with_values, what_is_inside, languages,
         last_row_as_data, files_of_others, files_of_its_own, what_did_not_change, what_other_words_draw)
AT_ONCE = 1  # one case changes a module

if __name__ == '__main__':
    sys.exit(try_all(sys.argv, __doc__, CASES, AT_ONCE))
