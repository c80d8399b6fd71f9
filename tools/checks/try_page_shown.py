#!/usr/bin/python3
"""Tries how a page is shown: its charts, its letters, the rules of HTML, and its width in a browser.

    tools/checks/try_page_shown.py PROGRAM

A script of the model is in the program's place. Pages are held against the rules of HTML by `tidy` and shown by Chromium, where
these are installed. If KEEP names a folder, what Chromium shows is kept there. The last line is 'N passed, M failed', and the
status is 1 if any failed.
"""
import math
import os
import random
import re
import subprocess
import sys
from datetime import timedelta

sys.dont_write_bytecode = True  # nothing is left beside the scripts

from made_pages import (AWKWARD, FOLDER, GROWERS, INDEX, Texts, Units, make, make_small, page_charts, row_at, row_lines, rows_from,
                        seen, served, values_read, worked_rows)
from trying import Differs, Run, hold, need, try_all, until_end

WIDTHS = (375, 768, 1280)
HEIGHT = 2400
LONGEST = 180  # seconds that Chromium may take, or longer on a busy machine
LONG_NAME = 'Wetterstation der Donaudampfschifffahrtsgesellschaft'
LEAST_CONTRAST = 4.5  # of small letters, by the guidelines for the web's content


def year_values(number):
    """The values of a row of a year, with some chance in all of them."""
    draw = random.Random(number)
    warmth = 500 + 150 * math.sin(number / 16_700) + 80 * math.sin(number / 45.8)
    return {'outTemp': round(warmth + draw.uniform(-4, 4)), 'highOutTemp': round(warmth + 8), 'lowOutTemp': round(warmth - 8),
            'rain': draw.choice((0, 0, 0, 0, 1, 3)) if number % 2000 < 200 else 0,
            'barometer': round(29_900 + 300 * math.sin(number / 700)),
            'outHumidity': draw.randint(60, 75), 'windSpeed': draw.randint(0, 9), 'windGust': draw.randint(9, 22),
            'windDir': draw.randint(0, 15), 'windSamples': 110, 'inTemp': 700, 'inHumidity': 40}


def gaps_of_charts(_):
    """A chart has a line for each stretch of rows, and none over a gap, however many rows it has."""
    def values_of(number):
        return {'barometer': 29_000 + number % 50} if number % 400 != 7 else {'rain': 0}

    made_rows = rows_from('2024-07-01 00:05', 2016, values_of)
    kept = [row for number, row in enumerate(made_rows) if not 900 < number < 1000]
    week = page_charts.chart_of('Week', values_read(kept), Units(False, row_lines.Buckets()))
    hold('stretches', max(path.count('M') for path in re.findall(r' d="([^"]*)"', week.svg)), 8)


def labels_of_time(_):
    """No label of a chart's time stands over the next one: the 29th has none if the first of a month is near."""
    for last, wanted in (('2024-03-16', '17 21 25 Mär 05 09 13'), ('2024-10-20', '21 25 Okt 05 09 13 17'), ('2024-08-20', '21 25 29 Aug 05 09 13 17')):
        rows = values_read([row_at(f'{last} 12:00', outTemp=600)])
        picture = page_charts.chart.Picture(rows, page_charts.chart.METRIC, span=timedelta(days=31), texts=Texts('de'))
        axis = picture.figure().axes[-1].xaxis
        begin, end = picture.ends
        labels = zip(axis.get_ticklocs(), axis.get_major_formatter().format_ticks(axis.get_ticklocs()))
        hold(f'the labels up to {last}', ' '.join(label for place, label in labels if label and begin <= place <= end), wanted)


def value_at_the_edge(_):
    """A value by itself is drawn as a whole dot, also at the edge of a chart."""
    picture = page_charts.chart.Picture(values_read([row_at('2024-07-01 12:00', outTemp=600)]), page_charts.chart.METRIC)
    hold('whether its dot is cut', picture.figure().axes[0].lines[-1].get_clip_on(), False)


def awkward_name(program):
    """A name is shown letter by letter, whatever they are."""
    shown = make_small(program, worked_rows(), name=AWKWARD)
    hold('elements of the name', shown.all('b', 'class') + [tag for tag, _ in shown.elements if tag == 'b'], [])
    for name in ('index.html', 'climate-2024.html'):
        if AWKWARD not in seen(program, name).text:
            raise Differs(f'{name} does not show {AWKWARD}')


def page_by_itself(program):
    """A page asks no other host and has no script, and each of its pictures has its text."""
    shown = make(program, worked_rows())
    texts = shown.all('img', 'alt')
    hold('the text of a picture', texts[0],
         'Day up to 2024-07-01 05:55: temperature from 59.8 to 67.4 °F, humidity from 50 to 50 %, '
         'pressure from 29.929 to 30.000 inHg, wind up to 21 mph, 0.02 in of rain.')
    hold('pictures with a text', len(set(texts)), len(shown.all('img', 'src')))
    for file in (program.folder / FOLDER).glob('*.[hs]*'):
        text = file.read_text(encoding='utf-8')
        for place in re.findall(r'(?:href|src)="([^"]*)"', text) + re.findall(r'url\(([^)]*)\)', text):
            if not re.fullmatch(r'data:,|#?[\w.-]*', place):
                raise Differs(f'{file.name} asks for {place}')
        hold(f'scripts of {file.name}', '<script' in text or '@import' in text or '<!DOCTYPE svg' in text, False)


def light(colour):
    """How light a colour is, by the guidelines for the web's content."""
    parts = [int(colour[place:place + 2], 16) / 255 for place in (1, 3, 5)]
    red, green, blue = (part / 12.92 if part <= 0.04045 else ((part + 0.055) / 1.055) ** 2.4 for part in parts)
    return 0.2126 * red + 0.7152 * green + 0.0722 * blue


def letters_that_can_be_read(program):
    """The letters of a page and of its charts stand out enough, in the light and in the dark."""
    shown = make_small(program, worked_rows())
    text = (program.folder / FOLDER / 'index.html').read_text(encoding='utf-8')
    chart = (program.folder / FOLDER / shown.all('img', 'src')[0]).read_text()
    schemes = [dict(re.findall(r'--(\w+): (#\w{6})', part)) for part in text.split('prefers-color-scheme: dark')]
    for colours, chart_ink in zip(schemes, re.findall(r'[{;]color:(#\w{6})', chart)):
        for ink in (colours['ink'], colours['link'], colours['mark'], chart_ink):
            lights = sorted([light(ink), light(colours['page'])])
            if (lights[1] + 0.05) / (lights[0] + 0.05) < LEAST_CONTRAST:
                raise Differs(f'{ink} on {colours["page"]}')


def rules_of_html(program):
    """A checker finds nothing in the pages."""
    need('tidy', '-v')
    for make_one in (lambda: make_small(program, worked_rows(), name=AWKWARD), lambda: make(program, [])):
        make_one()
        for file in (program.folder / FOLDER).glob('*.html'):
            ran = subprocess.run(['tidy', '-e', '-q', file], capture_output=True, text=True, check=False)
            hold(file.name, (ran.returncode, ran.stderr), (0, ''))


# A frame of some width around a page. The title says how wide the page is, and what in it is not as it has to be: a table of the
# last row that is wider than its place, a time that is broken over two lines, and a table whose first column does not stay where
# it is as the table is scrolled.
WIDE = '''<!doctype html><link rel="icon" href="data:,"><title>none</title>
<iframe id="page" src="{}" width="{}" height="900"></iframe>
<script>addEventListener('load', () => {{
    const page = document.getElementById('page').contentDocument, found = [page.documentElement.scrollWidth];
    for (const place of page.querySelectorAll('.wide')) {{
        if (place.querySelector('.now') && place.scrollWidth > place.clientWidth) found.push('a table is wider');
        place.scrollLeft = 100;
        const head = place.querySelector('tbody th');
        if (head.getBoundingClientRect().left < place.getBoundingClientRect().left) found.push('a column has gone');
    }}
    if ([...page.querySelectorAll('time')].some(time => time.getClientRects().length > 1)) found.push('a time is broken');
    document.title = found.join(', ');
}});</script>'''


def chromium(*words):
    """Runs a headless Chromium; gives what it prints."""
    still = ('--headless', '--no-sandbox', '--disable-gpu', '--hide-scrollbars', '--disable-dev-shm-usage')
    with Run(['chromium', *still, *words], None, stderr=subprocess.DEVNULL) as run:
        printed, _ = until_end(run.process, LONGEST)
        hold('Chromium', run.process.returncode, 0)
    return printed.decode()


def hold_widths(program, name, shown, more=()):
    """Holds that a browser finds all that a page names, and that the page and more pages beside it fit in each width. Keeps
    pictures of it in the light and in the dark, by a name."""
    keep = os.environ.get('KEEP', program.folder)
    with served(program.folder / FOLDER) as (place, asked):
        for width in WIDTHS:
            for file in (INDEX, *more):
                (program.folder / FOLDER / 'wide.html').write_text(WIDE.format(file, width))
                wide = chromium('--dump-dom', f'{place}/wide.html')
                hold(f'{file} within {width}', re.search('<title>(.*?)</title>', wide)[1], str(width))
            for scheme, colours in enumerate(('dark', 'light')):
                chromium(f'--blink-settings=preferredColorScheme={scheme}', f'--window-size={width},{HEIGHT}',
                         f'--screenshot={keep}/{name}-{width}-{colours}.png', f'{place}/{INDEX}')
    hold('what is missing', [one for one in asked if one[1] not in ('200', '304')], [])
    hold('what it asked for', {path.lstrip('/') for path, _ in asked}, {'wide.html', INDEX, *more, *shown.all('img', 'src')})


def page_in_a_browser(program):
    """A browser finds all that a page names, and a page is no wider than a telephone or a screen, whatever its colours."""
    need('chromium', '--version')
    shown = make(program, rows_from('2024-07-01 00:05', 1500, year_values), '--metric', '--name', AWKWARD)
    hold_widths(program, 'page', shown)


def growers_in_a_browser(program):
    """So does the page of a young archive for growers in German, whose name is a long word, and so do its climate tables."""
    need('chromium', '--version')
    rows = rows_from('2024-09-03 00:05', 1500, lambda number: year_values(number) | GROWERS | {'highRainRate': 10})
    shown = make(program, rows, '--metric', '--inside', '--language', 'de', '--name', LONG_NAME)
    hold('the rain of a young year', shown.row('2024, seit 3. September') != [], True)
    hold('its tables', 'Boden und Blatt' in shown.text, True)
    hold_widths(program, 'growers', shown, ['climate-2024.html'])


def page_without_rows_in_a_browser(program):
    """The page of an archive without a row fits as well, and no time in it is broken."""
    need('chromium', '--version')
    hold_widths(program, 'empty', make(program, [], '--language', 'de'))


CASES = (page_in_a_browser, growers_in_a_browser, page_without_rows_in_a_browser, gaps_of_charts, labels_of_time, value_at_the_edge,
         awkward_name, page_by_itself, letters_that_can_be_read, rules_of_html)
AT_ONCE = 2

if __name__ == '__main__':
    sys.exit(try_all(sys.argv, __doc__, CASES, AT_ONCE))
