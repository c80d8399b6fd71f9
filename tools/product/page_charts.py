"""The charts of a station's page: of the last day, week, month and year, each drawn anew only if what it shows has changed."""
import hashlib
from datetime import date, datetime, time, timedelta
from pathlib import Path
from typing import NamedTuple

import chart
import matplotlib
import rows as row_lines
import svg_text
from climate_tables import greatest, least

DAY = timedelta(days=1)
SPANS = {'Day': 1, 'Week': 7, 'Month': 31, 'Year': 365}  # days up to the last row
MOST_DAYS_OF_ROWS = SPANS['Month']  # a longer span is drawn by days
WIDTH, PANEL_HEIGHT = 5.4, 1.22  # inches, so that its letters can be read on a telephone
EDGES = chart.TOP + chart.BOTTOM  # inches above and below the panels
PIXELS_AN_INCH = 96  # of a page
LOOK = {
    'svg.fonttype': 'none', 'svg.hashsalt': 'jofitrana', 'font.family': 'sans-serif', 'font.sans-serif': ['DejaVu Sans'],
    'path.simplify_threshold': 0.5, 'xtick.bottom': False, 'ytick.left': False,
} | dict.fromkeys(('text.color', 'axes.labelcolor', 'axes.edgecolor', 'xtick.color', 'ytick.color'), svg_text.INK)
SOURCES = (Path(__file__), Path(chart.__file__), Path(svg_text.__file__))  # a chart of another version is another chart
DIGITS = 12  # of a digest in a name

# What the words for a chart tell of its panels: the least and the greatest value of the first of these fields that has any.
EXTREMES = {'temperature': (('lowOutTemp', 'outTemp'), ('highOutTemp', 'outTemp')), 'wind': (('windGust', 'windSpeed'),) * 2}
SUMS = {'rain': 'rain', 'evaporation': 'ET'}


class Chart(NamedTuple):
    """A chart: what it is of, the name of its file, its size on a page, what it shows in words, and the text of its file, which
    is none where the file stands as it is."""
    title: str
    file: str
    width: int
    height: int
    words: str
    svg: str | None = None


def rain_of(fields):
    """The clicks of a day or a month, if its rain is known."""
    return fields['rain'].sum if 'rain' in fields else None


def row_of_day(day, fields, units):
    """A day as one row: the means of its values, its extremes and its sums."""
    values = {name: units.value(name, summary.mean()) for name, summary in fields.items()}
    low, high = least(fields, 'lowOutTemp', 'outTemp')[0], greatest(fields, 'highOutTemp', 'outTemp')[0]
    gust = greatest(fields, 'windGust')[0]
    evaporation = fields['ET'].sum if 'ET' in fields else None
    counted = {'lowOutTemp': low, 'highOutTemp': high, 'windGust': gust, 'rain': rain_of(fields), 'ET': evaporation}
    values |= {name: units.value(name, number) for name, number in counted.items() if number is not None}
    return row_lines.Row(datetime.combine(date.fromisoformat(day) + DAY, time()), DAY, values)


def values_of(rows, names):
    """The values of the first of these fields that has any."""
    for name in names:
        values = [row.values[name] for row in rows if name in row.values]
        if values:
            return values
    return []


def words_of_panel(panel, rows, units):
    """What a panel shows, or nothing if it has no value."""
    words, name = units.texts['told'], chart.PANEL_FIELDS[panel][0]
    lows, highs = EXTREMES.get(panel, (chart.PANEL_FIELDS[panel],) * 2)
    values = values_of(rows, lows)
    if not values:
        return None
    if panel in SUMS:
        return words[panel].format(value=units.with_sign(name, sum(values)))
    high = max(values if highs == lows else values_of(rows, highs), default=None)
    if panel == 'wind':
        return words[panel].format(value=units.with_sign('windGust', high))
    return words['from_to'].format(name=words[panel], low=units.text(name, min(values)), high=units.with_sign(name, high))


def words_of(rows, units, panels=chart.PANELS):
    """What a chart of rows shows, for who cannot see it."""
    told = [words_of_panel(panel, rows, units) for panel in panels]
    return ', '.join(filter(None, told)) or units.texts['told']['none']


def title_of(span, days_there, units):
    """What a chart is of. It says how many days there are if they are fewer than its span."""
    words = units.texts['spans']
    so_far = words['one_day_so_far' if days_there == 1 else 'so_far']
    return so_far.format(span=words[span], count=days_there) if days_there < SPANS[span] else words[span]


def has_values(panel, rows):
    """Whether rows have what a panel shows. A console without a sensor reports no evaporation as 0."""
    names = chart.PANEL_FIELDS[panel]
    return any(row.values.get(name) for row in rows for name in names) if panel == 'evaporation' else \
        any(name in row.values for row in rows for name in names)


def panels_of(kind, rows, has_inside):
    """The panels of a kind of chart that have values."""
    wanted = chart.GROWING if kind == 'growing' else chart.WEATHER | (chart.INSIDE if has_inside else {})
    return [panel for panel in wanted if has_values(panel, rows)]


def digest_of(*parts):
    """What parts come to, in few digits."""
    return hashlib.sha256(repr(parts).encode()).hexdigest()


def source_digest(units):
    """What the tools and texts come to that draw a chart."""
    return digest_of(*(file.read_bytes() for file in SOURCES), units.texts.source, units.sign('outTemp'), units.buckets,
                     matplotlib.__version__)


def drawn(span, rows, units, panels, length):
    """The text of a chart."""
    size = WIDTH, EDGES + len(panels) * PANEL_HEIGHT
    with matplotlib.rc_context(LOOK):
        picture = chart.Picture(rows, units.shown, panels=panels, span=length, size=size, texts=units.texts)
        return svg_text.for_reader(picture.svg(transparent=True)), size


def chart_of(span, rows, units, days_there=MOST_DAYS_OF_ROWS, kind='weather', panels=None):
    """The chart of the rows of a span. Its name changes with what it shows, so a reader has the one that the page means."""
    panels = panels or panels_of(kind, rows, False) or chart.PANELS[:1]
    length = SPANS[span] * DAY if days_there >= SPANS[span] or SPANS[span] == 1 else None
    svg, size = drawn(span, rows, units, panels, length)
    beginning = span.lower() if kind == 'weather' else f'{span.lower()}-{kind}'
    width, height = (round(PIXELS_AN_INCH * inches) for inches in size)
    words = units.texts['told']['up_to'].format(span=units.texts['spans'][span], stamp=chart.moment_of(rows[-1]),
                                                values=words_of(rows, units, panels))
    return Chart(title_of(span, days_there, units), f'{beginning}-{digest_of(svg)[:DIGITS]}.svg', width, height, words, svg)


def rows_of_span(span, rows, days, units):
    """The rows of a span: those of the archive, or for a long one its days."""
    if SPANS[span] > MOST_DAYS_OF_ROWS:
        return [row_of_day(day, fields, units) for day, fields in days.items()]
    begin = rows[-1].stamp - SPANS[span] * DAY
    return [row for row in rows if row.stamp > begin]


class Charts:
    """The charts of a page, by what each was made of. One that was made of the same before stands as it is."""

    def __init__(self, folder, units, has_inside, days_there):
        self.folder, self.units, self.has_inside, self.days_there = folder, units, has_inside, days_there
        self.source = source_digest(units)
        self.made = {}

    def chart(self, kind, span, rows, digest):
        """A chart, or none if its panels have no value. The digest is that of all rows and days."""
        panels = panels_of(kind, rows, self.has_inside)
        if kind == 'growing' and not panels:
            return None
        made_of = digest_of(self.source, span, digest, panels, self.days_there)
        key = f'{kind} {span}'
        before = self.folder.note['made'].get(key)
        if before and before[0] == made_of and self.folder.has([before[1][1]]):
            one = Chart(*before[1])
        else:
            one = chart_of(span, rows, self.units, self.days_there, kind, panels)
        self.made[key] = made_of, one[:-1]
        return one

    def all(self, lines, rows, days):
        """The charts of all spans: those of weather, and those of growers. The lines are those of the rows."""
        of_spans, digest = [(span, rows_of_span(span, rows, days, self.units)) for span in SPANS], digest_of(lines, days)
        return [list(filter(None, (self.chart(kind, *chosen, digest) for chosen in of_spans))) for kind in ('weather', 'growing')]
