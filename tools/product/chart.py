#!/usr/bin/python3
"""Draws the rows of an archive as one picture: temperature, humidity, pressure, wind and rain.

    jofitrana-chart --station roof --days 2024-10-14 2024-10-20 week.png
    jofitrana report weather.archive rows 2024-10-14 2024-10-20 | jofitrana-chart --bucket 0.2mm week.png

With `--station` the units, the title and the rain bucket are the station's. The name says the kind of the picture, by its end
.png or .svg. Values that are missing, and rows that are, leave gaps. Of many rows just the values that can be seen are drawn.
Statuses: 0, 1 where the input has no rows or is cut or the picture cannot be written, 2 where the words are out of form.
"""
import argparse
import math
import os
import sys
from datetime import timedelta
from io import StringIO
from itertools import groupby
from tempfile import TemporaryDirectory

sys.dont_write_bytecode = True  # nothing is left beside an installed script
import chosen_rows
import rows as row_lines
import stations
from page_texts import english_texts
from stopping import stop_as_refused
from svg_text import shortened
from units import AS_IT_IS, METRIC

try:
    from matplotlib import dates, rc_context, rcParams, ticker
    from matplotlib.figure import Figure
    from matplotlib.patches import PathPatch
    from matplotlib.path import Path
except ImportError:
    sys.exit('chart: matplotlib is missing; on Debian: apt install python3-matplotlib')

SIZE = (10, 9)  # inches
DOTS_AN_INCH = 80
# Inches beside the panels, above and below them and between them, for a line of title, and for the numbers of a panel.
LEFT, RIGHT, TOP, BOTTOM, BETWEEN, TITLE, BESIDE = 1.05, 0.2, 0.6, 0.5, 0.3, 0.2, 0.65
GRID = {'alpha': 0.3, 'linewidth': 0.8, 'zorder': 0.5}
LOOK = {'axes.grid': True, 'axes.grid.axis': 'y', 'grid.alpha': GRID['alpha'], 'axes.axisbelow': True}
UNSIGNED = dict.fromkeys(('Creator', 'Date', 'Format', 'Type'))  # a picture of the same rows is the same then
# The panels with the fields that they show: those of weather, inside, and those of growers.
WEATHER = {'temperature': ('outTemp', 'lowOutTemp', 'highOutTemp'), 'humidity': ('outHumidity',), 'pressure': ('barometer',),
           'wind': ('windSpeed', 'windGust'), 'rain': ('rain',)}
INSIDE = {'indoors': ('inTemp',), 'indoor_humidity': ('inHumidity',)}
GROWING = {'sun': ('radiation',), 'uv': ('UV',), 'evaporation': ('ET',),
           'soil': ('soilTemp1', 'soilTemp2', 'soilTemp3', 'soilTemp4'),
           'moisture': ('soilMoist1', 'soilMoist2', 'soilMoist3', 'soilMoist4'), 'leaf': ('leafTemp1', 'leafTemp2'),
           'wetness': ('leafWet1', 'leafWet2')}
PANEL_FIELDS = WEATHER | INSIDE | GROWING
PANELS = tuple(WEATHER)  # that are drawn if none are named
LINE_COLOURS = {'humidity': 'tab:green', 'pressure': 'tab:purple', 'indoors': 'tab:orange', 'indoor_humidity': 'tab:olive',
                'sun': 'goldenrod', 'uv': 'tab:purple'}
PROBE_COLOURS = ('peru', 'tab:blue', 'tab:orange', 'tab:green')  # of the first, second, third and fourth
BAR_COLOURS = {'rain': 'tab:blue', 'evaporation': 'tab:green'}
HOUR, DAY = timedelta(hours=1), timedelta(days=1)
HOURLY = timedelta(days=2)  # beyond this each hour has one bar of rain, and before each row has one
DAILY = timedelta(days=60)  # beyond this each day has one
WIND_STEPS = 120  # of the winds of a span of more than two days, each with its mean and its strongest gust
NO_RAIN_INCHES = 0.1  # that the panel is high if no rain fell
LEAST_STEP = 0.6  # of the widest step between ticks: a tick that is nearer to the next one has no label


def follows(row, before):
    """Whether a row begins where the one before it ends, so that no row is missing between them."""
    return row.stamp - row.interval <= before.stamp


def with_gaps(rows):
    """The rows, with one without values where rows are missing."""
    gapped = rows[:1]
    for before, row in zip(rows, rows[1:]):
        if not follows(row, before):
            gapped.append(row_lines.Row(before.stamp + (row.stamp - before.stamp) / 2, row.interval, {}))
        gapped.append(row)
    return gapped


def seen_of_column(values, places):
    """The places that one column of a picture shows: its first, least, greatest and last value, and its gaps."""
    there = [place for place in places if not math.isnan(values[place])]
    gaps = [place for place in places if math.isnan(values[place])]
    extremes = [choose(there, key=values.__getitem__) for choose in (min, max) if there]
    return sorted({*there[:1], *there[-1:], *extremes, *gaps[:1], *gaps[-1:]})


def is_lone(values, place):
    """Whether a value has none beside it, so that no line shows it."""
    beside = values[max(place - 1, 0):place] + values[place + 1:place + 2]
    return all(math.isnan(value) for value in beside)


def crowded(ticks):
    """The places of the ticks that are much nearer to the next one than others are, as the 29th is to the first of a month."""
    steps = [after - before for before, after in zip(ticks, ticks[1:])]
    return {place for place, step in enumerate(steps) if step < LEAST_STEP * max(steps)}


class Ticks(dates.ConciseDateFormatter):
    """The ticks of time, with the months of a language."""

    def __init__(self, locator, texts):
        day, month = texts['charts']['tick_day'], '%b %Y'
        super().__init__(locator, zero_formats=['', '%Y', '%b', day, '%H:%M', '%H:%M'],
                         offset_formats=['', '%Y', month, f'{day} %Y', f'{day} %Y', f'{day} %Y %H:%M'])
        self.texts = texts

    def format_ticks(self, values):
        near = crowded(values)
        labels = ['' if number in near else self.texts.short_months(label)
                  for number, label in enumerate(super().format_ticks(values))]
        self.offset_string = self.texts.short_months(self.offset_string)
        return labels


class Numbers(ticker.ScalarFormatter):
    """The ticks of values, with the decimal mark of a language."""

    def __init__(self, texts):
        super().__init__(useOffset=False)
        self.texts = texts

    def __call__(self, value, place=None):
        return self.texts.digits(super().__call__(value, place))


def moment_of(row):
    """When a row ends, as text; of a row that stands for a day, the day."""
    return f'{row.stamp:%Y-%m-%d %H:%M}' if row.interval < DAY else f'{row.stamp - DAY:%Y-%m-%d}'


def wind_of(rows, begin, end):
    """The mean wind and the strongest gust of rows within some time, as one row."""
    winds = [row.values['windSpeed'] for row in rows if 'windSpeed' in row.values]
    gusts = [row.values['windGust'] for row in rows if 'windGust' in row.values]
    values = {'windSpeed': sum(winds) / len(winds)} if winds else {}
    return row_lines.Row(begin + (end - begin) / 2, end - begin, values | ({'windGust': max(gusts)} if gusts else {}))


class Picture:
    """The panels of a picture of rows, in the units and the words of the observer's choice. It shows the time of the rows, or a
    span that ends with the last of them."""

    def __init__(self, rows, units, title='', panels=PANELS, span=None, size=SIZE, texts=None):
        self.rows, self.units, self.texts = rows, units, texts or english_texts()
        self.words = self.texts['charts']
        self.title, self.panels, self.size = title, panels, size
        self.end = rows[-1].stamp
        self.begin = self.end - span if span else rows[0].stamp - rows[0].interval
        self.ends = dates.date2num([self.begin, self.end])
        self.dot = (self.ends[1] - self.ends[0]) / ((size[0] - LEFT - RIGHT) * DOTS_AN_INCH)
        self.take(rows)

    def take(self, rows):
        """Has the lines be those of some rows."""
        self.gapped = with_gaps(rows)
        places = dates.date2num([row.stamp for row in self.gapped])
        self.places, self.columns = places.tolist(), ((places - self.ends[0]) // self.dot).tolist()

    def series(self, name):
        """The values of a field, no number where there is none."""
        convert = self.units[row_lines.unit_of(name)][1]
        return [convert(row.values[name]) if name in row.values else math.nan for row in self.gapped]

    def seen(self, values):
        """The places of the values that the picture shows."""
        columns = groupby(range(len(values)), self.columns.__getitem__)
        return [place for _, places in columns for place in seen_of_column(values, list(places))]

    def label(self, axes, text, name):
        """Names a panel, with the sign of a field's unit."""
        axes.set_ylabel(f'{text}\n{self.units[row_lines.unit_of(name)][0]}')

    def line(self, axes, name, colour, legend=None):
        """Draws a field as a line. A value between two gaps is a dot."""
        values = self.series(name)
        seen = self.seen(values)
        places, values = [self.places[number] for number in seen], [values[number] for number in seen]
        axes.plot(places, values, color=colour, linewidth=1, label=legend)
        lone = [number for number in range(len(values)) if is_lone(values, number)]
        if lone:
            axes.plot([places[number] for number in lone], [values[number] for number in lone], '.', color=colour, markersize=3,
                      clip_on=False)

    def band(self, axes, low_name, high_name, colour, legend):
        """Draws the space between two fields."""
        low, high = self.series(low_name), self.series(high_name)
        seen = sorted({*self.seen(low), *self.seen(high)})
        places, low, high = ([one[number] for number in seen] for one in (self.places, low, high))
        axes.fill_between(places, low, high, color=colour, alpha=0.3, linewidth=0, label=legend)

    def temperature(self, axes):
        """The outside temperature, between the extremes of each row."""
        self.band(axes, 'lowOutTemp', 'highOutTemp', 'tab:red', self.words['lowest_to_highest'])
        self.line(axes, 'outTemp', 'tab:red', self.words['outside'])

    def wind(self, axes):
        """The mean wind and the strongest gust of each row; of more than two days, of each step of time, as a band and a line."""
        if self.end - self.begin <= HOURLY:
            self.line(axes, 'windGust', 'chocolate', self.words['gust'])
            self.line(axes, 'windSpeed', 'tab:blue', self.words['mean_wind'])
            return
        rows = self.gapped, self.places, self.columns
        self.take(self.wind_steps())
        self.band(axes, 'windSpeed', 'windGust', 'chocolate', self.words['up_to_gust'])
        self.line(axes, 'windSpeed', 'tab:blue', self.words['mean_wind'])
        self.gapped, self.places, self.columns = rows

    def wind_steps(self):
        """The winds of the rows by steps of time; of rows that are longer than a step, the rows themselves."""
        step = (self.end - self.begin) / WIND_STEPS
        if self.rows[-1].interval >= step:
            return self.rows
        steps = groupby(self.rows, lambda row: (row.stamp - self.begin - row.interval) // step)
        return [wind_of(list(rows), self.begin + number * step, self.begin + (number + 1) * step) for number, rows in steps]

    def bars_of(self, name):
        """The sums of a field by when their time began, each with that time, and the words for it."""
        convert = self.units['inch'][1]
        span, interval = self.end - self.begin, self.rows[-1].interval
        ending = '_day' if span > DAILY or interval >= DAY else '_hour' if span > HOURLY and interval <= HOUR else ''
        fallen = {}
        for row in (row for row in self.rows if name in row.values):
            begin, width = row.stamp - row.interval, row.interval
            if ending == '_day':
                begin, width = begin.replace(hour=0, minute=0), DAY
            elif ending and width < HOUR:
                begin, width = begin.replace(minute=0), HOUR
            before = fallen.get(begin, (0, width))[0]
            fallen[begin] = (before + convert(row.values[name]), width)
        return fallen, ending

    def bars(self, axes, panel):
        """Draws the sums of a field as bars, each as wide as its time."""
        name, = PANEL_FIELDS[panel]
        fallen, ending = self.bars_of(name)
        bars = [(begin, begin + width, height) for begin, (height, width) in fallen.items() if height]
        places = dates.date2num([stamp for begin, end, _ in bars for stamp in (begin, begin, end, end)])
        heights = [one for _, _, height in bars for one in (0, height, height, 0)]
        axes.fill_between(places, heights, color=BAR_COLOURS[panel], linewidth=0)
        axes.set_ylim(0, None if bars else self.units['inch'][1](NO_RAIN_INCHES))
        return self.words[panel + ending]

    def draw(self, axes, panel):
        """Draws a panel, and names it with the sign of its unit."""
        label, names = self.words[panel], PANEL_FIELDS[panel]
        if panel in BAR_COLOURS:
            label = self.bars(axes, panel)
        elif panel in LINE_COLOURS:
            self.line(axes, names[0], LINE_COLOURS[panel])
        elif panel in GROWING:
            for number, (name, colour) in enumerate(zip(names, PROBE_COLOURS), 1):
                if any(name in row.values for row in self.rows):
                    self.line(axes, name, colour, str(number))
        else:
            getattr(self, panel)(axes)
        self.label(axes, label, names[0])

    def finish(self, axes, ticks):
        """Gives a panel its grid and, where it has several lines, their names."""
        axes.yaxis.set_label_coords(-BESIDE / (self.size[0] - LEFT - RIGHT), 0.5)
        axes.xaxis.set_label_coords(0.5, 0)  # a place for each text that there is not, or matplotlib looks for one
        axes.set_title('', y=1)
        axes.yaxis.set_major_formatter(Numbers(self.texts))
        axes.set_xlim(*self.ends)
        uprights = Path([(place, height) for place in ticks for height in (0, 1)], [Path.MOVETO, Path.LINETO] * len(ticks))
        axes.add_artist(PathPatch(uprights, fill=False, edgecolor=rcParams['grid.color'], transform=axes.get_xaxis_transform(),
                                  **GRID))
        if axes.get_legend_handles_labels()[0]:
            axes.legend(loc='lower right', bbox_to_anchor=(1, 1), borderaxespad=0, frameon=False, ncol=4)

    def room(self):
        """Where the panels stand, as parts of the picture."""
        width, height = self.size
        return {'left': LEFT / width, 'right': 1 - RIGHT / width, 'bottom': BOTTOM / height,
                'top': 1 - (TOP + bool(self.title) * TITLE) / height, 'hspace': BETWEEN * len(self.panels) / height}

    def figure(self):
        """The drawn picture."""
        figure, locator = Figure(figsize=self.size), dates.AutoDateLocator()
        ticks = locator.tick_values(*dates.num2date(self.ends))
        with rc_context(LOOK):
            all_axes = list(figure.subplots(len(self.panels), squeeze=False, gridspec_kw=self.room()).flat)
        for panel, axes in zip(self.panels, all_axes):
            self.draw(axes, panel)
            self.finish(axes, ticks)
            axes.xaxis.set_visible(axes is all_axes[-1])
        all_axes[-1].xaxis.set_major_locator(ticker.FixedLocator(ticks))
        all_axes[-1].xaxis.set_major_formatter(Ticks(locator, self.texts))
        first, last = map(moment_of, (self.rows[0], self.rows[-1]))
        span = self.words['from_to_span'].format(first=first, last=last)
        figure.suptitle(f'{self.title}\n{span}' if self.title else span, parse_math=False)
        return figure

    def svg(self, **options):
        """The picture as the text of an SVG."""
        text = StringIO()
        self.figure().savefig(text, format='svg', metadata=UNSIGNED, **options)
        return shortened(text.getvalue())

    def write(self, name):
        """Writes the picture to the file of this name."""
        if name.endswith('.svg'):
            with open(name, 'w', encoding='utf-8') as file:
                file.write(self.svg())
        else:
            self.figure().savefig(name, dpi=DOTS_AN_INCH)

    def replace(self, name):
        """Writes the picture, and gives it this name once it is whole. Until then a file of that name stays as it is."""
        picture = os.path.realpath(name)
        with TemporaryDirectory(prefix='.new-', dir=os.path.dirname(picture)) as folder:
            draft = os.path.join(folder, os.path.basename(name))
            self.write(draft)
            os.replace(draft, picture)


def picture_name(name):
    """A name that ends as a picture's does."""
    if not name.endswith(('.png', '.svg')):
        raise argparse.ArgumentTypeError(f'{name} ends neither in .png nor in .svg')
    return name


def panels_named(text):
    """The panels of a list of names with commas."""
    names = text.split(',')
    for name in names:
        if name not in PANEL_FIELDS:
            raise argparse.ArgumentTypeError(f"there is no panel '{name}', but {', '.join(PANEL_FIELDS)}")
    return names


def main():
    stop_as_refused('chart')
    words = argparse.ArgumentParser(prog='chart', description='Draws the rows of the input.')
    words.add_argument('picture', type=picture_name, help='the file to write, NAME.png or NAME.svg')
    words.add_argument('--title', help='a line above the picture')
    words.add_argument('--panels', type=panels_named, default=PANELS, help='the panels to draw, as temperature,rain')
    words.add_argument('--metric', action='store_true', help='degrees Celsius, hPa, m/s and mm')
    chosen_rows.add_options(words)
    chosen = words.parse_args()
    chosen_rows.hold_days(words, chosen)
    try:
        station = stations.station_of(chosen)
        title = chosen.title if chosen.title is not None else station.title if station else ''
        units = METRIC if stations.is_metric(station, chosen.metric) else AS_IT_IS
        Picture(chosen_rows.rows_of(chosen, station), units, title, chosen.panels).replace(chosen.picture)
    except chosen_rows.TROUBLES as trouble:
        sys.exit(f'chart: {trouble}')


if __name__ == '__main__':
    main()
