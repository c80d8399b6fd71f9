"""What the program reports of an archive, as values (docs/FORMATS.md)."""
import re
import subprocess
from datetime import date, datetime
from typing import NamedTuple

import rows as row_lines

FIRST_DAY, LAST_DAY = date(1999, 12, 31), date(2127, 12, 31)
USAGE = 1  # the status of words that are no command
SUMMARY = re.compile(r'(?:day|month) (\S+) (\w+) min (-?\d+) at (\S+ \S+) max (-?\d+) at (\S+ \S+)'
                     r' sum (-?\d+) count (\d+) wsum (-?\d+) sumtime (\d+)')
DEGREE = re.compile(r'degree (\S+) hdd (\d+)/(\d+) cdd (\d+)/(\d+)')
CLIMATE = re.compile(r'climate (\S+) days (\d+) mean (\S+) high (\S+) at (\S+) low (\S+) at (\S+) rain (\S+) wet (\d+)'
                     r' hdd (\d+) cdd (\d+)')
NONE = '-'
DEGREE_TENTHS, MEAN_HUNDREDTHS, TOTAL_THOUSANDTHS = 10, 100, 1000  # of a degree Fahrenheit


class Refused(Exception):
    """What the program printed in place of a report."""


class Summary(NamedTuple):
    """What the values of a field come to, counted as the field is."""
    least: int
    least_at: datetime
    greatest: int
    greatest_at: datetime
    sum: int
    weighted: int  # the sum of the values, each times the seconds of its row
    seconds: int

    def mean(self):
        """The mean value over the time."""
        return self.weighted / self.seconds

    def times(self, count):
        """The summary of as many times of each value."""
        return self._replace(least=count * self.least, greatest=count * self.greatest, sum=count * self.sum,
                             weighted=count * self.weighted)


class DegreeDays(NamedTuple):
    """How far a time was below and above the base, in degrees Fahrenheit times days."""
    heating: float
    cooling: float


class Climate(NamedTuple):
    """What the temperature and the rain of a month or a year come to. A number that is not there is None."""
    days: int  # that have a temperature
    mean: float | None  # in degrees Fahrenheit
    high: int | None
    high_day: date | None
    low: int | None
    low_day: date | None
    rain: int | None
    wet: int  # days that have rain
    degree_days: DegreeDays


class ClimateYear(NamedTuple):
    """The degree days of the days of a year, and its climate by months and as a whole."""
    days: dict
    months: dict
    year: Climate | None


def matched(pattern, line):
    """The parts of a line."""
    match = pattern.fullmatch(line)
    if not match:
        raise Refused(f'this is no line of a report: {line[:80]}')
    return match.groups()


def stamp_of(text):
    """The stamp of a text."""
    return datetime.fromisoformat(text)


def summaries(lines):
    """The summaries of day lines or month lines, by the text of the day or month and by field."""
    found = {}
    for line in lines:
        title, name, least, least_at, greatest, greatest_at, total, _, weighted, seconds = matched(SUMMARY, line)
        found.setdefault(title, {})[name] = Summary(int(least), stamp_of(least_at), int(greatest), stamp_of(greatest_at),
                                                    int(total), int(weighted), int(seconds))
    return found


def number(text):
    """The number of a text, if it has one."""
    return None if text == NONE else int(text)


def day_of(text):
    """The day of a text, if it has one."""
    return None if text == NONE else date.fromisoformat(text)


def climate_of(texts):
    """The climate of the parts of a line behind its title."""
    days, mean, high, high_day, low, low_day, rain, wet, heating, cooling = texts
    return Climate(int(days), None if mean == NONE else int(mean) / MEAN_HUNDREDTHS, number(high), day_of(high_day),
                   number(low), day_of(low_day), number(rain), int(wet),
                   DegreeDays(int(heating) / TOTAL_THOUSANDTHS, int(cooling) / TOTAL_THOUSANDTHS))


def climate_year(lines, year):
    """The climate of the lines of a year."""
    days, spans = {}, {}
    for line in lines:
        if line.startswith('degree '):
            day, heating, heating_time, cooling, cooling_time = matched(DEGREE, line)
            days[day] = DegreeDays(int(heating) / int(heating_time) / DEGREE_TENTHS,
                                   int(cooling) / int(cooling_time) / DEGREE_TENTHS)
        else:
            title, *texts = matched(CLIMATE, line)
            spans[title] = climate_of(texts)
    return ClimateYear(days, spans, spans.pop(str(year), None))


class Archive:
    """An archive, of which the program reports."""

    def __init__(self, program, name):
        self.program, self.name = program, name

    def lines(self, *words):
        """The lines that the program prints, with their line feeds, and its status."""
        try:
            ran = subprocess.run([self.program, *words], stdout=subprocess.PIPE, text=True, check=False)
        except OSError as fault:
            raise Refused(f'the program is missing: {self.program}') from fault
        return ran.stdout.splitlines(keepends=True), ran.returncode

    def answered(self, lines, status):
        """The lines, if they are a whole answer."""
        if status:
            raise Refused(f'{self.name}: {lines[-1].rstrip() if lines else f"status {status}"}')
        try:
            return [row_lines.whole(line) for line in lines]
        except row_lines.NotRows as reason:
            raise Refused(f'{self.name}: {reason}') from None

    def report(self, kind, first=FIRST_DAY, last=LAST_DAY):
        """The lines of a report."""
        first, last = max(first, FIRST_DAY), min(last, LAST_DAY)
        return self.answered(*self.lines('report', self.name, kind, first.isoformat(), last.isoformat()))

    def lines_of_rows(self, first, last):
        """The row lines of some days."""
        return self.report('rows', first, last)

    def days(self, first, last):
        """The summaries of some days."""
        return summaries(self.report('days', first, last))

    def months(self):
        """The summaries of all months."""
        return summaries(self.report('months'))

    def climate(self, year):
        """The climate of a year, or None if the program does not know the command."""
        lines, status = self.lines('climate', self.name, str(year))
        return None if status == USAGE else climate_year(self.answered(lines, status), year)
