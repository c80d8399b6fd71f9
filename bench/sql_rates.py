#!/usr/bin/python3
"""Measures how fast runs of sql.py at once bring rows into one PostgreSQL, and prints a table in markdown.

    bench/sql_rates.py [--rows ROWS] [--stations STATIONS] [--tool FILE] [WRITERS ..]

A server of its own listens at a socket in a folder below TMPDIR, with the settings that PostgreSQL has by itself: it waits for the
disk. For each number of writers, 1, 8 and 32 if none is named, a new database is filled: each writer brings 100,000 rows of a
station of its own. Then come rounds: each writer has 1,000 stations of its own, and brings one new row of each in one run. The
first such run makes the stations, and the next three are measured. Last each writer makes 20 runs of one row. Writers and server
share the machine with all else that runs there, which makes a rate by the clock less. Seconds of the processor stay. It is no test.
"""
import argparse
import os
import subprocess
import sys
import tempfile
import time
from concurrent.futures import ThreadPoolExecutor
from datetime import datetime, timedelta
from pathlib import Path
from typing import NamedTuple

sys.dont_write_bytecode = True  # nothing is left beside the scripts
TOOLS = Path(__file__).resolve().parent.parent / 'tools'
sys.path.insert(0, str(TOOLS / 'checks'))

from sql_database import Database
from sql_server import Server, newest

OPTIONS = ('max_connections=100',)
WRITERS = 1, 8, 32
ROWS, STATIONS = 100_000, 1000
ROUNDS, SINGLE_RUNS = 3, 20
PERIOD = timedelta(minutes=5)
FIRST = datetime(2023, 1, 1, 0, 5)  # a fill of 100,000 rows ends in December
MILLIS = 1000
ZONE = 'Etc/GMT-1'
TITLES = '| Writers | Work | Rows | Rows a second by the clock | Writers, ms of a processor a row | Server, the same |'

# What a console without further sensors sends.
VALUES = ('outTemp={0} highOutTemp={0} lowOutTemp={0} rain=0 highRainRate=0 barometer=29921 windSamples=117 inTemp=702 '
          'inHumidity=41 outHumidity={1} windSpeed=3 windGust=7 windGustDir=12 windDir=11 ET=0 forecastRule=45')


class Took(NamedTuple):
    """What some rows took: seconds by the clock, and of the processor those of the writers and those of the server."""
    rows: int
    clock: float
    writers: float
    server: float

    def cells(self):
        """The cells of a line of the table."""
        each = (f'{seconds / self.rows * MILLIS:.3g}' for seconds in (self.writers, self.server))
        return f'{self.rows:,}', f'{self.rows / self.clock:,.0f}', *each


def row_line(number):
    """The row line of a number."""
    values = VALUES.format(650 + number % 97, 40 + number % 50)
    return f'row {FIRST + number * PERIOD:%Y-%m-%d %H:%M} 5 {values}\n'


def of_children():
    """What the children that have ended took of the processor."""
    times = os.times()
    return times.children_user + times.children_system


class Rates:
    """The measure of so many writers over a database of their own."""

    def __init__(self, server, chosen, folder, writers):
        self.server, self.chosen, self.folder, self.writers = server, chosen, Path(folder), writers
        self.database = Database(server, f'by_{writers}')

    def bring(self, text, *words):
        """A run over the row lines of a text."""
        given = [self.chosen.tool, '--zone', ZONE, *words, self.database.place]
        subprocess.run(given, input=text, text=True, stdout=subprocess.DEVNULL, check=True)

    def at_once(self, rows, runs):
        """What it takes if the writers make their runs at once. Each is handed its number."""
        server, writers, began = self.server.processor_seconds(), of_children(), time.monotonic()
        with ThreadPoolExecutor(self.writers) as pool:
            list(pool.map(runs, range(self.writers)))
        clock = time.monotonic() - began
        return Took(rows, clock, of_children() - writers, self.server.processor_seconds() - server)

    def fill(self):
        """A fill of a station by each writer."""
        text = ''.join(map(row_line, range(self.chosen.rows)))
        return self.at_once(self.writers * self.chosen.rows,
                            lambda writer: self.bring(text, '--station', f'filled{writer}'))

    def rounds(self):
        """Rounds of many stations by each writer in a run. The first one is not counted."""
        def of_round(number):
            line = row_line(self.chosen.rows + number)
            texts = [''.join(f'station s{writer}-{station}\n{line}' for station in range(self.chosen.stations))
                     for writer in range(self.writers)]
            return self.at_once(self.writers * self.chosen.stations, lambda writer: self.bring(texts[writer]))

        of_round(0)
        took = [of_round(number) for number in range(1, 1 + ROUNDS)]
        return Took(*map(sum, zip(*took)))

    def single_runs(self):
        """Runs of one row, one after another, by each writer."""
        def runs(writer):
            for number in range(SINGLE_RUNS):
                self.bring(row_line(self.chosen.rows + number), '--station', f'filled{writer}')

        return self.at_once(self.writers * SINGLE_RUNS, runs)

    def row_bytes(self):
        """The bytes of a row with its key."""
        size, rows = self.database.ask('SELECT pg_total_relation_size(oid), (SELECT count(*) FROM weather) FROM pg_class '
                                       "WHERE relname = 'weather_2023'")[0]
        return size / rows


def measure(server, chosen, folder):
    """Measures and prints the table."""
    print(TITLES, '|---|---|---|---|---|---|', sep='\n', flush=True)
    for writers in chosen.writers or WRITERS:
        rates = Rates(server, chosen, folder, writers)
        works = {'a first fill': rates.fill, 'rounds of many stations': rates.rounds, 'a run for each row': rates.single_runs}
        for name, work in works.items():
            print('|', ' | '.join((str(writers), name, *work().cells())), '|', flush=True)
        print(f'{rates.row_bytes():.0f} bytes a row', file=sys.stderr)
        rates.database.drop()


def main():
    words = argparse.ArgumentParser(prog='sql_rates', description='Measures how fast rows come into PostgreSQL.')
    words.add_argument('writers', type=int, nargs='*')
    words.add_argument('--rows', type=int, default=ROWS, help='of a fill')
    words.add_argument('--stations', type=int, default=STATIONS, help='of a writer in a round')
    words.add_argument('--tool', default=str(TOOLS / 'product/sql.py'), help='another sql.py')
    chosen = words.parse_args()
    commands = newest()
    if commands is None:
        sys.exit('sql_rates: postgresql is missing')
    with tempfile.TemporaryDirectory() as folder:
        server = Server(commands, folder, OPTIONS)
        try:
            measure(server, chosen, folder)
        finally:
            server.stop()


if __name__ == '__main__':
    main()
