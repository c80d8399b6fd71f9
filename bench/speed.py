#!/usr/bin/env python3
"""Measures the program beside other programs that do the same work, and prints a table in markdown.

    bench/speed.py PROGRAM [--turns N] [--only WORD] [--instructions]

PROGRAM is the built program, as crates/station_program/out/station_program. The files that it works on are made in
out/bench, and so are the programs in C of this folder, by `cc -O2`. All ways to do one work take turns, and a way that
can be compared has to print the same bytes. Times are of the processor: the median and, in brackets, the least; where a
work waits for the disk they are by the clock. A further column has the time of one item at a hundredth, a tenth and all of
the work, and the last one, if asked for, the instructions of one item outside the system. It is no test.
"""
import argparse
import os
import shutil
import subprocess
import sys
from typing import NamedTuple

sys.dont_write_bytecode = True  # nothing is left beside the scripts
import runs
from inputs import ROWS_OF_A_BATCH, TOLD_FIELDS, TOP, Inputs
from runs import Way

FOLDER = f'{TOP}/out/bench'
TURNS = 7
SHARES = 100, 10, 1
COUNTED = 1  # the place of the share whose instructions are counted

PAGES = 62_000
MOST_ROWS = 1_048_575
ROWS = 104_857
FEW_ROWS = 2_000
MOST_PACKETS = 161_319  # in a file of 16 MiB, the largest that `soft` takes
ROUNDS = 200
RECORDS = 5_000
MAKE_SEED = '7'
DUMP, TIMER = 5, 1  # how many rows a batch has

ALL_DAYS = '1999-12-31', '2127-12-31'
NO_DAY = '2100-01-01', '2100-01-01'
YEAR = '2000'
DAYS_OF_YEAR = f'{YEAR}-01-01', f'{YEAR}-12-31'
LOST_PAGE = 'reply 4 lost'

MICROSECONDS = 1_000_000
MEBIBYTE = 1 << 20
WHOLE = 100  # from so many microseconds on they are printed without digits behind the point
DIGITS = 2


class Work(NamedTuple):
    """Some work of a size, the ways to do it, the program's first, and what one item of it is."""
    name: str
    item: str
    count: int
    size: str
    ways: list[Way]
    by_clock: bool = False
    is_same: tuple[str, ...] = ()  # the ways that print what the program prints


class Station:
    """The works of the program, each by the share of it that is done."""

    def __init__(self, program, inputs):
        self.program = program
        self.inputs = inputs
        self.sqlite = shutil.which('sqlite3')

    def way(self, *words, **more):
        """A way by the program."""
        return Way('station', [self.program, *words], **more)

    def anchor(self, name, title, *words):
        """A way by a program in C, unless it cannot be built here."""
        try:
            return [Way(title, [self.inputs.anchor(name), *words])]
        except subprocess.CalledProcessError:
            print(f'{name}.c cannot be built here', file=sys.stderr)
            return []

    def pages(self, share):
        """Pages printed."""
        count = PAGES // share
        file = self.inputs.pages(count)
        size = f'{count:,} pages ({os.path.getsize(file) / MEBIBYTE:.1f} MiB)'
        ways = [self.way('pages', file), *self.anchor('best_pages', 'C, check by carry-less multiplication', file),
                *self.anchor('pages', 'C, table of 256 entries, buffered stream', file)]
        return Work('`pages`', 'page', count, size, ways, is_same=tuple(way.name for way in ways))

    def opening(self, share, batch_rows, title):
        """An archive opened, for a report of a day without rows."""
        rows = MOST_ROWS // share
        file = self.inputs.archive(rows, batch_rows)
        ways = [self.way('report', file, 'days', *NO_DAY), *self.anchor('best_report', 'C', file)]
        return Work('open an archive', 'row', rows, f'{rows:,} rows in batches of {title}', ways, is_same=('C',))

    def rows(self, share):
        """The rows of an archive printed."""
        rows = ROWS // share
        file = self.inputs.archive(rows, DUMP)
        ways = [self.way('report', file, 'rows', *ALL_DAYS), *self.anchor('best_report', 'C', file, 'rows')]
        if self.sqlite:
            ways.append(Way('the command sqlite3, a table of these rows', [self.sqlite, self.inputs.table(rows), PRINT_TABLE]))
        return Work('`report rows`', 'row', rows, f'{rows:,} rows', ways, is_same=('C',))

    def report(self, share, kind):
        """The days or months of an archive printed."""
        rows = MOST_ROWS // share
        ways = [self.way('report', self.inputs.archive(rows, DUMP), kind, *ALL_DAYS)]
        return Work(f'`report {kind}`', 'row', rows, f'{rows:,} rows', ways)

    def climate(self, share):
        """The climate of a year, beside the days of that year."""
        rows = MOST_ROWS // share
        file = self.inputs.archive(rows, DUMP)
        days = self.way('report', file, 'days', *DAYS_OF_YEAR)._replace(name='`report days` of that year')
        return Work('`climate`', 'row', rows, f'a year of {rows:,} rows', [self.way('climate', file, YEAR), days])

    def soft(self, share):
        """The rows that live packets make."""
        count = MOST_PACKETS // share
        file = self.inputs.packets(count)
        size = f'{count:,} packets ({os.path.getsize(file) / MEBIBYTE:.1f} MiB)'
        return Work('`soft`', 'packet', count, size, [self.way('soft', self.inputs.settings(5), file)])

    def replay(self, share):
        """Rounds over the modelled line, beside the same rounds with a page lost in each."""
        rounds = ROUNDS // share
        settings = self.inputs.settings(1)
        lost = self.way('replay', settings, self.inputs.schedule(rounds, LOST_PAGE))._replace(name='a page lost in each round')
        ways = [self.way('replay', settings, self.inputs.schedule(rounds)), lost]
        return Work('`replay`', 'record', 100 * rounds, f'{100 * rounds:,} records in {rounds} rounds', ways)

    def make(self, share):
        """A made run."""
        count = RECORDS // share
        return Work('`make`', 'record', count, f'{count:,} records', [self.way('make', MAKE_SEED, str(count))])

    def copy(self, share):
        """An archive copied, with no waits for the disk, beside a second copy that finds nothing to add."""
        rows = MOST_ROWS // share
        old, new = self.inputs.archive(rows, DUMP), f'{self.inputs.folder}/copied'
        free = {'LD_PRELOAD': self.inputs.unsynced()}
        again = self.way('copy', old, new, environment=free)._replace(name='copied again')
        ways = [self.way('copy', old, new, environment=free, prepare=lambda: remove(new)), again]
        return Work('`copy`, no waits for the disk', 'row', rows, f'{rows:,} rows', ways)

    def importing(self, share):
        """A text imported into a new archive, with no waits for the disk, beside a copy of the archive that it gives."""
        rows = ROWS // share
        text, new = self.inputs.row_lines(rows), f'{self.inputs.folder}/imported'
        free = {'LD_PRELOAD': self.inputs.unsynced()}
        old = self.inputs.imported(self.program, rows, free)
        copied = self.way('copy', old, new, environment=free, prepare=lambda: remove(new))._replace(name='`copy` of these rows')
        ways = [self.way('import', text, new, environment=free, prepare=lambda: remove(new)), copied]
        size = f'{rows:,} rows of {TOLD_FIELDS} values ({os.path.getsize(text) / MEBIBYTE:.1f} MiB)'
        return Work('`import`, no waits for the disk', 'row', rows, size, ways)

    def adding(self, share):
        """Batches of five rows added, with two waits for the disk each, beside transactions of SQLite."""
        rows = FEW_ROWS // share
        new = f'{self.inputs.folder}/added'
        ways = [self.way('copy', self.inputs.archive(rows, DUMP), new, prepare=lambda: remove(new))]
        for journal, title in ('DELETE', 'rollback journal'), ('WAL', 'write-ahead log'):
            if self.sqlite:
                words = [self.sqlite, new, f'.read {self.inputs.additions(rows, journal)}']
                ways.append(Way(f'SQLite, synchronous=FULL, {title}', words, prepare=lambda: remove(new)))
        batches = rows // ROWS_OF_A_BATCH
        return Work('add batches', 'batch', batches, f'{batches} batches of five rows', ways, by_clock=True)

    def works(self):
        """All works, each with a word that names it."""
        return {
            'pages': self.pages,
            'open-five': lambda share: self.opening(share, DUMP, 'five'),
            'open-one': lambda share: self.opening(share, TIMER, 'one'),
            'rows': self.rows,
            'days': lambda share: self.report(share, 'days'),
            'months': lambda share: self.report(share, 'months'),
            'climate': self.climate,
            'soft': self.soft,
            'replay': self.replay,
            'make': self.make,
            'copy': self.copy,
            'import': self.importing,
            'add': self.adding,
        }


PRINT_TABLE = ("SELECT strftime('%Y-%m-%d %H:%M', stamp, 'unixepoch'), minutes, "
               + ', '.join(f'v{field}' for field in range(37)) + ' FROM archive')


def remove(name):
    """Removes a file, if it is there, and what SQLite keeps beside one."""
    for end in '', '-wal', '-shm', '-journal':
        if os.path.exists(name + end):
            os.remove(name + end)


def compare(work):
    """Ends where two ways do not print the same bytes."""
    wanted = runs.output(work.ways[0])
    for way in work.ways[1:]:
        if way.name in work.is_same and runs.output(way) != wanted:
            raise SystemExit(f'{work.name}, {work.size}: {way.name} prints other bytes')


def seconds(work, taken):
    """The seconds of a way that count."""
    return taken.seconds if work.by_clock else taken.processor


def time_text(work, taken):
    """The median, and the least unless it is by the clock."""
    if work.by_clock:
        return f'{taken.seconds:.3g} s by the clock'
    return f'{taken.processor:.3g} s ({taken.least:.3g})'


def beside_text(work, taken):
    """What the other ways took, each with the ratio of the program's time to it."""
    first, *others = taken
    return '; '.join(f'{way.name}: {time_text(work, one)}, ratio {seconds(work, first) / seconds(work, one):.2f}'
                     for way, one in zip(work.ways[1:], others))


def item_text(works, taken):
    """The program's time for one item, at each share."""
    each = [MICROSECONDS * seconds(work, of[0]) / work.count for work, of in zip(works, taken)]
    return f'{"; ".join(f"{one:,.{DIGITS if one < WHOLE else 0}f}" for one in each)} µs a {works[-1].item}'


def instruction_text(work):
    """The instructions of one item by each way, as far as they can be counted."""
    counts = [(way.name, runs.instructions(way)) for way in work.ways]
    return '; '.join(f'{name}: {count / work.count:,.0f}' for name, count in counts if count)


def row_of(name, works, turns, counts):
    """The row of the table for the work of this name, at each share. All shares of all ways take turns."""
    compare(works[COUNTED])
    ways = [way for work in works for way in work.ways]
    each = iter(runs.in_turns(ways, turns))
    taken = [[next(each) for _ in work.ways] for work in works]
    work, of = works[-1], taken[-1]
    cells = [work.name, work.size, time_text(work, of[0]), f'{of[0].memory:.1f} MiB', beside_text(work, of),
             item_text(works, taken), f'`bench/speed.py --only {name}`']
    return cells + [instruction_text(works[COUNTED])] * counts


def print_row(cells):
    """Prints a row of the table."""
    print('|', ' | '.join(cells), '|', flush=True)


def main():
    options = argparse.ArgumentParser(description='Measures the program, and prints a table in markdown.')
    options.add_argument('program')
    options.add_argument('--turns', type=int, default=TURNS)
    options.add_argument('--only', metavar='WORD', help='a work alone, as pages, open-five, rows or copy')
    options.add_argument('--instructions', action='store_true', help='counts instructions too, by perf or valgrind')
    said = options.parse_args()
    works = Station(os.path.abspath(said.program), Inputs(FOLDER)).works()
    if said.only and said.only not in works:
        options.error(f'no such work; there are {", ".join(works)}')
    head = ['Work', 'Size', 'Time', 'Memory', 'Beside it', 'One item', 'Script'] + ['Instructions of one item'] * said.instructions
    print_row(head)
    print(f'|{"---|" * len(head)}')
    for name, make in works.items():
        if said.only in (None, name):
            print_row(row_of(name, [make(share) for share in SHARES], said.turns, said.instructions))


if __name__ == '__main__':
    main()
