#!/usr/bin/python3
"""Answers as the program does, for a trial of page.py: reports and climate tables by the model.

Its archive is a folder that `write_archive` made. The command `climate` is known if that folder has such a file.
"""
import sys
from pathlib import Path

sys.dont_write_bytecode = True  # nothing is left beside the scripts

from model.climate import climate_lines
from model.reports import KINDS, report_lines
from model.stamps import FIRST_DAY, LAST_DAY, archive_day, date_of

USAGE, USAGE_LINE = 1, 'usage\n'
DISK_FAULT, DISK_FAULT_LINE = 7, 'disk fault\n'
DAY = len('2000-01-01')  # letters of its title


def title_of(day, letters):
    """The title of a day, or of its month or year."""
    return date_of(day).isoformat()[:letters]


def climate_of_years(rows):
    """The lines of the climate tables of all years."""
    for year in sorted({date_of(archive_day(row.stamp)).year for row in rows}):
        yield from climate_lines(rows, year)


def titled(kind, rows):
    """The lines of a report, each with the day or month that it is of."""
    lines = report_lines(rows, kind, FIRST_DAY, LAST_DAY)
    if kind == 'rows':
        return [(title_of(archive_day(row.stamp), DAY), line) for row, line in zip(rows, lines)]
    return [(line.split()[1], line) for line in lines]


def write_archive(folder, rows, has_climate=True):
    """Writes what is reported of some rows to a folder."""
    folder.mkdir(exist_ok=True)
    files = {kind: titled(kind, rows) for kind in KINDS}
    if has_climate:
        files['climate'] = [(line.split()[1], line) for line in climate_of_years(rows)]
    for name, lines in files.items():
        (folder / name).write_text(''.join(f'{title}\t{line}\n' for title, line in lines))


def chosen(file, first, last):
    """The lines of a file whose title lies between two others."""
    with file.open() as lines:
        return [line for title, _, line in (line.partition('\t') for line in lines) if first[:len(title)] <= title <= last]


def answer(command, archive, *words):
    """The lines and the status that the words of a command line are answered by."""
    if not Path(archive).is_dir():
        return [DISK_FAULT_LINE], DISK_FAULT
    if command == 'report':
        kind, first, last = words
        return chosen(Path(archive, kind), first, last), 0
    if command == 'climate' and Path(archive, 'climate').exists():
        year, = words
        return chosen(Path(archive, 'climate'), year, f'{year}-12-31'), 0
    return [USAGE_LINE], USAGE


def main(words):
    """Answers the words of the command line; gives the status."""
    lines, status = answer(*words)
    sys.stdout.writelines(lines)
    return status


if __name__ == '__main__':
    sys.exit(main(sys.argv[1:]))
