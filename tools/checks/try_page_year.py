#!/usr/bin/python3
"""Tries page.py on a year of rows: how much of a processor it takes, how large its pictures are, and what a second run leaves.

    tools/checks/try_page_year.py PROGRAM

The rows are those of make_year.py, with what is measured inside and what growers measure. PROGRAM imports them and reports of
them. The time of a processor is held against that of a loop of Python beside it, since it grows with what else a machine does.
The last line is 'N passed, M failed', and the status is 1 if any failed.
"""
import os
import subprocess
import sys
import time
from datetime import datetime
from pathlib import Path

sys.dont_write_bytecode = True  # nothing is left beside the scripts

import rooms  # first: the imports below are of other rooms too
import rows as row_lines
from make_year import Year
from trying import Differs, Missed, hold, leave_out, try_all

TOOLS = Path(__file__).resolve().parent.parent
ARCHIVE, FOLDER, ROWS = 'archive', 'folder', 'year.rows'
LAST_DAY = '2024-09-15'
PICTURE_BYTES = 260_000  # of the first view, with the charts for growers
PIECE = 40_000  # lines of a text that is imported, which may have 16 MiB
LOOP_LINES = 20_000  # of which a loop makes values
YEAR_LOOPS = 10  # that a page may take: 5 s where the loop takes 0.5 s


def loop_seconds(lines):
    """The time of a processor in which Python makes values of some lines."""
    began = time.process_time()
    rows = [row_lines.row_of(line, row_lines.Buckets()) for line in lines]
    sorted(rows, key=lambda row: -row.values['outTemp'])
    return time.process_time() - began


def page_seconds(program):
    """Makes the page of the year; gives the time of a processor that it took with the program's runs."""
    words = [TOOLS / 'product/page.py', '--inside', '--metric', '--program', program.path, ARCHIVE, FOLDER]
    process = subprocess.Popen(words, cwd=program.folder)
    _, status, used = os.wait4(process.pid, 0)
    hold('the making', status, 0)
    return used.ru_utime + used.ru_stime


def modified(folder):
    """When each chart and table was written."""
    return {file.name: file.stat().st_mtime_ns for file in folder.iterdir() if not file.name.startswith(('.', 'index', 'last'))}


def year_of_rows(program):
    """The page of a year takes few seconds of a processor, and its pictures few bytes. If nothing changed, nothing is drawn."""
    lines = list(Year(datetime.fromisoformat(LAST_DAY).replace(hour=12)).rows())
    for begin in range(0, len(lines), PIECE):
        program.write(ROWS, ''.join(f'{line}\n' for line in lines[begin:begin + PIECE]))
        subprocess.run([program.path, 'import', ROWS, ARCHIVE], cwd=program.folder, stdout=subprocess.DEVNULL, check=True)
    loops = [loop_seconds(lines[:LOOP_LINES])]
    first = page_seconds(program)
    loops.append(loop_seconds(lines[:LOOP_LINES]))
    loop = sum(loops) / len(loops)
    folder = program.folder / FOLDER
    size = sum(file.stat().st_size for file in folder.glob('*.svg'))
    files = modified(folder)
    second = page_seconds(program)
    print(f'a year of {len(lines)} rows: {first:.1f} s of a processor, and {second:.1f} s again; a loop {loop:.2f} s; '
          f'{size} bytes of pictures', file=sys.stderr)
    hold('what was written again', modified(folder), files)
    if size > PICTURE_BYTES:
        raise Differs(f'{size} bytes of pictures')
    if first > YEAR_LOOPS * loop:
        raise Missed(f'{first:.1f} s of a processor, in which a loop takes {loop:.2f} s')


CASES = (year_of_rows,)
AT_ONCE = 1

if __name__ == '__main__':
    try:
        import page  # needs libraries
    except SystemExit as reason:
        leave_out(f'{str(reason).split(";", maxsplit=1)[0]}: no page of a year was tried')
        sys.exit(0)
    sys.exit(try_all(sys.argv, __doc__, CASES, AT_ONCE))
