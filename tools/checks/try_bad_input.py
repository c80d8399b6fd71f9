#!/usr/bin/python3
"""Tries what page.py, weewx.py, chart.py and export.py do of bad input: one line, a status of USING, and nothing half made.

    tools/checks/try_bad_input.py PROGRAM

Each tool is given an archive that is missing, a folder that cannot be written, and a disk that is full, and is stopped by SIGTERM
as it waits for the program. A folder that cannot be written and a full disk take root, for a file system in memory. The last line
is 'N passed, M failed', and the status is 1 if any failed.
"""
import os
import signal
import sqlite3
import subprocess
import sys
from contextlib import closing, contextmanager
from pathlib import Path

sys.dont_write_bytecode = True  # nothing is left beside the scripts

from trying import Differs, LeftOut, await_that, hold, leave_out, try_all, until_end

TOOLS = Path(__file__).resolve().parent.parent
ARCHIVE, DAYS = 'roof.archive', ('2024-07-01', '2024-07-02')
STATION = ('--station', 'roof', '--settings', '.', '--archives', '.')
ROWS = [f'row {day} {minute // 60:02}:{minute % 60:02} 5 outTemp={600 + minute % 97} rain={minute % 2}\n'
        for day in DAYS for minute in range(5, 1440, 5)]
SETTINGS = 'TZ=Etc/GMT-1\nBUCKET=0.01in\n'
SLOW = '#!/bin/sh\ntouch called\nsleep 60\n'
WAITING = 60  # seconds that a tool may take until it calls the program
SPACE = 'size=20k'  # of a disk that is full soon: some files of a page fit
DATABASE = 'out/weewx.sdb'

# The words of each tool that write below the folder `out`, and what each calls its input.
WRITES = {
    'page': ('page.py', *STATION, 'out/page'),
    'chart': ('chart.py', *STATION, '--days', *DAYS, 'out/chart.png'),
    'export': ('export.py', *STATION, '--days', *DAYS, 'out/table.csv'),
    'weewx': ('weewx.py', 'database', *STATION, DATABASE),
}


def prepare(program):
    """Makes a station with an archive of two days."""
    program.write('roof.env', SETTINGS)
    program.write('rows', ''.join(ROWS))
    hold('the import', program.run(f'import rows {ARCHIVE}').status, 0)
    (program.folder / 'out').mkdir()


def run(program, tool, script=None):
    """Runs a tool; gives its status, and what it printed."""
    name, *words = WRITES[tool]
    ran = subprocess.run([TOOLS / 'product' / name, *words, '--program', script or program.path], cwd=program.folder, capture_output=True,
                         text=True, stdin=subprocess.DEVNULL, check=False)
    return ran.returncode, ran.stdout + ran.stderr


def hold_refusal(what, ended, reason):
    """Holds an end against status 1 and one line that has a reason."""
    status, printed = ended
    if status != 1 or len(printed.splitlines()) != 1 or reason not in printed or not printed.startswith(f'{what.split()[0]}: '):
        raise Differs(f'{what}: {ended}')


def folders_made():
    """The folders that the tools make before they ask the program."""
    return ['page'] if 'page' in WRITES else []


def below(folder):
    """The files and folders below a folder."""
    return sorted(str(path.relative_to(folder)) for path in folder.rglob('*'))


@contextmanager
def mounted(folder, *options):
    """A file system in memory at a folder."""
    if os.geteuid():
        raise LeftOut('a full disk and a folder that cannot be written were not tried, which takes root')
    made = subprocess.run(['mount', '-t', 'tmpfs', *options, 'none', folder], capture_output=True, check=False)
    if made.returncode:
        raise LeftOut('a file system in memory is refused: no full disk was tried')
    try:
        yield
    finally:
        subprocess.run(['umount', '-l', folder], check=True)


def archives_that_are_missing(program):
    """An archive that is missing is named, and nothing is made but the folder of a page."""
    prepare(program)
    (program.folder / ARCHIVE).unlink()
    for tool in WRITES:
        hold_refusal(f'{tool} of no archive', run(program, tool), 'disk fault')
    hold('what is there', below(program.folder / 'out'), folders_made())


def folders_that_cannot_be_written(program):
    """A folder that cannot be written, or is a file, is named."""
    prepare(program)
    with mounted(program.folder / 'out', '-o', 'ro'):
        for tool in WRITES:
            hold_refusal(f'{tool} into a folder that cannot be written', run(program, tool), 'Read-only file system')
    (program.folder / 'out').rmdir()
    program.write('out', 'a file')
    for tool in WRITES:
        hold_refusal(f'{tool} into a file', run(program, tool), 'Not a directory')


def disks_that_are_full(program):
    """On a full disk nothing that is half made is left, and what was there before stays."""
    prepare(program)
    out = program.folder / 'out'
    for tool in WRITES:
        with mounted(out, '-o', SPACE):
            (out / 'mine').write_text('x' * 8000)
            ended = run(program, tool)
            hold_refusal(f'{tool} on a full disk', ended, 'database or disk is full' if tool == 'weewx' else 'No space left')
            left = [name for name in below(out) if not name.startswith('page/climate')]
            halves = [name for name in left if '.new-' in name or name.endswith(('.sdb', '.png', '.csv', '.conf', '.html'))]
            hold(f'what is left of {tool}', halves, [])
            hold('what was there', (out / 'mine').read_text(), 'x' * 8000)


def updates_on_a_full_disk(program):
    """An update for which a disk has no room leaves the database as it was, and nothing beside it."""
    prepare(program)
    hold('a database', run(program, 'weewx')[0], 0)
    with closing(sqlite3.connect(program.folder / DATABASE, isolation_level=None)) as link:
        link.execute('DELETE FROM archive WHERE dateTime > (SELECT min(dateTime) FROM archive)')
        link.execute('VACUUM')
    data = program.read(DATABASE)
    with mounted(program.folder / 'out', '-o', SPACE):
        program.write(DATABASE, data)
        hold_refusal('weewx in an update on a full disk', run(program, 'weewx'), 'database or disk is full')
        hold('what is left of it', (program.read(DATABASE) == data, below(program.folder / 'out')), (True, ['weewx.sdb']))


def stopped(program, tool):
    """Stops a tool as it waits for the program; gives its status, and what it printed."""
    called = program.folder / 'called'
    called.unlink(missing_ok=True)
    name, *words = WRITES[tool]
    process = subprocess.Popen([TOOLS / 'product' / name, *words, '--program', './slow'], cwd=program.folder, stdout=subprocess.PIPE,
                               stderr=subprocess.STDOUT, stdin=subprocess.DEVNULL, text=True, start_new_session=True)
    try:
        await_that('it does not call the program', called.exists, WAITING)
    finally:
        os.killpg(process.pid, signal.SIGTERM)
    printed, _ = until_end(process, WAITING)
    return process.returncode, printed


def tools_that_are_stopped(program):
    """A tool that is stopped says so in one line, and leaves nothing that is half made."""
    prepare(program)
    program.write('slow', SLOW)
    (program.folder / 'slow').chmod(0o755)
    for tool in WRITES:
        hold_refusal(f'{tool} that is stopped', stopped(program, tool), 'stopped by SIGTERM')
    hold('what is there', below(program.folder / 'out'), folders_made())
    for tool in WRITES:
        hold(f'{tool} behind it', run(program, tool)[0], 0)
    data = program.read(DATABASE)
    hold_refusal('weewx that is stopped in an update', stopped(program, 'weewx'), 'stopped by SIGTERM')
    hold('the database', (program.read(DATABASE) == data, [name for name in below(program.folder / 'out') if '.sdb-' in name]), (True, []))


def is_there(library):
    """Whether a library of Python is here."""
    return subprocess.run(['/usr/bin/python3', '-c', f'import {library}'], capture_output=True, check=False).returncode == 0


CASES = (archives_that_are_missing, folders_that_cannot_be_written, disks_that_are_full, updates_on_a_full_disk,
         tools_that_are_stopped)
AT_ONCE = 2

if __name__ == '__main__':
    for missing in [library for library in ('jinja2', 'matplotlib') if not is_there(library)]:
        leave_out(f'python3-{missing} is missing: no bad input was given to the page and the chart')
        WRITES = {tool: words for tool, words in WRITES.items() if tool not in ('page', 'chart')}
    sys.exit(try_all(sys.argv, __doc__, CASES, AT_ONCE))
