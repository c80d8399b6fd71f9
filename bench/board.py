#!/usr/bin/env python3
"""Counts what a small board is asked, and prints it as a table in markdown.

    bench/board.py PROGRAM ARM64 [DEBIAN]

PROGRAM and ARM64 are the built programs for x86-64 and for arm64. The instructions are those outside the system, as a plugin of the
emulator counts them. The memory is the greatest resident one of PROGRAM, since the emulator has memory of its own. What the disk is
asked are the calls of PROGRAM by strace, and the sectors that Linux writes to a file with ext4 as a disk, which takes root. With
DEBIAN, a folder of tools/build/arm64/try_root.sh --keep, the instructions of its Python are counted too. The files are made in out/bench.
It takes some minutes, and is no test.
"""
import os
import re
import shutil
import signal
import subprocess
import sys
import tempfile
import time
from contextlib import contextmanager
from datetime import timedelta
from functools import partial

sys.dont_write_bytecode = True  # nothing is left beside the scripts
import made_archive
import runs
from inputs import TOP, Inputs
from held_port import held_port

FOLDER = f'{TOP}/out/bench'
LIBRARY = '/usr/aarch64-linux-gnu'
EMULATOR = 'qemu-aarch64'
LINKED = '/usr/lib/aarch64-linux-gnu/blas:/usr/lib/aarch64-linux-gnu/lapack'  # absolute links lead there, which the emulator misses
YEAR, MOST = 105_120, 1_048_576  # rows: an archive takes no further row then
SIZES = 1_000, YEAR, MOST
BATCH = 5
NO_DAY = '2100-01-01', '2100-01-01'
STAY_ROUNDS = 10
DUMP = 2_560  # records of a whole memory
ROWS_OF_AN_HOUR = 12
TURNS_ON_DISK = 5
DISK_BYTES, BLOCK_BYTES = 256 << 20, '4096'  # of a large disk, as cards have them
SECTOR, SECTORS_WRITTEN = 512, 6  # the place of a number in the line of a disk
SERVES_WITHIN = 1  # second


class Board:
    """The two programs, and a folder to work in."""

    def __init__(self, folder, program, arm64):
        self.folder, self.program = folder, os.path.realpath(program)
        self.counts, self.plugin, self.counted = (f'{folder}/{name}' for name in ('counts', 'instructions.so', 'counted'))
        self.settings, self.archive = f'{folder}/settings.toml', f'{folder}/archive'
        subprocess.run(['cc', '-O2', '-shared', '-fPIC', '-o', self.plugin, f'{TOP}/bench/instructions.c'], check=True)
        for name, text in ((self.settings, 'period = 5\n'), (self.counted, self.script(LIBRARY, os.path.realpath(arm64)))):
            with open(name, 'w', encoding='utf-8') as file:
                file.write(text)
        os.chmod(self.counted, 0o755)

    def script(self, root, words):
        """A script that runs a command for arm64 over the files of a root, and counts its instructions."""
        return f'#!/bin/sh\nINSTRUCTIONS={self.counts} exec {EMULATOR} -plugin {self.plugin} -L {root} {words} "$@"\n'

    def instructions(self, *words):
        """The instructions of the program for arm64, and of those that it runs."""
        subprocess.run([self.counted, *words], stdout=subprocess.DEVNULL, check=True)
        return self.taken()

    def taken(self):
        """The sum of what was counted since the last call."""
        with open(self.counts, encoding='ascii') as file:
            total = sum(int(line) for line in file)
        os.remove(self.counts)
        return total

    def memory(self, *words):
        """The MiB that the program for x86-64 has at most."""
        return runs.run(runs.Way('', [self.program, *words])).memory


@contextmanager
def console(rows, more):
    """The address of a console that has the last of so many rows and some more records."""
    last = made_archive.FIRST + timedelta(minutes=made_archive.MINUTES * (rows - 1))
    with held_port() as port:
        words = [f'{TOP}/tools/checks/fake_console.py', '--run', f'{last:%Y-%m-%d %H:%M}', str(1 + more), str(port)]
        with subprocess.Popen(words, stdout=subprocess.DEVNULL) as process:
            time.sleep(SERVES_WITHIN)
            try:
                yield f'127.0.0.1:{port}'
            finally:
                process.terminate()


def print_row(name, instructions, memory=None):
    """Prints a line of the table."""
    print(f'| {name} | {instructions / 1e6:,.2f} | {f"{memory:.1f}" if memory else ""} |', flush=True)


def count_opening(board, inputs, rows):
    """An archive is opened by a report of no day, by a round without a new row, and by one with a new row."""
    report = ['report', inputs.archive(rows, BATCH), 'rows', *NO_DAY]
    print_row(f'opening {rows:,} rows', board.instructions(*report), board.memory(*report))
    for more in (0, 1)[:1 if rows == MOST else 2]:
        with console(rows, more) as address:
            words = ['station', board.settings, board.archive, address]
            shutil.copyfile(inputs.archive(rows, BATCH), board.archive)
            counted = board.instructions(*words)
            shutil.copyfile(inputs.archive(rows, BATCH), board.archive)
            print_row(f'a round with {more} new rows, {rows:,} rows', counted, board.memory(*words))


def count_stay(board, inputs, rows):
    """One more round of a stay, without a new row."""
    counts = []
    for rounds in (1, 1 + STAY_ROUNDS):
        with console(rows, 0) as address:
            shutil.copyfile(inputs.archive(rows, BATCH), board.archive)
            counts.append(board.instructions('stay', board.settings, board.archive, address, str(rounds), '0'))
    print_row(f'a round of a stay without a new row, {rows:,} rows', (counts[1] - counts[0]) / STAY_ROUNDS)


def page_words(program, archive):
    """The words that make a page of an archive, but for its folder."""
    return [f'{TOP}/tools/product/page.py', '--metric', '--name', 'Roof', '--program', program, archive]


def make_round(board, archive, rows, more):
    """Makes a round with so many new rows over an archive of so many."""
    with console(rows, more) as address:
        subprocess.run([board.program, 'station', board.settings, archive, address], stdout=subprocess.DEVNULL, check=True)


def count_tools(board, source, program, what, python=()):
    """What the tools are asked over a year's archive: by a first page, one behind a new row, and a check."""
    archive = shutil.copyfile(source, board.archive)
    page = [*page_words(program, archive), f'{board.folder}/page_of_{what}']
    check = [f'{TOP}/tools/product/check.py', '-p', program, archive]
    environment = {**os.environ, 'MPLCONFIGDIR': f'{board.folder}/letters'}
    for name, words in (('a first page', page), ('a page behind a new row', page), ('a check', check)):
        if name.endswith('row'):
            make_round(board, archive, YEAR, 1)
        subprocess.run([*python, *words], env=environment, stdout=subprocess.DEVNULL, check=False)  # the check finds old rows
        print_row(f'{what} for {name}, {YEAR:,} rows', board.taken())


def python_of(board, debian):
    """A script that runs Python of a Debian for arm64, and counts its instructions."""
    script = f'{board.folder}/python'
    with open(script, 'w', encoding='utf-8') as file:
        file.write(board.script(debian, f'-E LD_LIBRARY_PATH={LINKED} {debian}/usr/bin/python3'))
    os.chmod(script, 0o755)
    return script


def count_calls(board, inputs, rows):
    """What the disk is asked by a round with one new row, by its calls."""
    with console(rows, 1) as address:
        shutil.copyfile(inputs.archive(rows, BATCH), board.archive)
        words = ['strace', '-y', '-e', 'trace=write,pwrite64,fsync,fdatasync', '-o', f'{board.folder}/calls', board.program,
                 'station', board.settings, board.archive, address]
        subprocess.run(words, stdout=subprocess.DEVNULL, check=True)
    with open(f'{board.folder}/calls', encoding='utf-8', errors='replace') as file:
        calls = file.readlines()
    sizes = [found[1] for line in calls if '/archive>' in line and (found := re.match(r'p?write.*= (\d+)$', line))]
    waits = sum(line.startswith(('fsync', 'fdatasync')) for line in calls)
    print(f'\nA round with one new row writes {" and ".join(sizes)} bytes, and waits {waits} times for the disk.', flush=True)


@contextmanager
def disk(board):
    """A new disk with ext4: the folder at which it stands, and the line of it that the system keeps."""
    image, folder = f'{board.folder}/disk', f'{board.folder}/on_disk'
    with open(image, 'wb') as file:
        file.truncate(DISK_BYTES)
    subprocess.run(['mkfs.ext4', '-q', '-F', '-b', BLOCK_BYTES, '-E', 'lazy_itable_init=0,lazy_journal_init=0', image], check=True)
    os.makedirs(folder)
    ran = subprocess.run(['losetup', '-f', '--show', image], stdout=subprocess.PIPE, text=True, check=True)
    loop = ran.stdout.strip()
    try:
        subprocess.run(['mount', loop, folder], check=True)
        yield folder, f'/sys/block/{os.path.basename(loop)}/stat'
    finally:
        subprocess.run(['umount', folder], check=False)
        subprocess.run(['losetup', '-d', loop], check=True)


def sectors(folder, line):
    """How many sectors a disk was written."""
    subprocess.run(['sync', '-f', folder], check=True)
    with open(line, encoding='ascii') as file:
        return int(file.read().split()[SECTORS_WRITTEN])


def written(folder, line, act):
    """How many KiB a disk is written by what is done."""
    before = sectors(folder, line)
    act()
    return (sectors(folder, line) - before) * SECTOR / 1024


def count_sectors(board, source):
    """What a disk is written by rounds of a row, by the pages behind them, and by rounds of an hour and of a whole memory."""
    with disk(board) as (folder, line):
        archive = shutil.copyfile(source, f'{folder}/archive')

        def make_page():
            subprocess.run([*page_words(board.program, archive), f'{folder}/page'], check=True)

        make_page()
        rounds, pages = [], []
        for rows in range(YEAR, YEAR + TURNS_ON_DISK):
            rounds.append(written(folder, line, partial(make_round, board, archive, rows, 1)))
            pages.append(written(folder, line, make_page))
        hour = written(folder, line, partial(make_round, board, archive, YEAR + TURNS_ON_DISK, ROWS_OF_AN_HOUR))
        whole = written(folder, line, partial(make_round, board, f'{folder}/new', 1, DUMP - 1))
    for name, each in (('a round with one new row', rounds), ('a page behind it', pages),
                       (f'a round with {ROWS_OF_AN_HOUR} new rows', [hour]), (f'a round with {DUMP - 1:,} new rows', [whole])):
        print(f'On ext4 {name} writes {sum(each) / len(each):,.1f} KiB.')


def main(program, arm64, debian=None):
    signal.signal(signal.SIGTERM, lambda *_: sys.exit('ended by a signal'))  # a disk is taken away too
    inputs = Inputs(FOLDER)
    os.environ['TZ'] = 'UTC'
    with tempfile.TemporaryDirectory(dir=FOLDER) as folder:
        board = Board(folder, program, arm64)
        print('| What | Million instructions | MiB |\n|---|---|---|')
        for rows in SIZES:
            count_opening(board, inputs, rows)
        for rows in SIZES[:2]:
            count_stay(board, inputs, rows)
        year = inputs.archive(YEAR, BATCH)
        count_tools(board, year, board.counted, 'the program')
        if debian:
            count_tools(board, year, board.program, 'Python', [python_of(board, os.path.realpath(debian))])
        count_calls(board, inputs, SIZES[0])
        if os.geteuid() == 0:
            count_sectors(board, year)


if __name__ == '__main__':
    if len(sys.argv) not in (3, 4):
        sys.exit(__doc__)
    main(*sys.argv[1:])
