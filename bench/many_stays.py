#!/usr/bin/env python3
"""Measures what many stays at once take of the processor and of memory, over one console that answers each of them.

    bench/many_stays.py PROGRAM [--stays N] [--waits N] [--rows N] [--spread SECONDS] [--timer RUNS]

Each of 1,000 stays has an archive of its own with 1,000 rows and makes a round each 750 quiet waits, in which nothing is new. They
begin one after another over a minute, as long waits as they are. Once all are in a pause, it is counted what they take over a round
and its pause, and what memory they have. The console's own time does not count. With --timer so many runs of `station` are made in
their place, one after another over one archive. It is no test.
"""
import argparse
import asyncio
import resource
import shutil
import statistics
import struct
import subprocess
import sys
import tempfile
import time
from pathlib import Path
from typing import NamedTuple

sys.dont_write_bytecode = True  # nothing is left beside the scripts
TOP = Path(__file__).resolve().parent.parent
sys.path.insert(0, str(TOP / 'tools/checks'))

from fake_console import ACK, CANCEL, WAKE_ANSWER, sealed

HERE = '127.0.0.1'
FRAME_BYTES = 6
ROUND_WAITS, QUIET = 9, 0.4  # quiet waits of a round, and seconds of one
REST = 20  # seconds until the last one is in its pause
NANOS, KIB = 1e9, 1024
ENDLESS = '1000000'


class Console:
    """A console that answers many callers at once and has nothing new for any."""

    def __init__(self):
        self.dumps = 0

    async def serve(self, reader, writer):
        """Answers a caller until it is gone."""
        try:
            while True:
                line = (await reader.readuntil(b'\n')).lstrip(ACK + CANCEL)
                if line == b'\n':
                    writer.write(WAKE_ANSWER)
                elif line == b'DMPAFT\n':
                    writer.write(ACK)
                    await reader.readexactly(FRAME_BYTES)
                    writer.write(ACK + sealed(struct.pack('<HH', 0, 0)))
                    self.dumps += 1
        except (asyncio.IncompleteReadError, ConnectionError, asyncio.CancelledError):  # the last one at the end of the measure
            writer.close()


class Moment(NamedTuple):
    """What some processes have taken at a moment: seconds of the processor, and KiB of memory, also those of each alone."""
    clock: float
    processor: float
    shared_out: int  # memory, of which what several share counts in parts
    largest: int


def moment(runs):
    """What the runs have taken so far."""
    nanos, parts, largest = 0, 0, 0
    for run in runs:
        folder = Path(f'/proc/{run.pid}')
        nanos += int((folder / 'schedstat').read_text(encoding='ascii').split()[0])
        sizes = dict(line.split(':') for line in (folder / 'smaps_rollup').read_text(encoding='ascii').splitlines()[1:])
        parts += int(sizes['Pss'].split()[0])
        largest = max(largest, int(sizes['Rss'].split()[0]))
    return Moment(time.monotonic(), nanos / NANOS, parts, largest)


def begin(chosen, folder, port, number):
    """Begins a stay over an archive of its own."""
    archive = f'{folder}/archive{number}'
    shutil.copyfile(f'{folder}/made', archive)
    words = [chosen.program, 'stay', f'{folder}/settings', archive, f'{HERE}:{port}', ENDLESS, str(chosen.waits)]
    return subprocess.Popen(words, stdout=subprocess.DEVNULL)


def processor_of_children():
    """What the children that have ended took of the processor, in seconds."""
    usage = resource.getrusage(resource.RUSAGE_CHILDREN)
    return usage.ru_utime + usage.ru_stime


async def measure_timer(chosen, folder, port):
    """Measures and prints what runs of `station` take."""
    words = [chosen.program, 'station', f'{folder}/settings', f'{folder}/made', f'{HERE}:{port}']
    took = []
    for _ in range(chosen.timer):
        before = processor_of_children()
        await asyncio.to_thread(subprocess.run, words, stdout=subprocess.DEVNULL, check=True)
        took.append(processor_of_children() - before)
    size = Path(f'{folder}/made').stat().st_size
    print(f'{chosen.rows} rows, {size:,} bytes: {statistics.median(took):.3f} s of a processor, at least {min(took):.3f} s')


async def measure_stays(chosen, folder, port, console):
    """Measures and prints what the stays take."""
    period = (ROUND_WAITS + chosen.waits) * QUIET
    runs = []
    try:
        for number in range(chosen.stays):
            runs.append(begin(chosen, folder, port, number))
            await asyncio.sleep(chosen.spread / chosen.stays)
        await asyncio.sleep(REST)
        begun, dumps = moment(runs), console.dumps
        await asyncio.sleep(period)
        ended, dumps = moment(runs), console.dumps - dumps
        alive = sum(run.poll() is None for run in runs)
    finally:
        for run in runs:
            run.kill()
            run.wait()
    took, clock = ended.processor - begun.processor, ended.clock - begun.clock
    print(f'{alive} of {chosen.stays} stays ran on; {dumps} dumps in {clock:.0f} s')
    print(f'{took:.1f} s of a processor, {took / clock:.3f} of one; {took / chosen.stays * 1000:.1f} ms for a stay')
    print(f'{ended.shared_out / KIB:.0f} MiB of memory; the largest stay has {ended.largest / KIB:.1f} MiB')


async def measure(chosen, folder):
    """Measures over a console at a port of this machine."""
    console = Console()
    door = await asyncio.start_server(console.serve, HERE, 0, backlog=chosen.stays)
    port = door.sockets[0].getsockname()[1]
    if chosen.timer:
        await measure_timer(chosen, folder, port)
    else:
        await measure_stays(chosen, folder, port, console)


def main():
    words = argparse.ArgumentParser(prog='many_stays', description='Measures what many stays at once take.')
    words.add_argument('program')
    words.add_argument('--stays', type=int, default=1000)
    words.add_argument('--waits', type=int, default=750)
    words.add_argument('--rows', type=int, default=1000)
    words.add_argument('--spread', type=float, default=60)
    words.add_argument('--timer', type=int, default=0, metavar='RUNS')
    chosen = words.parse_args()
    _, most = resource.getrlimit(resource.RLIMIT_NOFILE)
    resource.setrlimit(resource.RLIMIT_NOFILE, (most, most))
    with tempfile.TemporaryDirectory() as folder:
        (Path(folder) / 'settings').write_text('', encoding='ascii')
        subprocess.run([TOP / 'bench/made_archive.py', str(chosen.rows), '5', f'{folder}/made'], check=True)
        asyncio.run(measure(chosen, folder))


if __name__ == '__main__':
    main()
