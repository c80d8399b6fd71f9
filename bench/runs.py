"""Runs of programs that are measured, each with what it took."""

import os
import shutil
import statistics
import subprocess
import tempfile
import time
from typing import Callable, NamedTuple

CLOCK = '/usr/bin/time'  # reports the memory: what the system counts of a child begins with that of its parent
EVENT = 'instructions:u'
CALLGRIND = 'Collected : '


class Way(NamedTuple):
    """One way to do some work: a command, what is put into its environment, and what is done before each run."""
    name: str
    words: list[str]
    environment: dict[str, str] = {}
    prepare: Callable[[], None] = lambda: None


class Run(NamedTuple):
    """Seconds by the clock and of the processor, and the greatest resident memory in MiB."""
    seconds: float
    processor: float
    memory: float


class Taken(NamedTuple):
    """What the runs of one way took: the median and the least of the processor's seconds, and so on."""
    processor: float
    least: float
    seconds: float
    memory: float


def run(way):
    """What a run of a way took. Its output goes to the null device."""
    way.prepare()
    with tempfile.NamedTemporaryFile('r') as memory:
        begun = time.perf_counter()
        process = subprocess.Popen([CLOCK, '-f', '%M', '-o', memory.name, *way.words],
                                   stdout=subprocess.DEVNULL, env={**os.environ, **way.environment})
        _, status, usage = os.wait4(process.pid, 0)
        seconds = time.perf_counter() - begun
        process.returncode = os.waitstatus_to_exitcode(status)
        if status != 0:
            raise SystemExit(f'{" ".join(way.words)}: status {process.returncode}')
        return Run(seconds, usage.ru_utime + usage.ru_stime, int(memory.read()) / 1024)


def in_turns(ways, turns):
    """What each of the ways took. They take turns, so that what else the machine does falls on all of them."""
    runs = [[] for _ in ways]
    for _ in range(turns):
        for way, of in zip(ways, runs):
            of.append(run(way))
    return [Taken(statistics.median(one.processor for one in of), min(one.processor for one in of),
                  statistics.median(one.seconds for one in of), max(one.memory for one in of)) for of in runs]


def output(way):
    """What a way prints."""
    way.prepare()
    return subprocess.run(way.words, stdout=subprocess.PIPE, env={**os.environ, **way.environment}, check=True).stdout


def instructions(way):
    """How many instructions a way takes outside the system, by perf or else by callgrind; None where neither can count."""
    way.prepare()
    return by_perf(way) or by_callgrind(way)


def said(way, *words):
    """What is written to standard error by a command that runs a way, and nothing where the command is missing."""
    if shutil.which(words[0]) is None:
        return ''
    ran = subprocess.run([*words, *way.words], stdout=subprocess.DEVNULL, stderr=subprocess.PIPE, text=True,
                         errors='replace', env={**os.environ, **way.environment}, check=False)
    return ran.stderr


def by_perf(way):
    """The count of perf."""
    for line in said(way, 'perf', 'stat', '-x', ',', '-e', EVENT).splitlines():
        count, *rest = line.split(',')
        if EVENT in rest and count.isdigit():
            return int(count)
    return None


def by_callgrind(way):
    """The count of callgrind."""
    text = said(way, 'valgrind', '--tool=callgrind', '--callgrind-out-file=/dev/null')
    _, found, rest = text.partition(CALLGRIND)
    return int(rest.split()[0]) if found else None
