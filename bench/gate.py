#!/usr/bin/env python3
"""Measures what `rt ci` takes from nothing, with nothing else running.

    bench/gate.py [WORDS ..]

Words are for `rt ci`; with none it is `--anew`, where the toolchain keeps proofs and so knows that word. It prints what rt
prints, and behind that the minutes by the clock, with those that it would have taken had the host of this machine given its
processors to nobody else, and the minutes of processors by crate. These kinds can be told apart from outside:

  proof           of the crate; of the program its compiling too
  second proof    checks of a copy without a wrong body, by which rt proves what it tries wrong bodies over
  tests           their proof and their compiling, but not their runs
  first body      a wrong body tried over nothing. Such a check proves the rest of its crate once more, and what of it is the
                  search that fails cannot be told
  further bodies  wrong bodies tried over what a check before them proved

The status is rt's.
"""
import os
import subprocess
import sys
import time
from collections import Counter
from contextlib import suppress
from pathlib import Path

LOOK_AGAIN = 0.5  # seconds; what a process takes after the last look at it is not counted
TICKS = os.sysconf("SC_CLK_TCK")
MINUTE = 60
PROOF, SECOND, TESTS, FIRST_BODY, FURTHER = KINDS = ("proof", "second proof", "tests", "first body", "further bodies")
OWN_TIMES, CHILDREN = slice(11, 13), 1  # fields of /proc/PID/stat behind the name
PARTS = ("src", "specs", "proofs")  # of a crate, which a copy of it has
ANEW = "--anew"  # has a toolchain that keeps proofs set them aside
TOP = Path(__file__).resolve().parent.parent
CRATES = TOP / "crates"


def words_of(number):
    """The words of a process."""
    with open(f"/proc/{number}/cmdline", "rb") as file:
        return file.read().decode(errors="replace").split("\0")


def is_changed(copy, crate):
    """Whether a copy of a crate has a wrong body in it."""
    files = [path.relative_to(crate) for part in PARTS for path in Path(crate, part).rglob("*") if path.is_file()]
    return any(Path(copy, file).read_bytes() != Path(crate, file).read_bytes() for file in files)


class Tasks:
    """What each process of the toolchain does, as it was when first looked at. What it forks has its words and its folder."""

    def __init__(self):
        self.known = {}  # by the words and the folder
        self.begun = set()  # folders that an earlier check of copies has filled

    def task_of(self, number):
        """The crate and the kind of what a process does; none of another process."""
        words = words_of(number)
        if "--crate-name" not in words or not words[0].endswith("/rattle"):
            return None  # it may yet become one
        key = (*words, os.readlink(f"/proc/{number}/cwd"))
        if key not in self.known:
            self.known[key] = self.task_by(words, Path(key[-1]))
        return self.known[key]

    def task_by(self, words, folder):
        """The crate and the kind, by the words of a process and the folder that it runs in."""
        crate = words[words.index("--crate-name") + 1]
        if "--test" in words:
            return crate, TESTS
        if folder == CRATES / crate or "check" not in words[:2]:
            return crate, PROOF
        kind = FIRST_BODY if is_changed(folder, CRATES / crate) else SECOND
        if "--incremental" in words:
            kept = words[words.index("--incremental") + 1]
            kind = FURTHER if kind == FIRST_BODY and kept in self.begun else kind
            self.begun.add(kept)
        return crate, kind


def looked_at(known):
    """What each process below this one does, and the seconds of processors that it has taken."""
    parents, seconds, tasks = {}, {}, {}
    for name in filter(str.isdigit, os.listdir("/proc")):
        with suppress(OSError, ValueError):
            with open(f"/proc/{name}/stat", encoding="utf-8", errors="replace") as file:
                fields = file.read().rpartition(")")[2].split()
            parents[name] = fields[CHILDREN]
            seconds[name] = sum(map(int, fields[OWN_TIMES])) / TICKS
            tasks[name] = known.task_of(name)

    def task_above(name):
        """What a process below this one does, or the nearest one above it."""
        task = None
        while name in parents and name != str(os.getpid()):
            task = task or tasks.get(name)
            name = parents[name]
        return task if name == str(os.getpid()) else None

    return {name: (task_above(name), seconds[name]) for name in parents}


class Clock:
    """The seconds since it was made, and how many of them the work took, slowed by what the machine's host took away."""

    def __init__(self):
        self.began = self.looked = time.monotonic()
        self.worked, self.taken = self.processors()
        self.own = 0.0

    @staticmethod
    def processors():
        """The seconds for which the processors worked, and for which work waited since the host had given them away."""
        with open("/proc/stat", encoding="utf-8") as file:
            user, nice, system, _, _, irq, softirq, steal = map(int, file.readline().split()[1:9])
        return (user + nice + system + irq + softirq) / TICKS, steal / TICKS

    def look(self):
        """Goes on to now."""
        now, (worked, taken) = time.monotonic(), self.processors()
        wanted = worked - self.worked + taken - self.taken
        self.own += (now - self.looked) * ((worked - self.worked) / wanted if wanted else 1)
        self.looked, self.worked, self.taken = now, worked, taken

    def __str__(self):
        return f"{(self.looked - self.began) / MINUTE:.0f} minutes by the clock, {self.own / MINUTE:.0f} without what the host took"


def watch(run, clock):
    """The seconds of processors by crate and kind, up to the end of a run."""
    latest, known = {}, Tasks()
    while run.poll() is None:
        for name, (task, seconds) in looked_at(known).items():
            if task:
                latest[name, task] = seconds
        time.sleep(LOOK_AGAIN)
        clock.look()
    total = Counter()
    for (_, task), seconds in latest.items():
        total[task] += seconds
    return total


def knows_anew():
    """Whether the toolchain has the word, and so keeps proofs from one run to the next."""
    return ANEW in subprocess.run(["rt", "help"], stdout=subprocess.PIPE, stderr=subprocess.STDOUT, text=True, check=False).stdout


def main(words):
    words = words or [ANEW] * knows_anew()
    clock = Clock()
    with subprocess.Popen(["rt", "ci", *words], cwd=TOP) as run:
        total = watch(run, clock)
    crates = sorted({crate for crate, _ in total}, key=lambda crate: -sum(total[crate, kind] for kind in KINDS))
    print(f"\n{clock}; minutes of processors:")
    print("| Crate | " + " | ".join(KINDS) + " |")
    for crate in crates:
        print(f"| {crate} | " + " | ".join(f"{total[crate, kind] / MINUTE:.1f}" for kind in KINDS) + " |")
    print("| all | " + " | ".join(f"{sum(total[crate, kind] for crate in crates) / MINUTE:.0f}" for kind in KINDS) + " |")
    return run.returncode


if __name__ == "__main__":
    sys.exit(main(sys.argv[1:]))
