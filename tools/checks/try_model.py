#!/usr/bin/env python3
"""Compares a built program with a plain model of it, on random runs: what they print, their status, and their files.

    tools/checks/try_model.py PROGRAM [SECONDS] [SEED]
    tools/checks/try_model.py --cases COUNT PROGRAM [SEED]

It takes so many seconds, 20 if not said, or tries at least so many runs, and prints a line for each kind of run. The first
run of a kind that differs is kept in a folder. The status is 0 where nothing differs, else 1. The same cases come of the
same seed.
"""
import itertools
import math
import random
import shlex
import sys
import tempfile
import time
from pathlib import Path

sys.dont_write_bytecode = True  # nothing is left beside the model

from model.cases import model_side, program_side
from model.fleets import by_station
from model.random_archives import random_climate_case, random_copy_case, random_report_case
from model.random_imports import random_import_case
from model.random_packets import random_soft_case
from model.random_pages import random_pages_case
from model.random_schedules import random_fleet_case, random_replay_case

SECONDS = 20
SEED = "1"
KINDS = {"replay": random_replay_case, "report": random_report_case, "climate": random_climate_case,
         "copy": random_copy_case, "import": random_import_case, "fleet": random_fleet_case, "pages": random_pages_case,
         "soft": random_soft_case}

# What the model says of a kind, whatever else an outcome has.
SAID = {"fleet": by_station}


def keep(program, kind, case, sides):
    """Puts a case that differs in a folder, with both answers, and says how to run it."""
    folder = Path(tempfile.mkdtemp(prefix=f"try_model_{kind}_"))
    for name, data in case.files.items():
        (folder / name).write_bytes(data)
    for side, (outcome, files) in zip(("model", "program"), sides):
        answer = folder / side
        answer.mkdir()
        (answer / "printed").write_bytes(outcome.text)
        (answer / "status").write_text(f"{outcome.status}\n")
        for name, data in files.items():
            if data != case.files.get(name):
                (answer / name).write_bytes(data)
    print(f"{kind} differs, see {folder}: cd {folder} && {shlex.join([program, *case.words])}")


def numbers_for(seconds):
    """Numbers from 0 on, for so many seconds."""
    end = time.monotonic() + seconds
    return itertools.takewhile(lambda _: time.monotonic() < end, itertools.count())


def try_kind(program, kind, seed, numbers, folder):
    """Compares a random case of one kind for each of the numbers; gives how many differ."""
    cases = different = 0
    for number in numbers:
        case = KINDS[kind](random.Random(f"{kind} {seed} {number}"))
        sides = model_side(case), program_side(program, folder, case)
        if kind in SAID:
            sides = tuple((SAID[kind](outcome), files) for outcome, files in sides)
        cases += 1
        if sides[0] != sides[1]:
            different += 1
            if different == 1:
                keep(program, kind, case, sides)
    print(f"{kind}: {cases} cases, {different} differ", flush=True)
    return different


def main(program, numbers, seed=SEED):
    """Tries all kinds, each on the numbers that the call gives; gives the status."""
    program = str(Path(program).resolve())
    with tempfile.TemporaryDirectory() as folder:
        different = [try_kind(program, kind, seed, numbers(), Path(folder)) for kind in KINDS]
    return 1 if any(different) else 0


def main_of(words):
    """Tries what the words say; gives the status."""
    if words[0] == "--cases" and len(words) in (3, 4):
        each = math.ceil(int(words[1]) / len(KINDS))
        return main(words[2], lambda: range(each), *words[3:])
    if len(words) > 3:
        sys.exit(__doc__)
    seconds = float(words[1]) if len(words) > 1 else SECONDS
    return main(words[0], lambda: numbers_for(seconds / len(KINDS)), *words[2:])


if __name__ == "__main__":
    sys.exit(main_of(sys.argv[1:]) if len(sys.argv) > 1 else __doc__)
