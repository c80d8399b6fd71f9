#!/usr/bin/env python3
"""Runs the cases of tools/checks/program_rows over a built program: what it prints, its status, the files that it leaves, and
what is said over its line.

    tools/checks/try_rows.py PROGRAM [TABLE ..]

Without a table it takes all of that folder. The cases run side by side, each in a folder of its own. One that fails while the
machine runs others is tried again by itself. The last line is 'N passed, M failed', counted by runs; the status is 1 if a run
failed or there was none, else 0.
"""
import shlex
import sys
from concurrent.futures import ThreadPoolExecutor
from pathlib import Path

sys.dont_write_bytecode = True  # nothing is left beside the tables

from row_cases.byte_text import Malformed
from row_cases.running import faults_of_case
from row_cases.tables import read_table
from trying import MOST_LATE, SLEEPER, TRIES

TABLES = Path(__file__).resolve().parent / "program_rows"
AT_ONCE = 64  # most cases wait for a line


def tried(program, case):
    """What is wrong with each run of a case, and whether other processes may have been in its way."""
    began = SLEEPER.now()
    faults = faults_of_case(program, case)
    return faults, any(faults) and began.lateness() > MOST_LATE


def tried_again(program, case, faults, is_doubtful):
    """The same of a case that was tried, once no other case runs."""
    for _ in range(TRIES):
        if not is_doubtful:
            break
        faults, is_doubtful = tried(program, case)
    return faults


def main(words):
    """Tries all cases; gives the status."""
    program = str(Path(words[0]).resolve())
    try:
        tables = [Path(word) for word in words[1:]] or sorted(TABLES.glob("*.toml"))
        cases = [case for table in tables for case in read_table(table)]
    except Malformed as malformed:
        print(malformed)
        return 1
    # Those with a line take the longest, and begin.
    cases.sort(key=lambda case: all(run.steps is None for run in case.runs))
    passed = failed = 0
    with ThreadPoolExecutor(AT_ONCE) as pool:
        first = list(pool.map(lambda case: tried(program, case), cases))
    for case, told in zip(cases, first):
        for run, wrong in zip(case.runs, tried_again(program, case, *told)):
            if wrong:
                failed += 1
                print("\n".join([f"{case.name}: {shlex.join(run.words)}", *wrong]))
            else:
                passed += 1
    print(f"{passed} passed, {failed} failed")
    return 0 if passed and not failed else 1


if __name__ == "__main__":
    if len(sys.argv) < 2:
        sys.exit(__doc__)
    sys.exit(main(sys.argv[1:]))
