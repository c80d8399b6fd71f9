"""Runs a case over the program, and compares what comes of it with what the case expects."""

import difflib
import itertools
import subprocess
import tempfile
from pathlib import Path

from .peer import HOST, LONGEST_SECONDS, Differs, bound, called, meet
from .tables import ADDRESS

GAP = "...\n"
SHOWN_LINES = 20


def difference(wanted, printed):
    """The first lines of a comparison."""
    lines = difflib.unified_diff(wanted.splitlines(), printed.splitlines(), "expected", "printed", lineterm="", n=1)
    return "\n".join(list(lines)[:SHOWN_LINES]) or "the ends of the last lines differ"


def judge_output(run, data):
    """What is wrong with what was printed. A line of three points stands for any lines."""
    text = data.decode(errors="backslashreplace")
    kept = "".join(line for line in text.splitlines(keepends=True) if not line.startswith(run.passes_over))
    front, gap, end = run.prints.partition(GAP)
    if gap and len(kept) >= len(front) + len(end) and kept.startswith(front) and kept.endswith(end):
        return []
    return [] if kept == run.prints else [difference(run.prints, kept)]


def data_difference(wanted, data):
    """How long two differing texts of bytes are, and where they begin to differ."""
    same = itertools.takewhile(lambda pair: pair[0] == pair[1], zip(data, wanted))
    return f"has {len(data)} bytes, expected {len(wanted)}; they differ from byte {sum(1 for _ in same)} on"


def judge_files(wanted, folder):
    """What is wrong with the files of the folder."""
    left = {path.name: path.read_bytes() for path in folder.iterdir()}
    faults = [f"{name} is missing" for name in sorted(wanted.keys() - left.keys())]
    faults += [f"{name} was made" for name in sorted(left.keys() - wanted.keys())]
    for name in sorted(wanted.keys() & left.keys()):
        if left[name] != wanted[name]:
            faults.append(f"{name} {data_difference(wanted[name], left[name])}")
    return faults


def started(program, run, folder, out, place):
    """The program at the words of a run, in a folder, with a console at a socket if there is one."""
    if run.has_console:
        place.listen()
    address = f"{HOST}:{place.getsockname()[1]}"
    words = [word.replace(ADDRESS, address) for word in run.words]
    return subprocess.Popen([program, *words], cwd=folder, stdin=subprocess.DEVNULL, stdout=out)


def ended(process):
    """What is wrong with how long a program takes to end, after the other side's last step."""
    try:
        process.wait(LONGEST_SECONDS)
        return []
    except subprocess.TimeoutExpired:
        process.kill()
        process.wait()
        return [f"it did not end within {LONGEST_SECONDS} seconds"]


def faults_of_run(program, run, folder, files):
    """What is wrong with one run in a folder that has these files."""
    faults = []
    with bound() as place, tempfile.TemporaryFile() as out:
        process = started(program, run, folder, out, place)
        try:
            meet(place, run, process)
        except (Differs, OSError) as fault:
            faults.append(f"the line: {fault}")
        faults += ended(process)
        if run.has_console and called(place):
            faults.append("the line: a call that the case does not have")
        out.seek(0)
        faults += judge_output(run, out.read())
    if process.returncode != run.status:
        faults.append(f"status {process.returncode} in place of {run.status}")
    return faults + judge_files(files | run.leaves, folder)


def faults_of_case(program, case):
    """What is wrong with each run of a case, in a fresh folder."""
    with tempfile.TemporaryDirectory() as name:
        folder, files, faults = Path(name), dict(case.files), []
        for path, data in files.items():
            (folder / path).write_bytes(data)
        for run in case.runs:
            faults.append(faults_of_run(program, run, folder, files))
            files = {path.name: path.read_bytes() for path in folder.iterdir()}
        return faults
