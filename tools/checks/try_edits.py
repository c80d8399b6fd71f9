#!/usr/bin/env python3
"""Tries wrong bodies in groups: the prover has to refuse each, at a goal of the function that it changes.

    tools/checks/try_edits.py [--build] [--each] [--jobs N] [--note] NAME .. | --all | --changed

It tries those of `must-fail/` and `more-edits/`, of the crates named or with --all of all. With --changed it tries those of
`more-edits/` alone, which the gate does not, of each crate that differs in more than comments from the commit noted of it in
`tools/checks/tried_edits.txt`, or of which none is noted. With --note it notes the commit of each crate of which all were refused,
on a checkout without a change.

A line `# clause: NAME` in a wrong body asks that it is refused at that clause of its function, which has several. A line is
printed for each that is not refused, with --each for all, and on standard error for each check. What was refused is not tried
again while the crate, those below it, the toolchain and these scripts stay the same: the folder that JOFITRANA_EDITS names
keeps that, or else ~/.cache/jofitrana/edits.

The libraries below a crate have to stand, as ./station or the gate builds them; --build builds those that do not.
Status 0: each was refused. 1: one was not. 2: the words, or the commit, name nothing here. 3: a library below does not stand.
"""
import argparse
import contextlib
import hashlib
import os
import signal
import sys
import tempfile
import threading
from collections import Counter
from concurrent.futures import ThreadPoolExecutor, as_completed
from pathlib import Path

sys.dont_write_bytecode = True  # nothing is left beside the scripts
import rooms  # first: the imports below are of other rooms too
import edit_checks
from edit_checks import Copies, Fault, Lanes, Stopped
from edit_groups import Edit, Sources, groups
from edit_verdicts import BAD, REFUSED, Verdict
from noted_edits import FURTHER, OF_THE_GATE, Unknown, commit_without_changes, crates_that_differ, note

TOP = Path(__file__).resolve().parents[2]
SCRIPTS = ("edit_groups.py", "edit_checks.py", "edit_verdicts.py")
KEPT = Path(os.environ.get("JOFITRANA_EDITS") or Path.home() / ".cache" / "jofitrana" / "edits")
ALL_REFUSED, NOT_ALL, NOTHING_NAMED, NOT_BUILT = range(4)
INTERRUPTED = 130
MINUTE = 60


class Refusals:
    """The wrong bodies of a crate that were refused before, each under a sum of all that this rests on."""

    def __init__(self, crate):
        scripts = [Path(__file__).with_name(name).read_bytes() for name in SCRIPTS]
        self.base, self.folder = repr((crate.stamp(), scripts)), KEPT / crate.name

    def file_of(self, edit):
        """The file that keeps the refusal of a wrong body."""
        return self.folder / hashlib.sha256(repr((self.base, edit.label, edit.text)).encode()).hexdigest()

    def verdict(self, edit):
        """What was said of a wrong body when it was refused, or None."""
        file = self.file_of(edit)
        return Verdict(REFUSED, file.read_text(encoding="utf-8")) if file.is_file() else None

    def keep(self, edit, verdict):
        """Keeps a refusal, and nothing else; on a disk that takes no file nothing is kept."""
        if verdict.kind != REFUSED:
            return
        with contextlib.suppress(OSError):
            self.folder.mkdir(parents=True, exist_ok=True)
            with tempfile.NamedTemporaryFile("w", dir=self.folder, delete=False, encoding="utf-8") as file:
                file.write(verdict.why)
            os.replace(file.name, self.file_of(edit))


class Count:
    """How many wrong bodies there are, were refused, of which crates, and were refused before."""

    def __init__(self, prints_each):
        self.prints_each, self.all, self.before, self.of_crates = prints_each, 0, 0, Counter()
        self.changing = threading.Lock()

    @property
    def refused(self):
        """How many were refused."""
        return self.of_crates.total()

    def note(self, crate, edit, verdict, is_before=False):
        """Counts a wrong body of a crate, and prints it unless it was refused."""
        with self.changing:
            self.of_crates[crate.name] += verdict.kind == REFUSED
            self.before += is_before
            if self.prints_each or verdict.kind != REFUSED:
                print(f"{edit.label}: {verdict.kind}: {verdict.why}", flush=True)


def edits_of(crate, folders):
    """The wrong bodies of a crate."""
    sources = Sources(crate.folder)
    return [Edit(path, sources) for folder in folders for path in sorted(Path(crate.folder, folder).glob("*.edit"))]


def try_crate(kit, crate, edits, lanes, count):
    """Tries the wrong bodies of a crate that were not refused before."""
    refusals, left = Refusals(crate), []
    for edit in edits:
        if edit.bad:
            count.note(crate, edit, Verdict(BAD, edit.bad))
        elif before := refusals.verdict(edit):
            count.note(crate, edit, before, is_before=True)
        else:
            left.append(edit)
    if not left:
        return
    with tempfile.TemporaryDirectory(prefix="try-edits-") as room:
        copies = Copies(kit, crate, lanes, room)
        copies.begin()

        def try_group(group):
            for edit, verdict in edit_checks.try_group(copies, group).items():
                refusals.keep(edit, verdict)
                count.note(crate, edit, verdict)

        with ThreadPoolExecutor(lanes.processors) as pool:
            for _ in pool.map(try_group, groups(left)):  # what one of them raises is raised here
                pass


def try_all(kit, plan, lanes, count):
    """Tries the wrong bodies of some crates side by side, first those that take longest."""
    longest_first = sorted(plan, key=lambda crate: -len(plan[crate]) * edit_checks.lines_of(crate))
    with ThreadPoolExecutor(lanes.processors) as pool:
        tried = [pool.submit(try_crate, kit, crate, plan[crate], lanes, count) for crate in longest_first]
        try:
            for done in as_completed(tried):
                report_fault(done)
        except BaseException:
            lanes.stop()
            raise


def report_fault(done):
    """Prints why a crate could not be tried. Its wrong bodies do not count as refused."""
    try:
        done.result()
    except Fault as fault:
        print(fault, flush=True)


def planned(kit, options):
    """The wrong bodies to try, by their crates."""
    crates = {crate.name: crate for crate in kit.crates_below(str(TOP))}
    names, folders = options.names or [*crates], (OF_THE_GATE, FURTHER)
    if unknown := [name for name in names if name not in crates]:
        raise Unknown(f"no crate: {' '.join(unknown)}")
    if options.changed:
        with_further = [name for name in names if any(Path(crates[name].folder, FURTHER).glob("*.edit"))]
        names, folders = crates_that_differ(with_further), (FURTHER,)
        print(f"{len(names)} crates differ from what is noted{': ' * bool(names)}{' '.join(names)}", file=sys.stderr)
    plan = {crates[name]: edits_of(crates[name], folders) for name in dict.fromkeys(names)}
    if empty := [crate.name for crate, edits in plan.items() if options.names and not edits]:
        raise Unknown(f"without a wrong body: {' '.join(empty)}")
    return {crate: edits for crate, edits in plan.items() if edits}


def stand(kit, plan, builds):
    """The names of the libraries below that do not stand, after those were built that are to be."""
    while True:
        unbuilt = {crate: edit_checks.lacking(kit, crate) for crate in plan}
        if not builds or not any(unbuilt.values()):
            return sorted({name for names in unbuilt.values() for name in names})
        for crate in (crate for crate, names in unbuilt.items() if names):
            edit_checks.build(crate)


def parsed():
    """The words of the command line."""
    parser = argparse.ArgumentParser(usage=__doc__)
    parser.add_argument("names", nargs="*")
    parser.add_argument("--jobs", type=int, default=len(os.sched_getaffinity(0)))
    for word in ("--all", "--changed", "--build", "--each", "--note"):
        parser.add_argument(word, action="store_true")
    options = parser.parse_args()
    if bool(options.names) + options.all + options.changed != 1 or options.jobs < 1:
        parser.error("name crates, or --all, or --changed")
    return options


def run(options):
    """Tries what the words ask for, and returns the status."""
    commit = commit_without_changes() if options.note else ""
    kit = edit_checks.load_kit()
    plan, lanes, count = planned(kit, options), Lanes(options.jobs), Count(options.each)
    if unbuilt := stand(kit, plan, options.build):
        print(f"these libraries do not stand as their sources do, and --build builds them: {' '.join(unbuilt)}")
        return NOT_BUILT
    count.all = sum(map(len, plan.values()))
    try_all(kit, plan, lanes, count)
    before = f" ({count.before} of them before)" if count.before else ""
    print(f"{count.refused} of {count.all} wrong bodies of {len(plan)} crates were refused{before};"
          f" {lanes.seconds / MINUTE:.1f} minutes of processor")
    if options.note:
        note_refused(commit, plan, count, {crate.name for crate in kit.crates_below(str(TOP))})
    return ALL_REFUSED if count.refused == count.all else NOT_ALL


def note_refused(commit, plan, count, standing):
    """Notes the commit of each crate of which all were refused, if nothing was changed meanwhile."""
    if commit and commit_without_changes() == commit:
        note(commit, [crate.name for crate, edits in plan.items() if count.of_crates[crate.name] == len(edits)], standing)
    else:
        print("nothing is noted: the checkout has changes, or is none", file=sys.stderr)


def main():
    signal.signal(signal.SIGTERM, signal.default_int_handler)
    try:
        return run(parsed())
    except (Unknown, Fault) as error:
        print(error)
        return NOTHING_NAMED if isinstance(error, Unknown) else NOT_BUILT
    except (KeyboardInterrupt, Stopped):
        return INTERRUPTED


if __name__ == "__main__":
    sys.exit(main())
