"""The checks of a crate's copies with wrong bodies in them: over which libraries, how many side by side, and what they took."""
import contextlib
import functools
import importlib.machinery
import os
import shutil
import subprocess
import sys
import tempfile
import threading
from pathlib import Path

import build_plan
import crate_list
from edit_groups import made_by
from edit_verdicts import ACCEPTED, PROVED, REFUSED, UNSURE, Said, judge

KEPT_PROOFS = "out/incremental"  # what the toolchain's own checks left of a crate
COPIED_BY_LINK = ".oantt"  # how a kept proof ends; the toolchain replaces such a file, and writes into none
LAST_LINES = 5


class Fault(Exception):
    """Why a crate's wrong bodies cannot be tried."""


class Stopped(Exception):
    """That no further check begins."""


def load_kit():
    """The toolchain's own library, which knows crates and the words of a check."""
    try:
        page = subprocess.run(["rt", "doc"], capture_output=True, text=True, check=True).stdout.strip()
    except (OSError, subprocess.CalledProcessError) as error:
        raise Fault("the toolchain is missing: there is no command rt") from error
    kit = sys.modules["rtlib"] = type(sys)("rtlib")
    kit.__file__ = str(Path(page).parent / "bin" / "rtlib.py")
    importlib.machinery.SourceFileLoader("rtlib", kit.__file__).exec_module(kit)
    kit.Crate.stamp = functools.cache(kit.Crate.stamp)
    kit.guarded()  # before any thread begins, since it sets a signal's handler
    return kit


@functools.cache
def changed_at(path):
    """When a file, or a folder with all in it, was last changed."""
    return max(it.stat().st_ctime_ns for it in [path, *path.rglob("*")])


def lacking(kit, crate):
    """The libraries below a crate that do not stand as their sources do.

    One with a stamp stands by its sum. One that the gate left has none: it has to be younger than its sources, the toolchain,
    and each library below it.
    """
    made, missing = {}, []
    for below in crate.below():
        form = Path(below.rlib, "format")
        made[below.name] = form.stat().st_ctime_ns if form.is_file() else 0
        sources = [Path(below.folder, part) for part in kit.PARTS if Path(below.folder, part).is_dir()]
        stands = below.is_built() or (
            form.is_file() and not Path(form.parent.parent, "stamp").is_file()
            and all(changed_at(it) < made[below.name] for it in [*sources, Path(kit.KIT, "KIT-ID")])
            and all(made[lower.name] <= made[below.name] for lower in below.below()))
        missing += [] if stands else [below.name]
    return missing


def build(crate):
    """Builds the libraries below a crate whose stamp does not fit, lowest first."""
    for below in crate.below():
        if not below.is_built():
            print(f"building {below.name}", file=sys.stderr, flush=True)
            run = subprocess.run(["rt", "lib"], cwd=below.folder, stdin=subprocess.DEVNULL, stdout=subprocess.PIPE,
                                 stderr=subprocess.STDOUT, text=True, errors="replace", check=False)
            if run.returncode or not below.is_built():
                raise Fault("\n".join([f"{below.name} is not built:", *run.stdout.splitlines()[-LAST_LINES:]]))


def lines_of(crate):
    """How many lines of code a crate has."""
    return crate_list.lines_of(crate.folder, ".rt")


class Lanes:
    """As many checks side by side as there are processors and memory for, and the seconds of processors that they took."""

    def __init__(self, processors):
        self.processors, self.memory = processors, build_plan.SHARE_OF_FREE_MEMORY * build_plan.free_memory()
        self.count, self.taken, self.under_way, self.is_stopped, self.seconds = 0, 0, set(), False, 0.0
        self.changed = threading.Condition()

    def run(self, words, folder, memory):
        """The status of a command, what it printed, and the seconds of processors that it took."""
        with self.lane(memory), tempfile.TemporaryFile() as printed:
            with self.changed:
                self.go_on()
                run = subprocess.Popen(words, cwd=folder, stdin=subprocess.DEVNULL, stdout=printed, stderr=subprocess.STDOUT)
                self.under_way.add(run)
            _, state, used = os.wait4(run.pid, 0)
            with self.changed:
                run.returncode = os.waitstatus_to_exitcode(state)
                self.under_way.remove(run)
                self.go_on()
                self.seconds += used.ru_utime + used.ru_stime
            printed.seek(0)
            return run.returncode, printed.read().decode(errors="replace"), used.ru_utime + used.ru_stime

    @contextlib.contextmanager
    def lane(self, memory):
        """Waits until there is room for a check."""
        with self.changed:
            self.changed.wait_for(lambda: self.is_stopped or self.has_room(memory))
            self.count, self.taken = self.count + 1, self.taken + memory
        try:
            yield
        finally:
            with self.changed:
                self.count, self.taken = self.count - 1, self.taken - memory
                self.changed.notify_all()

    def has_room(self, memory):
        """Whether there is room for one more check. The only one begins with any memory."""
        return not self.count or self.count < self.processors and self.taken + memory <= self.memory

    def go_on(self):
        """Raises once the checks are stopped."""
        if self.is_stopped:
            raise Stopped

    def stop(self):
        """Ends each check, and lets none begin."""
        with self.changed:
            self.is_stopped = True
            for run in self.under_way:
                run.kill()
            self.changed.notify_all()


class Copies:
    """The checks of copies of a crate. Each goes on from the seed: what the check of the crate as it stands has proved."""

    def __init__(self, kit, crate, lanes, room):
        self.kit, self.crate, self.lanes = kit, crate, lanes
        self.room, self.seed = room, Path(room, "seed")
        self.words = [*kit.guarded(), kit.RATTLE, "check", *crate.words(["--jobs", "1"], keeps=False)]
        below = sum(lines_of(it) for it in crate.below())
        self.memory = build_plan.memory_of(lines_of(crate), crate_list.lines_of(crate.folder, ".antt"), below)

    def begin(self):
        """Proves the crate as it stands, over what the toolchain's own checks left of it, or else from nothing."""
        left = Path(self.crate.folder, KEPT_PROOFS)
        if left.is_dir():
            copy_proofs(left, self.seed)
        said = self.check([], self.seed)
        if said.status != PROVED and left.is_dir():
            shutil.rmtree(self.seed)
            said = self.check([], self.seed)
        if said.status != PROVED:
            raise Fault(f"{self.crate.name} is not proved as it stands: {said.last_error()}")

    def over_seed(self, edits):
        """What a check with these wrong bodies says, over a copy of the seed."""
        with tempfile.TemporaryDirectory(dir=self.room) as folder:
            kept = Path(folder, "kept")
            copy_proofs(self.seed, kept)
            return self.check(edits, kept)

    def check(self, edits, kept=None):
        """What a check with these wrong bodies says, over what a folder keeps, or from nothing."""
        words = self.words + ["--incremental", str(kept)] * (kept is not None)
        with tempfile.TemporaryDirectory(dir=self.room) as copy:
            for part in self.kit.PARTS:
                if Path(self.crate.folder, part).is_dir():
                    shutil.copytree(Path(self.crate.folder, part), Path(copy, part))
            for file, text in made_by(edits).items():
                Path(copy, file).write_text(text, encoding="utf-8")
            status, text, seconds = self.lanes.run(words, copy, self.memory)
        names = " ".join(edit.path.stem for edit in edits) or "as it stands"
        print(f"{self.crate.name}: {seconds:.1f} s: {names}{'' if kept else ', from nothing'}", file=sys.stderr, flush=True)
        if self.kit.STALE.search(text):
            raise Fault(f"{self.crate.name}: the libraries below it do not fit one another: --build builds them")
        return Said(status, text)


def copy_proofs(kept, to):
    """Copies kept proofs. One file takes the place of another there and none is written into, so that links will do."""
    def copy_file(path, target):
        if path.endswith(COPIED_BY_LINK):
            with contextlib.suppress(OSError):  # on another disk, say
                os.link(path, target)
                return
        shutil.copy2(path, target)

    shutil.copytree(kept, to, copy_function=copy_file)


def try_group(copies, edits):
    """The verdict on each of these wrong bodies, tried in one check. What is not refused there is tried alone."""
    if len(edits) == 1:
        return {edits[0]: try_alone(copies, edits[0])}
    said = copies.over_seed(edits)
    if said.unread({file for edit in edits for file, *_ in edit.changes}):  # one of them is bad: halves find it
        half = len(edits) // 2
        return try_group(copies, edits[:half]) | try_group(copies, edits[half:])
    verdicts = {edit: judge(edit, said) for edit in edits}
    return {edit: verdict if verdict.kind == REFUSED else try_alone(copies, edit) for edit, verdict in verdicts.items()}


def try_alone(copies, edit):
    """The verdict on a wrong body by itself; if it is still proved over the seed, it is tried once more from nothing."""
    verdict = judge(edit, copies.over_seed([edit]))
    return judge(edit, copies.check([edit])) if verdict.kind in (ACCEPTED, UNSURE) else verdict
