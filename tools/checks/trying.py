"""Cases over a built program, for the scripts try_disk, try_line, try_beside, try_stay, try_packets and more: each passes, fails,
or is left out on this machine."""
import os
import shutil
import signal
import subprocess
import sys
import tempfile
import time
from concurrent.futures import ThreadPoolExecutor
from contextlib import suppress
from pathlib import Path
from threading import Thread
from typing import NamedTuple

LONGEST = 30  # seconds that one run may take
AT_ONCE = 0.25  # seconds in which what does not wait is done
SLACK = 0.25  # the part of a time by which it may be missed
MOST_TEXT = 500  # characters of what was in the way of a case
NAP = 0.02  # seconds of one sleep of a sleeper
STEPS = 2000  # that a sleeper counts behind each sleep, in some 0.1 ms
MOST_LATE = 0.5  # seconds: if the sleeper came later than that within a case, each time that the case held may have been missed
NOT_TRIED = 'NOT_TRIED'  # of the environment: the file in which the gate collects what is left out
TRIES = 8  # how often a case is tried by itself if other processes may have been in its way
GLANCE = 1  # seconds between one look whether a run takes too long and the next


class LeftOut(Exception):
    """Why a case cannot be run here."""


class Differs(Exception):
    """What was seen in place of what is wanted."""


class Missed(Differs):
    """Which time was missed."""


class Ended(NamedTuple):
    """How a run ended."""
    status: int
    printed: str


class Moment(NamedTuple):
    """A time, and how many seconds a sleeper of our own had been kept from running until then."""
    time: float
    late: float

    def seconds(self):
        """How long ago it is."""
        return time.monotonic() - self.time

    def lateness(self):
        """How long the sleeper has been kept from running since."""
        return SLEEPER.late - self.late

    def stretched(self, limit):
        """A limit for what began then. It is as many times as long as the sleeper took as many times as long as it should."""
        seconds = self.seconds()
        return limit * seconds / max(seconds - self.lateness(), NAP)

    def is_over(self, limit):
        """Whether what began then has taken longer than a limit, stretched by how busy the machine is."""
        return self.seconds() > max(limit, self.stretched(limit))


class Sleeper:
    """Sleeps again and again, counts to some number, and adds up by how much it is too late: so long the machine ran others."""

    def __init__(self):
        self.late = 0.0
        Thread(target=self.sleep, daemon=True).start()

    def sleep(self):
        """Sleeps until the script ends."""
        while True:
            began = time.monotonic()
            time.sleep(NAP)
            for _ in range(STEPS):
                pass
            self.late += max(0.0, time.monotonic() - began - 2 * NAP)

    @staticmethod
    def now():
        """This moment."""
        return Moment(time.monotonic(), SLEEPER.late)


SLEEPER = Sleeper()


def until_end(process, limit):
    """Waits for the end of a process, no longer than a limit stretched by how busy the machine is; gives what it said."""
    asked = SLEEPER.now()
    while True:
        try:
            return process.communicate(timeout=GLANCE)
        except subprocess.TimeoutExpired:
            if asked.is_over(limit):
                raise Differs(f"it still runs after {asked.seconds():.0f} s") from None


def await_that(what, is_so, limit):
    """Waits until something is so, no longer than a limit stretched by how busy the machine is."""
    asked = SLEEPER.now()
    while not is_so():
        if asked.is_over(limit):
            raise Differs(f"{what} after {asked.seconds():.0f} s")
        time.sleep(NAP)


class Run:
    """A run of the program, which has begun. Neither it nor what it runs under outlives its `with`."""

    def __init__(self, command, folder, **options):
        self.began = SLEEPER.now()
        self.process = subprocess.Popen(command, cwd=folder, stdout=subprocess.PIPE, start_new_session=True, **options)

    def __enter__(self):
        return self

    def __exit__(self, *_):
        with suppress(ProcessLookupError):
            os.killpg(self.process.pid, signal.SIGKILL)
        self.process.communicate()

    def seconds(self):
        """How long ago it began."""
        return self.began.seconds()

    def end(self):
        """Waits for its end, and gives its status and what it printed."""
        printed, _ = until_end(self.process, LONGEST)
        return Ended(self.process.returncode, printed.decode())


class Program:
    """A built program, and the folder in which a case runs it."""

    def __init__(self, path, folder):
        self.path = path
        self.folder = folder

    def write(self, name, data):
        """Makes a file in its folder."""
        (self.folder / name).write_bytes(data.encode() if isinstance(data, str) else data)

    def read(self, name):
        """The bytes of a file in its folder."""
        return (self.folder / name).read_bytes()

    def start(self, words, under=(), **options):
        """Begins a run with the words of a text, under another command if one is given."""
        return Run([*under, self.path, *words.split()], self.folder, **options)

    def run(self, words, **options):
        """Runs it to its end."""
        with self.start(words, **options) as run:
            return run.end()


def hold(what, seen, wanted):
    """Holds what was seen against what is wanted."""
    if seen != wanted:
        raise Differs(f"{what}: {seen!r}, in place of {wanted!r}")


def hold_seconds(what, began, wanted, sooner=SLACK, ended=None):
    """Holds the time from one moment to another, or else to this one, against the one that is wanted. It may be shorter by that
    part, and longer by a quarter and by what the machine spent on others meanwhile."""
    seconds = (ended or SLEEPER.now()).time - began.time
    slack = max(SLACK * wanted, AT_ONCE)
    least = wanted - max(sooner * wanted, AT_ONCE)
    late = 0.0
    if seconds > wanted + slack:
        time.sleep(2 * NAP)  # until the sleeper has counted too
        late = began.lateness()
    if not least <= seconds <= wanted + slack + late:
        raise Missed(f"{what}: {seconds:.2f} s, in place of {wanted:.2f} s; others took {late:.2f} s")


def need(*command):
    """Leaves a case out where a command is missing, or fails when it is tried with these words."""
    if shutil.which(command[0]) is None:
        raise LeftOut(f"{command[0]} is missing")
    if subprocess.run(command, capture_output=True, check=False).returncode != 0:
        raise LeftOut(f"{command[0]} is refused")


def leave_out(what):
    """Reports what is not tried on this machine, here and at the end of the gate."""
    print(what, file=sys.stderr)
    if os.environ.get(NOT_TRIED):
        with open(os.environ[NOT_TRIED], 'a', encoding='utf-8') as file:
            file.write(f'{what}\n')


class Tried(NamedTuple):
    """What was in the way of a case, if anything, and whether other processes may have been."""
    reason: Exception | None
    is_doubtful: bool


def try_once(path, case):
    """Tries a case in a folder of its own."""
    began = SLEEPER.now()
    with tempfile.TemporaryDirectory() as folder:
        try:
            case(Program(path, Path(folder)))
        except LeftOut as reason:
            return Tried(reason, False)
        except Exception as reason:  # whatever it is, the other cases go on
            return Tried(reason, isinstance(reason, Missed) or began.lateness() > MOST_LATE)
    return Tried(None, False)


def try_case(path, case, tried=None):
    """Tries a case, also again if other processes may have been in its way; gives what was in its way at last, or nothing. It may
    have been tried before."""
    for _ in range(TRIES):
        if tried and not tried.is_doubtful:
            break
        tried = try_once(path, case)
    return tried.reason


def try_all(words, usage, cases, at_once):
    """Tries the cases, so many at once, over the program of the command line; gives the status. What may have failed because the
    machine ran others is tried again by itself."""
    if len(words) != 2:
        sys.exit(usage)
    path = str(Path(words[1]).resolve())
    with ThreadPoolExecutor(at_once) as pool:
        tried = dict(zip(cases, pool.map(lambda case: try_once(path, case), cases)))
    passed = failed = 0
    for case in cases:
        reason = try_case(path, case, tried[case])
        if reason is None:
            passed += 1
            continue
        if isinstance(reason, LeftOut):
            leave_out(f"{reason}: no {case.__name__} was tried")
            continue
        failed += 1
        print(f"{case.__name__} failed: {reason!r:.{MOST_TEXT}}", file=sys.stderr)
    print(f"{passed} passed, {failed} failed")
    return 1 if failed else 0
