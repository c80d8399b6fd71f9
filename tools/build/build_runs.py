"""The runs of the toolchain that are under way side by side, and how they are ended."""
import contextlib
import os
import signal
import subprocess
import threading
import time

GRACE = 5  # seconds in which a run may end by itself
LOOK_AGAIN = 0.1  # seconds between two looks at whether it has


class Stopped(Exception):
    """The signal by which all runs are ended."""


class Runs:
    """The runs that are under way. Each inherits the file `lock`, so whoever waits for it waits for them too."""

    def __init__(self, lock):
        self.how = {'stdin': subprocess.DEVNULL, 'stderr': subprocess.STDOUT, 'start_new_session': True, 'pass_fds': [lock]}
        self.under_way, self.changing, self.is_stopped = set(), threading.Lock(), False

    def check(self):
        """Raises once the runs are ended."""
        if self.is_stopped:
            raise Stopped(signal.SIGTERM)

    def run(self, words, folder, log, temporary):
        """Runs words in a folder, in a process group of their own, and returns their status."""
        environment = {**os.environ, 'TMPDIR': temporary}
        with self.changing:
            self.check()
            run = subprocess.Popen(words, cwd=folder, env=environment, stdout=log, **self.how)
            self.under_way.add(run)
        status = run.wait()
        with self.changing:
            self.under_way.remove(run)
        return status

    def stop(self):
        """Ends all runs, and lets none begin."""
        with self.changing:
            self.is_stopped = True
        for number in (signal.SIGTERM, signal.SIGKILL):
            self.send(number)
            end = time.monotonic() + GRACE
            while self.under_way and time.monotonic() < end:
                time.sleep(LOOK_AGAIN)

    def send(self, number):
        """Sends a signal to the process group of each run."""
        with self.changing:
            for run in self.under_way:
                with contextlib.suppress(ProcessLookupError):
                    os.killpg(run.pid, number)
