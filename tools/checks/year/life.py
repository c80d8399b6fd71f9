"""A station that lives with a console of scripted life: each round, check, alert and setup at the moment of that console."""
import contextlib
import io
import os
import resource
import subprocess
import sys
import time
from datetime import datetime, timedelta, timezone
from pathlib import Path

sys.path.insert(0, str(Path(__file__).resolve().parent.parent))
import rooms  # first: the imports below are of other rooms too
import alert
import check
import console_clock
import setup
import setup_clock
from year.console import Console, Door

NAME, ZONE = 'roof', 'Europe/Berlin'
QUARTER = 15  # minutes between two checks
TRIES = 5  # on a busy machine the console may be too late
GAVE_UP = 4  # a round's status
UNHEARD = ('Try once more', 'could not be read', 'somebody answers')  # of setup
LONGEST_QUIET = timedelta(days=7)  # between two rounds in which nothing happens


class Moment(datetime):
    """A clock that shows the moment of a console."""
    console = None

    @classmethod
    def now(cls, tz=None):
        moment = cls.console.moment.replace(tzinfo=timezone.utc).astimezone(tz or timezone.utc)
        return moment if tz else moment.replace(tzinfo=None)


class Life:
    """A station in a folder, its console, and what its observer was told."""

    def __init__(self, program, folder, begin):
        self.program, self.folder = program, Path(folder)
        self.console = Console(begin)
        self.address = Door(self.console).address
        self.settings, self.archive = self.folder / f'{NAME}.toml', self.folder / f'{NAME}.archive'
        os.environ['TZ'] = ZONE
        time.tzset()
        Moment.console = self.console
        check.datetime = setup_clock.datetime = Moment
        console_clock.utc_now = lambda: self.console.moment.replace(tzinfo=timezone.utc)
        console_clock.sleep = self.wait

    def wait(self, seconds):
        """Time passes while a tool waits."""
        whole = int(seconds) // 60
        self.console.pass_minutes(whole)
        self.console.moment += timedelta(seconds=seconds - 60 * whole)

    def even(self):
        """Time passes until the next full minute."""
        self.console.moment = self.console.moment.replace(second=0, microsecond=0)

    def add_key(self, key, value):
        """Writes a key of the station."""
        name = self.folder / f'{NAME}.env'
        lines = [line for line in name.read_text().splitlines() if not line.startswith(f'{key}=')]
        name.write_text('\n'.join([*lines, f'{key}="{value}"', '']))

    def set_up(self, *words):
        """What setup prints for these words, and its status."""
        sys.argv = ['setup', '--settings', str(self.folder), '--archives', str(self.folder), '--program', str(self.program), *words]
        for _ in range(TRIES):
            with contextlib.redirect_stdout(io.StringIO()) as said, contextlib.suppress(SystemExit):
                setup.main()
            if not any(words in said.getvalue() for words in UNHEARD):
                break
        return said.getvalue()

    def task(self, *words):
        """Asks the console one thing."""
        for _ in range(TRIES):
            ran = subprocess.run([self.program, 'task', self.address, *words], stdout=subprocess.PIPE, text=True, check=False)
            if ran.returncode == 0:
                return
        raise RuntimeError(ran.stdout)

    def round(self, room=resource.RLIM_INFINITY):
        """A round, if the line is not cut; its status and its last line. An archive that has grown was written at this moment."""
        before = self.archive.stat().st_size if self.archive.exists() else 0
        for _ in range(TRIES):
            ran = subprocess.run([self.program, 'station', self.settings, self.archive, self.address], stdout=subprocess.PIPE,
                                 text=True, check=False, restore_signals=False,
                                 preexec_fn=lambda: resource.setrlimit(resource.RLIMIT_FSIZE, (room, room)))
            if ran.returncode != GAVE_UP:
                break
        if self.archive.stat().st_size != before:
            seconds = self.console.moment.replace(tzinfo=timezone.utc).timestamp()
            os.utime(self.archive, (seconds, seconds))
        return ran.returncode, (ran.stdout.splitlines() or [''])[-1]

    def rows(self):
        """How many rows the archive has."""
        ran = subprocess.run([self.program, 'report', self.archive, 'rows', '1999-12-31', '2127-12-31'], stdout=subprocess.PIPE,
                             check=True)
        return ran.stdout.count(b'\n')

    def check(self, *options):
        """What the station's check finds."""
        return check.check(['-p', str(self.program), *options, '--stations', str(self.folder), '--archives', str(self.folder),
                            '--station', NAME])

    def look(self):
        """What the check finds that asks the console too, which it does once a day."""
        for _ in range(TRIES):
            found = self.check('--console')
            if not any(kind.startswith('console ') for kind in found.troubles()):
                break
        return found

    def alert(self, failed_round=None):
        """The lines that the observer is told behind a check, or behind a round that failed with a status."""
        unit = 'jofitrana@roof.service' if failed_round else 'jofitrana-check@roof.service'
        told = self.folder / 'told'
        sys.argv = ['alert', '-p', str(self.program), '--stations', str(self.folder), '--archives', str(self.folder), NAME]
        os.environ.update(MONITOR_UNIT=unit, MONITOR_SERVICE_RESULT='exit-code', MONITOR_EXIT_STATUS=str(failed_round), TOLD=str(told))
        with contextlib.redirect_stdout(io.StringIO()):
            alert.main()
        lines = told.read_text().splitlines() if told.exists() else []
        told.unlink(missing_ok=True)
        return lines

    def until_told(self, quarters, has_line=False):
        """The minutes until the observer is told something, and the line; each quarter of an hour has a check."""
        for quarter in range(1, quarters + 1):
            self.console.pass_minutes(QUARTER)
            if has_line:
                self.round()
            lines = self.alert()
            if lines:
                return QUARTER * quarter, lines[0]
        return QUARTER * quarters, ''

    def live_until(self, day):
        """Time passes without an event, with a round and a check at least each week. Gives what the observer was told."""
        told = []
        while self.console.moment < day:
            span = min(LONGEST_QUIET, day - self.console.moment)
            self.console.pass_minutes(span // timedelta(minutes=1))
            self.round()
            told += self.alert()
        return told
