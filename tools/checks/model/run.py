"""Whole runs of a schedule: lines and a status out."""

from .console import CANCEL, Console
from .disk import Disk, Full, Stopped
from .driver import Failed, Tally, dump
from .line import Line, Unseen
from .outcomes import DONE, UNSEEN_HARM
from .records import values_of
from .reports import day_title
from .rows import corrected, row_line
from .stamps import archive_day
from .summaries import all_summary_lines

ATTEMPTS = 3


class Run:
    """One run of a schedule, and the lines that it writes."""

    def __init__(self, settings):
        self.settings = settings
        self.console = Console()
        self.line = Line(self.console)
        self.disk = Disk(settings.most)
        self.is_open = False
        self.written = 0         # row lines written
        self.rounds = 0
        self.lines = []
        self.ends = []           # how each round ended
        self.harmed = 0          # deliveries harmed in all rounds
        self.acknowledged = 0    # rows that stood after the last batch of the round
        self.turns = []          # the lines of each turn

    def run(self, steps):
        """Runs all steps; gives the status."""
        try:
            for step in steps:
                getattr(self, "run_" + step.word)(step)
                self.take_turn()
        except Unseen as unseen:
            self.lines.append(f"unseen round {self.rounds} {unseen}")
            self.take_turn()
            return UNSEEN_HARM
        self.close()
        self.take_turn()
        return DONE

    def take_turn(self):
        """A turn is over: a step, an opening ahead of a round or of the end, or the end."""
        told = sum(map(len, self.turns))
        self.turns.append(self.lines[told:])

    def take_calls(self, calls):
        """Turns of a round are over, each a call over the line or a batch for the archive."""
        self.turns += [[] for _ in range(calls + self.disk.batches)]

    def run_due(self, step):
        """Records fall due."""
        for stamp, record in step.records:
            self.console.due(stamp, record)

    run_run = run_due

    def run_idle(self, step):
        """Quiet waits pass."""
        for _ in range(step.ticks):
            self.line.tick()

    def run_open(self, step):
        """The archive is opened, unless the disk stops."""
        try:
            self.disk.recover(step.stop)
            self.opened()
        except Stopped:
            self.is_open = False
            self.lines.append(f"open stop {step.stop[0]}")

    def run_round(self, step):
        """One round of fetching."""
        self.open_where_closed()
        self.rounds += 1
        start = len(self.disk.rows)
        self.disk.arm(step.stop)
        self.line.start(step.fates)
        tally = Tally()
        self.acknowledged = start
        end = self.attempts(tally)
        counts = (f"attempts {tally.attempts} pages {tally.pages} skipped {tally.skipped}"
                  f" harmed {self.line.harmed} acked {self.acknowledged}")
        self.ends.append(end)
        self.take_calls(self.line.calls - (end == "stop"))  # the stop ends the round within the turn of its batch
        self.harmed += self.line.harmed
        self.line.finish()
        if end == "stop":
            self.is_open = False
            self.lines.append(f"round {self.rounds} stop {step.stop[0]} {counts}")
        else:
            self.lines.append(f"round {self.rounds} {end} {counts}"
                              f" rows {len(self.disk.rows)}")
            self.write_rows()

    def attempts(self, tally):
        """Up to three attempts; gives how the round ends."""
        for _ in range(ATTEMPTS):
            tally.attempts += 1
            try:
                dump(self.line, self.disk.newest(), self.keep, tally)
                return "ok"
            except Failed:
                self.line.send(bytes([CANCEL]))
            except Full:
                return "full"
            except Stopped:
                return "stop"
        return "gaveup"

    def keep(self, batch):
        """Corrects a batch of stamps and records, and stores its rows."""
        self.disk.add([corrected(self.settings, stamp, values_of(record)) for stamp, record in batch])
        self.acknowledged = len(self.disk.rows)

    def open_where_closed(self):
        """Opens the archive where a stop closed it or nothing opened it yet."""
        if not self.is_open:
            self.disk.recover()
            self.opened()
            self.take_turn()

    def opened(self):
        """Says that the archive is open."""
        self.is_open = True
        self.lines.append(f"open rows {len(self.disk.rows)}")
        self.write_rows()

    def write_rows(self):
        """Writes the rows that were not written yet."""
        self.lines += [row_line(row) for row in self.disk.rows[self.written:]]
        self.written = max(self.written, len(self.disk.rows))

    def close(self):
        """Writes the summaries of the days, and the last line."""
        self.open_where_closed()
        rows = self.disk.rows
        self.lines += all_summary_lines(rows, day_title)
        days = len({archive_day(row.stamp) for row in rows})
        self.lines.append(f"end rows {len(rows)} days {days}")
