#!/usr/bin/env python3
"""Tries that an archive is read rightly while another process adds rows to it, one row at a time.

    tools/checks/try_beside.py PROGRAM [READINGS]

Each row comes by a copy from an archive that has one row more, or by an import of the text of all rows, in turn. Meanwhile the
archive is read so many times, or 200 times if no number is given: by reports and by copies in turn. None may be refused. Each has
to show the rows from the first one on, in order: at least those that were added before it began, and at most those whose adding
had begun when it ended. A run may take longer while the machine runs others. The last line is 'N passed, M failed', and the
status is 1 if any failed.
"""
import os
import sys
import tempfile
from concurrent.futures import ThreadPoolExecutor
from pathlib import Path
from threading import Event

sys.dont_write_bytecode = True  # nothing is left beside the scripts

from model.archive import CLOSED_GATE, THIS_VERSION, head_slot, sealed_batch, slots_to_add
from model.records import FIELDS
from model.rows import Row, row_line
from trying import MOST_TEXT, Differs, Ended, Program, hold

READINGS = 200
READERS = 2  # at once
FIRST_ROWS = 500  # a recovery goes through so many batches, and rows are added meanwhile
FIRST_STAMP = 12_000_000  # minutes from 2000-01-01
PERIOD = 5  # minutes
TENTHS = 1000  # outside temperatures that differ
GROWING, ARCHIVE, TEXT = "growing", "archive", "text"
ALL_ROWS = "rows 1999-12-31 2127-12-31"


class Writer:
    """Adds rows to the archive, each by a process of its own."""

    def __init__(self, program):
        self.program = program
        self.rows, self.lines = [], []
        batches = [self.next_batch() for _ in range(FIRST_ROWS)]
        for name in (GROWING, ARCHIVE):
            program.write(name, head_slot(THIS_VERSION) + b"".join(batches) + CLOSED_GATE)
        self.begun = self.added = FIRST_ROWS

    def next_batch(self):
        """The batch of the next row, which has the outside temperature alone."""
        number = len(self.rows)
        values = number % TENTHS, *[None] * (len(FIELDS) - 1)
        row = Row(FIRST_STAMP + PERIOD * number, PERIOD, values)
        slots = slots_to_add(self.rows, [row])
        self.rows.append(row)
        self.lines.append(row_line(row) + "\n")
        return sealed_batch(slots)

    def add(self):
        """Adds a row."""
        with (self.program.folder / GROWING).open("r+b") as file:
            file.seek(-len(CLOSED_GATE), os.SEEK_END)
            file.write(self.next_batch() + CLOSED_GATE)
        self.begun += 1
        if self.begun % 2:
            hold("an add", self.program.run(f"copy {GROWING} {ARCHIVE}"), Ended(0, f"copied {self.begun}\n"))
        else:
            self.program.write(TEXT, "".join(self.lines))
            hold("an add of a text", self.program.run(f"import {TEXT} {ARCHIVE}"),
                 Ended(0, f"imported 1 passed {self.added} rows {self.begun}\n"))
        self.added = self.begun

    def add_until(self, done):
        """Adds rows until that is set."""
        while not done.is_set():
            self.add()


def shown_rows(program, name, lines):
    """How many rows the report of an archive shows, which have to be the first of these lines."""
    report = program.run(f"report {name} {ALL_ROWS}")
    shown = report.printed.count("\n")
    hold(f"the report of {name}", report, Ended(0, "".join(lines[:shown])))
    return shown


def read_once(program, writer, copy=None):
    """Reads the archive by a report, or by a copy of this name and a report of the copy."""
    least = writer.added
    if copy is None:
        shown = shown_rows(program, ARCHIVE, writer.lines)
        most = writer.begun
    else:
        copied = program.run(f"copy {ARCHIVE} {copy}")
        most = writer.begun
        shown = shown_rows(program, copy, writer.lines) if copied.status == 0 else least
        hold(f"the copy to {copy}", copied, Ended(0, f"copied {shown}\n"))
    if not least <= shown <= most:
        raise Differs(f"{shown} rows, in place of {least} to {most}")


def read_often(program, writer, reader, times):
    """Reads the archive so many times, by reports and copies in turn; gives how many readings failed."""
    failed = 0
    for reading in range(times):
        try:
            read_once(program, writer, f"copy{reader}" if reading % 2 else None)
        except Differs as reason:
            print(f"reading {reading} of reader {reader} failed: {reason!r:.{MOST_TEXT}}", file=sys.stderr)
            failed += 1
    return failed


def try_readings(program, readings):
    """Reads while rows are added; gives how many readings failed, and how many rows were added."""
    writer = Writer(program)
    done = Event()
    with ThreadPoolExecutor(1 + READERS) as pool:
        adding = pool.submit(writer.add_until, done)
        reading = [pool.submit(read_often, program, writer, reader, readings // READERS) for reader in range(READERS)]
        try:
            failed = sum(one.result() for one in reading)
        finally:
            done.set()
        adding.result()
    return failed, writer.added - FIRST_ROWS


def main(words):
    """Tries the program of the command line; gives the status."""
    if not 2 <= len(words) <= 3:
        sys.exit(__doc__)
    readings = READERS * (int(words[2]) // READERS) if words[2:] else READINGS
    with tempfile.TemporaryDirectory() as folder:
        failed, added = try_readings(Program(str(Path(words[1]).resolve()), Path(folder)), readings)
    print(f"{added} rows were added meanwhile")
    print(f"{readings - failed} passed, {failed} failed")
    return 1 if failed or not added else 0


if __name__ == "__main__":
    sys.exit(main(sys.argv))
