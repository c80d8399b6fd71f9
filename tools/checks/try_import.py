#!/usr/bin/env python3
"""Tries imports that are too large for a table: a text of 16 MiB, a text in pieces, and an archive that is full. It tries too the
commands by which docs/USING.md makes texts of rows.

    tools/checks/try_import.py PROGRAM [--whole]

With --whole a report of a million rows goes in again piece by piece, and so do twenty years, with what they took. That takes
some minutes, and 2 GB. The archives lie in memory where the system has a folder for that, since a million rows wait for the disk
400,000 times. The last line is 'N passed, M failed', and the status is 1 if any failed.
"""
import os
import subprocess
import sys
import tempfile
from pathlib import Path

TOP = Path(__file__).resolve().parents[2]
sys.dont_write_bytecode = True  # nothing is left beside the scripts
sys.path.append(str(TOP / "bench"))

import made_archive
from inputs import Inputs
from model.archive import SLOT_BYTES
from model.records import NAMES
from model.settings import MOST_ROWS
from model.stamps import stamp_text
from trying import Ended, hold, try_all

EXAMPLES = TOP / "examples"
WHOLE = "--whole"
IN_MEMORY = "/dev/shm"
PAGE_BYTES = 267
LONGEST_TEXT = 16_777_216  # bytes
REPORT = "report {} rows 1999-12-31 2127-12-31"
FULL = Ended(10, "archive full\n")
MORE_DIGITS = 6  # that the number 1 may have
ROWS_IN_PIECES = 60_000
PIECE = 15 << 20  # bytes, as docs/USING.md has it
ROWS_AT_ONCE = 500_000  # without values, in less than 16 MiB
DUMPED = 12  # records in examples/first.pages
PACKETS = 1_000  # of half an hour
DAY_ROWS, DAMAGED_ROW = 40, 12  # the rows of a day, and which one is damaged
KIND_PLACE, NO_KIND = 1, b"\x09"  # of a slot
MILLION = 1_000_000
BATCH_ROWS = 5
ROWS_OF_TWENTY_YEARS = (20 * 365 + 5) * made_archive.ROWS_OF_A_DAY
FIELDS_OF_A_CONSOLE = 20  # that a console without further sensors has


def line(number, first="1"):
    """The line of a row with a value of each field: that of the first field, and 2 to 37."""
    values = (first, *map(str, range(2, len(NAMES) + 1)))
    return f"row {stamp_text(number)} 1 {' '.join(f'{name}={value}' for name, value in zip(NAMES, values))}\n"


def bare_lines(first, count):
    """The lines of so many rows without values, from a minute on."""
    return "".join(f"row {stamp_text(number)} 1\n" for number in range(first, first + count))


def lines_of_size(size):
    """Lines of rows that have so many bytes together: some have a first value of more digits."""
    count, more = divmod(size, len(line(0)))
    digits = [MORE_DIGITS] * (more // MORE_DIGITS) + [more % MORE_DIGITS]
    return "".join(line(number, "1" + "0" * (digits[number] if number < len(digits) else 0)) for number in range(count))


def imported(added, passed, rows):
    """How an import ends that was done."""
    return Ended(0, f"imported {added} passed {passed} rows {rows}\n")


def longest_text(program):
    """A text of 16 MiB is taken, and a report of it is that text. One byte more is refused, and nothing is made."""
    text = lines_of_size(LONGEST_TEXT)
    hold("the bytes of the text", len(text), LONGEST_TEXT)
    rows = text.count("\n")
    program.write("text", text)
    hold("an import of it", program.run("import text archive"), imported(rows, 0, rows))
    hold("a report of it is the text", program.run(REPORT.format("archive")) == Ended(0, text), True)
    program.write("text", text + "r")
    hold("an import of one byte more", program.run("import text other"), Ended(15, "file too long\n"))
    hold("an archive is made", (program.folder / "other").exists(), False)


def text_in_pieces(program):
    """A report goes in again piece by piece, as docs/USING.md has it, and a report of that has the same bytes."""
    text = "".join(map(line, range(ROWS_IN_PIECES)))
    program.write("text", text)
    subprocess.run(["split", "-C", str(PIECE), "text", "piece."], cwd=program.folder, check=True)
    pieces = sorted(path.name for path in program.folder.glob("piece.*"))
    hold("there are several pieces", len(pieces) > 1, True)
    rows = 0
    for piece in pieces:
        added = program.read(piece).count(b"\n")
        rows += added
        hold(f"an import of {piece}", program.run(f"import {piece} archive"), imported(added, 0, rows))
    hold("a report of them is the text", program.run(REPORT.format("archive")) == Ended(0, text), True)
    hold("the first piece again", program.run(f"import {pieces[0]} archive").status, 0)


def full_archive(program):
    """An archive of 1,048,576 rows takes no more, and one that would have more takes none."""
    last = MOST_ROWS - 1
    for first in range(0, last, ROWS_AT_ONCE):
        count = min(ROWS_AT_ONCE, last - first)
        program.write("text", bare_lines(first, count))
        hold(f"an import of {count} rows", program.run("import text archive"), imported(count, 0, first + count))
    size = os.path.getsize(program.folder / "archive")
    program.write("two", bare_lines(last, 2))
    program.write("one", bare_lines(last, 1))
    program.write("next", bare_lines(last + 1, 1))
    hold("an import of two rows too many by one", program.run("import two archive"), FULL)
    hold("the bytes of the archive", os.path.getsize(program.folder / "archive"), size)
    hold("an import of the last row", program.run("import one archive"), imported(1, 0, MOST_ROWS))
    hold("an import of one more", program.run("import next archive"), FULL)
    hold("an import of a row that is there", program.run("import one archive"), imported(0, 1, MOST_ROWS))


def shell(program, command):
    """Has a shell run a command in the case's folder, where the program is called jofitrana."""
    subprocess.run(["bash", "-ec", f'jofitrana() {{ "$PROGRAM" "$@"; }}\n{command}'], cwd=program.folder, check=True,
                   stdout=subprocess.DEVNULL, env={**os.environ, "PROGRAM": program.path})


def joined_archives(program):
    """Two archives of the same years are joined. Of two rows of one stamp the second is named by its line."""
    for name, text in (("one", bare_lines(0, 10)), ("two", bare_lines(5, 10)), ("other", line(7))):
        program.write(name, text)
        hold(f"an import of {name}", program.run(f"import {name} {name}.archive").status, 0)
    for other, wanted in (("two", imported(15, 0, 15)), ("other", Ended(19, "row line 9 fault 8\n"))):
        shell(program, f"{{ jofitrana {REPORT.format('one.archive')}\n"
                       f"jofitrana {REPORT.format(other + '.archive')}; }} | LC_ALL=C sort -u > both.rows")
        hold(f"an import of the rows of one and {other}", program.run(f"import both.rows both.{other}"), wanted)
    hold("a report of one and two", program.run(REPORT.format("both.two")), Ended(0, bare_lines(0, 15)))


def took(program, command):
    """Has a shell run a command, and gives the seconds of a processor that it took."""
    began = os.times()
    shell(program, command)
    ended = os.times()
    return ended.children_user + ended.children_system - began.children_user - began.children_system


def pieces_of(program, text):
    """How many pieces a text has. They are imported one after another, as docs/USING.md has it, with the seconds of all."""
    shell(program, f"rm -f archive piece.*; split -C {PIECE} {text} piece.")
    seconds = took(program, "for piece in piece.*; do jofitrana import $piece archive || exit; done >imported")
    return program.read("imported").count(b"\n"), seconds


def report_times(program, rows, pieces, seconds_in, seconds_out):
    """Reports what a text of rows took, in and out."""
    size = os.path.getsize(program.folder / "text") / 1e6
    print(f"{rows} rows, {size:.0f} MB in {pieces} pieces: in {seconds_in:.1f} s of a processor, out {seconds_out:.1f} s",
          file=sys.stderr)


def million_rows(program):
    """A report of an archive of a million rows goes in again, and a report of that has the same bytes."""
    made_archive.write(program.folder / "made", MILLION, BATCH_ROWS)
    out = took(program, f"jofitrana {REPORT.format('made')} >text")
    pieces, back = pieces_of(program, "text")
    shell(program, f"jofitrana {REPORT.format('archive')} | cmp - text")
    report_times(program, MILLION, pieces, back, out)


def write_years(path, first, count):
    """Writes the lines of so many rows of five minutes, from the first one's number on, with the fields of a plain console."""
    values_of = [" ".join(f"{name}={value}" for name, value in zip(NAMES[:FIELDS_OF_A_CONSOLE], values))
                 for values in made_archive.VALUES_OF]
    with open(path, "w", encoding="ascii") as file:
        for number in range(first, first + count):
            values = values_of[number % len(values_of)]
            file.write(f"row {stamp_text(number * made_archive.MINUTES)} {made_archive.MINUTES} {values}\n")


def twenty_years(program):
    """The rows of twenty years go piece by piece into as many archives as they need, and reports of these have the same bytes."""
    for first in range(0, ROWS_OF_TWENTY_YEARS, MOST_ROWS):
        count = min(MOST_ROWS, ROWS_OF_TWENTY_YEARS - first)
        write_years(program.folder / "text", first, count)
        pieces, there = pieces_of(program, "text")
        out = took(program, f"jofitrana {REPORT.format('archive')} >out")
        shell(program, "cmp out text")
        report_times(program, count, pieces, there, out)


def older_rows(program):
    """Rows that are older than an archive go into a new one before its own."""
    program.write("old.rows", bare_lines(0, 10))
    program.write("young", bare_lines(8, 10))
    shell(program, "jofitrana import young roof.archive; jofitrana import old.rows new.archive\n"
                   f"jofitrana {REPORT.format('roof.archive')} > roof.rows")
    hold("an import of the archive's rows", program.run("import roof.rows new.archive"), imported(8, 2, 18))
    hold("a report of both", program.run(REPORT.format("new.archive")), Ended(0, bare_lines(0, 18)))


def live_packets(program):
    """The rows that live packets make go into an archive."""
    Inputs(str(program.folder)).packets(PACKETS)
    program.write("settings", (EXAMPLES / "settings.toml").read_bytes())
    shell(program, f"jofitrana soft settings {PACKETS}.packets | grep '^row ' > old.rows")
    text = program.read("old.rows").decode()
    rows = text.count("\n")
    hold("packets make rows", rows > 1, True)
    hold("an import of these rows", program.run("import old.rows archive"), imported(rows, 0, rows))
    hold("a report of them", program.run(REPORT.format("archive")), Ended(0, text))


def rows_behind_a_damage(program):
    """The rows behind a damage go into the archive that salvage makes of those before it."""
    program.write("day", bare_lines(1, DAY_ROWS))
    hold("an import of a day", program.run("import day damaged"), imported(DAY_ROWS, 0, DAY_ROWS))
    with open(program.folder / "damaged", "r+b") as file:
        file.seek(SLOT_BYTES * DAMAGED_ROW + KIND_PLACE)
        file.write(NO_KIND)
    shell(program, f"{TOP}/tools/product/salvage.py --program $PROGRAM damaged saved > behind.rows 2>found")
    hold("an import of the rows behind it", program.run("import behind.rows saved").status, 0)
    lines = bare_lines(1, DAY_ROWS).splitlines(keepends=True)
    del lines[DAMAGED_ROW - 1]
    hold("a report of what was saved", program.run(REPORT.format("saved")), Ended(0, "".join(lines)))


def captured_dump(program):
    """The rows of a captured dump go into an archive, also if its newest page comes first."""
    pages = (EXAMPLES / "first.pages").read_bytes()
    program.write("settings", (EXAMPLES / "settings.toml").read_bytes())
    for name, dump in (("straight", pages), ("wrapped", pages[-PAGE_BYTES:] + pages[:-PAGE_BYTES])):
        program.write("dump", dump)
        shell(program, f"jofitrana pages settings dump | grep '^row ' | LC_ALL=C sort -u > {name}.rows")
        hold(f"an import of a {name} dump", program.run(f"import {name}.rows {name}"), imported(DUMPED, 0, DUMPED))
    hold("both archives are one", program.read("straight") == program.read("wrapped"), True)


CASES = (longest_text, text_in_pieces, full_archive, joined_archives, older_rows, live_packets, rows_behind_a_damage,
         captured_dump)
LARGE_CASES = million_rows, twenty_years

if __name__ == "__main__":
    if Path(IN_MEMORY).is_dir() and os.access(IN_MEMORY, os.W_OK):
        tempfile.tempdir = IN_MEMORY
    words = [word for word in sys.argv if word != WHOLE]
    sys.exit(try_all(words, __doc__, CASES + (LARGE_CASES if WHOLE in sys.argv else ()), 1))
