#!/usr/bin/python3
"""Tries salvage on small archives that are damaged in one byte, or cut: what it makes has some of the first rows.

    tools/checks/try_salvage.py PROGRAM [--whole]

The program judges what is made of an archive of three days in batches of one to five rows. The model of the program in
tools/checks/model does so in its place for archives whose days or batches have one row, and for one of each period, whose
batches have 1 to 70 slots. It writes each archive too, and reads what is made of it. Bytes are changed in turn, one of
some, and each bit of each stamp; the first archive is cut to each length of one batch. With `--whole` every byte of the
small archives is changed, in two ways, and the first is cut to every length, which takes minutes.
Salvage is run by itself too: on a pipe, on full disks, stopped, and on a row from the future.
A value may be changed where no check sees it: then the archive is not damaged, and just the rows that the model reads
are wanted. The last line is 'N passed, M failed', and the status is 1 if any failed.
"""
import contextlib
import io
import os
import random
import resource
import signal
import subprocess
import sys
import tempfile
from contextlib import suppress
from unittest import mock

sys.dont_write_bytecode = True
import rooms  # first: the imports below are of other rooms too
import archive_slots
import salvage
from model import archive, outcomes, rows, stamps
from trying import Differs, await_that, until_end

PERIOD = 5
FIRST_STAMP = (2024, 7, 1, 23, 20)
MINUTES_BEFORE = {17: 2000, 20: 10}  # between the row of this number and the one before it, if not a period
ROWS_OF_BATCHES = (5, 1, 5, 4, 5, 1, 3, 2)
CUT_BATCH = 5  # of one row
STEP = 41      # from one byte that is changed to the next
MASKS = (0x01, 0xFF)
STAMP_PLACES = range(4, 8)  # of a row
DAY_PLACES, PART_PLACE = range(4, 8), 8  # of a summary: the number of its day, and which part it is
BITS = tuple(1 << bit for bit in range(8))
TIME_PLACE, TIME_MASKS = 6, (0x01, 0x10, 0x40)  # of the low byte of a row's time word
SUMMARY_BATCH, COUNT_PLACE = 2, 2
COUNT_MASKS = (0x02, 0x18)  # which end that batch right behind its summary slots, and among them
USUAL_FIELDS = (0, 3, 4, 5, 7, 8, 12, 16)
LIMITED_FIELD, LIMITED_PLACE, LIMITED_MASK = 10, 169, 0x04  # the bit of the field in a row
FIRST_VERSION = 1
FEW_FIELDS = (4, 12)  # of which the first summary slot of a day has none

# Days of one row, and the days before the last in full: each row is a batch. A stamp is a day of July 2024, an hour and a minute.
ROWS_BY_ONE = {'a first day of one row': ((1, 12, 0), (2, 12, 0), (3, 12, 0), (3, 12, 5)),
               'a first day of two rows': ((1, 12, 0), (1, 12, 5), (2, 0, 10), (2, 0, 15)),
               'a last day of one row': ((1, 23, 55), (2, 0, 0), (2, 12, 0))}
MOST_SLOTS = 70  # of a batch
CHANGES_OF_PERIOD = 2

TOOL = str(rooms.TOOLS / 'product/salvage.py')
LONGEST = 60  # seconds
SMALL_DISK = 1024  # bytes of a file
FUTURE = 2099
ENDLESS = '#!/bin/sh\nwhile echo row; do :; done\n'


def made_rows(share_of_limited=0.3):
    """Rows of three days, with values of either sign, zeros, and fields that limits made missing."""
    draw = random.Random(1)
    stamp, made = stamps.stamp_of_parts(*FIRST_STAMP), []
    for number in range(sum(ROWS_OF_BATCHES)):
        stamp += MINUTES_BEFORE.get(number, PERIOD)
        values = [None] * len(archive_slots.NAMES)
        for place in USUAL_FIELDS:
            values[place] = draw.choice((0, draw.randint(-500, 500), draw.randint(0, 30_000)))
        limited = frozenset({LIMITED_FIELD} if draw.random() < share_of_limited else ())
        made.append(rows.Row(stamp, PERIOD, tuple(values), limited))
    return made


def rows_by_one(days, fields):
    """Rows at these stamps with values of these fields."""
    draw = random.Random(2)
    return [rows.Row(stamps.stamp_of_parts(2024, 7, *parts), PERIOD,
                     tuple(draw.randint(-500, 500) if place in fields else None for place in range(len(archive_slots.NAMES))))
            for parts in days]


def rows_of_period(period, count):
    """So many rows, a period apart, with two values each."""
    first = stamps.stamp_of_parts(*FIRST_STAMP[:3], 22, 0)
    empty = (None,) * (len(archive_slots.NAMES) - 2)
    return [rows.Row(first + number * period, period, (number % 97 - 30, number % 89, *empty)) for number in range(count)]


def batches_of_each_size(period):
    """Rows of a period, and how many of them are in each batch: of at most 1, 2 .. 70 slots, but for one row that closes a day."""
    made, counts = rows_of_period(period, MOST_SLOTS * (MOST_SLOTS + 1) // 2), []
    for most in range(1, MOST_SLOTS + 1):
        first = sum(counts)
        count = 1
        while len(archive.slots_to_add(made[first - 1:first] if first else [], made[first:first + count + 1])) <= most:
            count += 1
        counts.append(count)
    return made[:sum(counts)], counts


class Image:
    """The bytes of an archive of these rows, so many in each batch, and where its batches end."""

    def __init__(self, made, counts=ROWS_OF_BATCHES, version=archive.THIS_VERSION):
        self.rows = made
        self.bytes = archive.head_slot(version)
        self.ends = [(len(self.bytes), 0)]
        self.row_places = []
        for count in counts:
            first = self.ends[-1][1]
            slots = archive.slots_to_add(made[:first], made[first:first + count])
            self.row_places += [len(self.bytes) + archive.SLOT_BYTES * place
                                for place, slot in enumerate(slots) if slot[1] == archive.ROW_KIND]
            self.bytes += archive.sealed_batch(slots)
            self.ends.append((len(self.bytes), first + count))
        self.bytes += archive.CLOSED_GATE

    def rows_before(self, place):
        """How many rows are in the batches that end at or before a place."""
        return max((count for end, count in self.ends if end <= place), default=0)

    def rows_before_day(self, number):
        """How many rows are in the batches before the first row of the day of a row."""
        day = stamps.archive_day(self.rows[number].stamp)
        first = next(other for other, row in enumerate(self.rows) if stamps.archive_day(row.stamp) == day)
        return self.rows_before(self.row_places[first])

    def follows(self, number):
        """Whether a row is a period later than the one before it."""
        return number > 0 and self.rows[number].stamp == self.rows[number - 1].stamp + self.rows[number].interval

    def rows_surely_good(self, place):
        """How many rows are surely good if the byte at a place is not.

        They are those of the batches before it. A row of a day that is over is doubted with its whole day, and so is that
        day for some bytes of its summary. A stamp may be of another day then, and the day is doubted. If it falls, the row
        before it is doubted that follows no row at once.
        """
        number = sum(at <= place for at in self.row_places) - 1
        if number < 0:
            return self.rows_before(place)
        within = place - self.row_places[number]
        if within >= archive.SLOT_BYTES:
            within %= archive.SLOT_BYTES
            is_own = within < archive.SUMMARY_HEAD.size and within not in DAY_PLACES
            return self.rows_before(place) if is_own else self.rows_before_day(number)
        is_last_day = stamps.archive_day(self.rows[number].stamp) == stamps.archive_day(self.rows[-1].stamp)
        if is_last_day and within not in STAMP_PLACES:
            return self.rows_before(place)
        least = self.rows_before_day(number)
        if within in STAMP_PLACES and number and not self.follows(number - 1):
            least = min(least, self.rows_before(self.row_places[number - 1]))
        return least


def read_or_none(image):
    """The rows that the model reads of an image; none if it is damaged."""
    try:
        return archive.read_archive(image).rows
    except (outcomes.Refusal, IndexError):
        return None


def rows_of_model(_, name):
    """What the model finds of the rows of an archive, in the program's place."""
    with open(name, 'rb') as file:
        found = read_or_none(file.read())
    return (0, 'damaged', 11) if found is None else (len(found), '', 0)


class Trial:
    """Salvage, run on images one after another in a folder. The model judges what is made if there is no program."""

    def __init__(self, program, folder, name, image):
        self.program, self.name, self.image = program, name, image
        self.rows_of = rows_of_model if program is None else salvage.archives.rows_of
        self.old, self.new = os.path.join(folder, 'old'), os.path.join(folder, 'new')
        self.lines = [rows.row_line(row) for row in image.rows]
        self.passed = self.failed = 0

    def salvaged(self, damaged):
        """The rows of what is made of an image, and the lines that are printed."""
        with open(self.old, 'wb') as file:
            file.write(damaged)
        if os.path.exists(self.new):
            os.remove(self.new)
        sys.argv = ['salvage', '--program', self.program or '', self.old, self.new]
        printed = io.StringIO()
        with (mock.patch.object(salvage.archives, 'rows_of', self.rows_of), contextlib.redirect_stdout(printed),
              contextlib.redirect_stderr(io.StringIO()), contextlib.suppress(SystemExit)):
            salvage.main()
        made = []
        if os.path.exists(self.new):
            with open(self.new, 'rb') as file:
                made = read_or_none(file.read())
        return made, printed.getvalue().splitlines()

    def judge(self, name, damaged, least, lost):
        """Holds what is made against what is wanted: at least so many rows, and each other one but one printed."""
        made, printed = self.salvaged(damaged)
        still_read = read_or_none(damaged)
        troubles = []
        if made is None:
            troubles.append('what is made is damaged')
        elif still_read is not None and made != still_read:
            troubles.append('rows of an archive that is not damaged are lacking')
        elif still_read is None and made != self.image.rows[:len(made)]:
            troubles.append('a row is wrong')
        elif len(made) < least:
            troubles.append(f'{len(made)} rows in place of {least}')
        elif any(line not in printed for line in self.lines[len(made):] if line not in lost):
            troubles.append('a row that can be read is not printed')
        elif still_read is None and any(line in printed for line in self.lines[:len(made)]):
            troubles.append('a row that was kept is printed')
        self.failed += bool(troubles)
        self.passed += not troubles
        for trouble in troubles:
            print(f'{self.name}, {name}: {trouble}', file=sys.stderr)

    def change(self, place, mask):
        """Tries an archive of which one byte is changed."""
        damaged = bytearray(self.image.bytes)
        damaged[place] ^= mask
        lost = [line for line, at in zip(self.lines, self.image.row_places) if at <= place < at + archive.SLOT_BYTES]
        least = self.image.rows_surely_good(place) if read_or_none(damaged) is None else 0
        self.judge(f'byte {place} changed by {mask}', bytes(damaged), least, lost)

    def cut(self, length):
        """Tries an archive that is cut to a length: whole batches are kept, with or without the gate behind them."""
        lost = [line for line, at in zip(self.lines, self.image.row_places) if at + archive.SLOT_BYTES > length]
        least = self.image.rows_before(length) if length > archive.EMPTY_BYTES else 0
        self.judge(f'cut to {length}', self.image.bytes[:length], least, lost)


    def change_some(self, masks, places):
        """Changes each byte at some of the places, in each of these ways."""
        for place in places:
            for mask in masks:
                self.change(place, mask)

    def change_all(self):
        """Changes each byte of the archive."""
        self.change_some(MASKS, range(len(self.image.bytes)))

    def hold_whole(self):
        """Tries the archive as it is: each row is kept."""
        self.judge('as it is', self.image.bytes, len(self.image.rows), [])


def try_three_days(program, folder, is_whole):
    """Tries an archive of three days, changed in one byte, or cut. The program judges what is made."""
    image = Image(made_rows())
    trial = Trial(program, folder, 'three days', image)
    size = len(image.bytes)
    trial.hold_whole()
    if is_whole:
        trial.change_all()
    for number, place in enumerate(range(0, size, STEP)):
        trial.change(place, MASKS[number % len(MASKS)])
    trial.change_some(TIME_MASKS, [place + TIME_PLACE for place in image.row_places])
    trial.change_some(COUNT_MASKS, [image.ends[SUMMARY_BATCH][0] + COUNT_PLACE])
    begin, end = (image.ends[CUT_BATCH + number][0] for number in (0, 1))
    for length in range(size) if is_whole else range(begin, end + 1):
        trial.cut(length)
    return trial


def try_first_version(program, folder):
    """Tries an archive of the first version, also with a field that limits made missing, which it cannot have."""
    trial = Trial(program, folder, 'the first version', Image(made_rows(0), version=FIRST_VERSION))
    trial.hold_whole()
    trial.change(trial.image.row_places[-1] + LIMITED_PLACE, LIMITED_MASK)
    return trial


def try_by_one(folder, name, fields, is_whole):
    """Tries an archive of rows by one: each bit of a stamp and of the number of a day."""
    made = rows_by_one(ROWS_BY_ONE[name], fields)
    image = Image(made, (1,) * len(made))
    trial = Trial(None, folder, f'{name} with {len(fields)} fields', image)
    trial.hold_whole()
    for at in range(archive.SLOT_BYTES, len(image.bytes) - 1, archive.SLOT_BYTES):
        is_row = at in image.row_places
        if is_row or image.bytes[at + PART_PLACE] == 0:
            trial.change_some(BITS, [at + place for place in (STAMP_PLACES if is_row else DAY_PLACES)])
    if is_whole:
        trial.change_all()
    return trial


def try_period(folder, period):
    """Tries an archive of a period, whose batches have all sizes: as it is, and changed at some places."""
    image = Image(*batches_of_each_size(period))
    trial = Trial(None, folder, f'rows of {period} minutes', image)
    trial.hold_whole()
    draw = random.Random(period)
    for _ in range(CHANGES_OF_PERIOD):
        trial.change(draw.randrange(len(image.bytes)), draw.choice(MASKS))
    return trial


class ToolTrial:
    """The tool, run in a folder on an archive that is damaged, and on others."""

    def __init__(self, program, folder):
        self.program, self.folder = program, os.path.join(folder, 'tool')
        self.passed = self.failed = 0
        os.mkdir(self.folder)
        self.write('cut', Image(made_rows()).bytes[:8000])
        self.write('later', Image([rows.Row(stamps.stamp_of_parts(FUTURE, 7, 1, 12, 0), PERIOD, rows_of_period(PERIOD, 1)[0].values)],
                                  (1,)).bytes)
        self.write('endless', ENDLESS.encode())
        os.chmod(self.path('endless'), 0o755)
        os.mkfifo(self.path('pipe'))

    def path(self, name):
        """A file of the folder."""
        return os.path.join(self.folder, name)

    def write(self, name, data):
        """Makes a file in the folder."""
        with open(self.path(name), 'wb') as file:
            file.write(data)

    def started(self, old, program=None, **options):
        """A run of the tool, which has begun."""
        command = [TOOL, '--program', program or self.program, old, 'new']
        return subprocess.Popen(command, cwd=self.folder, stderr=subprocess.PIPE, text=True,
                                **{'stdout': subprocess.DEVNULL, **options})

    def hold(self, name, run, status, words, is_made):
        """Holds how a run ends, what it says, and whether there is a new archive."""
        with run:
            try:
                _, said = until_end(run, LONGEST)
            except Differs as reason:
                run.kill()
                said = str(reason)
        seen = run.returncode, words in said and 'Traceback' not in said, os.path.exists(self.path('new'))
        if is_made and seen[2]:
            os.remove(self.path('new'))
        is_good = seen == (status, True, is_made)
        self.passed += is_good
        self.failed += not is_good
        if not is_good:
            print(f"{name}: status {run.returncode}, '{said.strip()}', {'an' if seen[2] else 'no'} archive; in place of status "
                  f"{status}, '{words}', {'an' if is_made else 'no'} archive", file=sys.stderr)

    def stopped(self):
        """A run that is stopped while the program judges the new archive."""
        run = self.started('cut', self.path('endless'))
        with suppress(Differs):  # what it says then is not that it was stopped
            await_that('no new archive is there', lambda: os.path.exists(self.path('new')), LONGEST)
        run.send_signal(signal.SIGTERM)
        return run


def bound():
    """Lets no file grow, as a disk that is full."""
    resource.setrlimit(resource.RLIMIT_FSIZE, (SMALL_DISK, SMALL_DISK))


def try_tool(program, folder):
    """Tries what is no archive's fault."""
    trial = ToolTrial(program, folder)
    trial.hold('a pipe', trial.started('pipe'), 1, 'pipe is no plain file', False)
    trial.hold('a full disk', trial.started('cut', preexec_fn=bound), 1, 'new is taken away again: new: File too large', False)
    with open('/dev/full', 'wb') as full:
        trial.hold('rows to a full disk', trial.started('cut', stdout=full), 1,
                   'new is taken away again: standard output: No space left', False)
    trial.hold('a run that is stopped', trial.stopped(), 1, 'it was stopped', False)
    trial.hold('a row of the future', trial.started('later'), 0,
               "the last row of new is later than this machine's clock, which shows ", True)
    return trial


def main():
    program, is_whole = os.path.abspath(sys.argv[1]), '--whole' in sys.argv
    with tempfile.TemporaryDirectory() as folder:
        trials = [try_three_days(program, folder, is_whole), try_first_version(program, folder)]
        trials += [try_by_one(folder, name, fields, is_whole) for name in ROWS_BY_ONE for fields in (FEW_FIELDS, USUAL_FIELDS)]
        trials += [try_period(folder, period) for period in stamps.PERIODS]
        trials.append(try_tool(program, folder))
    passed, failed = (sum(getattr(trial, count) for trial in trials) for count in ('passed', 'failed'))
    print(f'{passed} passed, {failed} failed')
    sys.exit(failed > 0)


if __name__ == '__main__':
    main()
