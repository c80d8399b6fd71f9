#!/usr/bin/python3
"""Makes a new archive of the whole batches before the damage of an archive (docs/FORMATS.md).

    jofitrana-salvage [--program PROGRAM] OLD NEW >behind.rows
    jofitrana-salvage --until '2024-07-01 12:00' OLD NEW >behind.rows
    jofitrana-salvage --station NAME NEW >behind.rows

With `--until` just the batches are taken whose rows are not later than that stamp, also of an archive that is not damaged.
With `--station` OLD is the archive of that station. OLD is only read. NEW must not be there. It is judged by the program at once, and taken away again if that refuses it.
The rows behind the damage that can be read are printed as row lines; if they cannot be printed, NEW is taken away again too.
What was found goes to standard error, also if the last row is later than this machine's clock.
Statuses: 0 if NEW was made, 1 if not, 2 if the words are out of form.
"""
import argparse
import errno
import fcntl
import os
import signal
import stat
import sys
from contextlib import contextmanager, suppress
from datetime import datetime

sys.dont_write_bytecode = True  # nothing is left beside an installed script
import archives
import stations
from archive_slots import PARTS, SLOT_BYTES, SUMMARY_KIND, is_own_damage, row_of, summary_slot
from rows import MINUTE, day_of

FIRST_HEAD, HEAD = b'DVARCH01', b'DVARCH02'
EMPTY_BYTES = SLOT_BYTES + 1
CLOSED = b'\0'
MOST_SLOTS = 70  # of a batch
CONSOLE_RECORDS = 2560


class Damage(Exception):
    """A slot that may not stand where it does."""

    def __init__(self, place, doubtful=None):
        super().__init__(place)
        self.place = place
        self.doubtful = doubtful  # the first place whose row may be wrong too, if there is one


class Reading:
    """The slots that were read so far, from the first on, and what the next one is judged by."""

    def __init__(self, has_limited):
        self.has_limited = has_limited  # an archive of the first version has none
        self.last = None       # the last row
        self.last_place = 0
        self.last_follows = False  # whether it is a period later than the one before it, so that its stamp is right
        self.day_rows = []     # the rows of its day
        self.day_place = 0     # where they begin
        self.parts = 0         # summary slots since the last row
        self.count = 0         # rows

    def take(self, slot, place, opens_batch):
        """Takes the slot that stands at a place, or raises what is damaged."""
        if slot[1] == SUMMARY_KIND:
            self.take_summary(slot, place)
        else:
            self.take_row(row_of(slot, opens_batch), place)

    def take_summary(self, slot, place):
        """Takes a slot of a summary."""
        if not self.last or self.parts == PARTS:
            raise Damage(place)
        right = summary_slot(self.day_rows, self.parts)
        if slot[1:2] + slot[4:] != right[1:2] + right[4:]:
            raise Damage(place, None if is_own_damage(slot, right) else self.day_place)
        self.parts += 1

    def take_row(self, row, place):
        """Takes a row."""
        if row is None or row.limited and not self.has_limited:
            raise Damage(place)
        if self.last and row.stamp <= self.last.stamp:
            raise Damage(place, None if self.last_follows else self.last_place)
        is_later_day = bool(self.last) and day_of(row.stamp) > day_of(self.last.stamp)
        if self.parts != (PARTS if is_later_day else 0):
            raise Damage(place, None if self.parts else self.day_place)  # this row or the day's first one is of another day
        if is_later_day or not self.last:
            self.day_rows, self.day_place = [], place
        self.day_rows.append(row)
        self.last_follows = bool(self.last) and row.stamp == self.last.stamp + row.interval * MINUTE
        self.last, self.last_place, self.parts, self.count = row, place, 0, self.count + 1


class Whole(Reading):
    """The whole batches of a file before its damage."""

    def __init__(self, file, size):
        self.file, self.size = file, size
        head = self.bytes_at(0, len(HEAD))
        super().__init__(head != FIRST_HEAD)
        self.ends = [(SLOT_BYTES, 0, None)]  # where a batch ends at which a log may end, the rows until there, and the last
        self.damage = None if head in (FIRST_HEAD, HEAD) else 0

    def bytes_at(self, place, count):
        """So many bytes from a place on, or fewer at the end of the file."""
        self.file.seek(place)
        return self.file.read(count)

    def read(self):
        """Reads batch after batch until the closed gate, or the damage."""
        place = SLOT_BYTES
        try:
            while True:
                gate = self.bytes_at(place, 4)
                if gate[:1] == CLOSED:
                    if self.parts:
                        raise Damage(place)
                    return
                place = self.read_batch(place, int.from_bytes(gate[2:4], 'little'))
        except Damage as damage:
            self.damage = damage.place
            self.drop_from(place if damage.doubtful is None else damage.doubtful)

    def read_batch(self, place, slots):
        """Reads the batch at a place, and gives where it ends."""
        end = place + SLOT_BYTES * slots
        if not 1 <= slots <= MOST_SLOTS or end > self.size:
            raise Damage(place)
        batch = self.bytes_at(place, SLOT_BYTES * slots)
        for at in range(0, len(batch), SLOT_BYTES):
            self.take(batch[at:at + SLOT_BYTES], place + at, at == 0)
        if self.parts == 0:
            self.ends.append((end, self.count, self.last))
        return end

    def drop_from(self, place):
        """Drops each batch that does not end at or before a place."""
        while self.ends[-1][0] > place:
            self.ends.pop()

    def drop_after(self, stamp):
        """Drops each batch that has a row later than a stamp."""
        while self.ends[-1][1] and self.ends[-1][2].stamp > stamp:
            self.ends.pop()

    def rows_behind(self):
        """The rows behind the whole batches that can be read, whatever gates and numbers of slots say."""
        for place in range(self.ends[-1][0], self.size - SLOT_BYTES + 1, SLOT_BYTES):
            row = row_of(self.bytes_at(place, SLOT_BYTES), True)
            if row:
                yield row


def say(text):
    """Prints what was found."""
    print(f'salvage: {text}', file=sys.stderr)


def give_up(text):
    """Prints why there is no NEW, and ends."""
    sys.exit(f'salvage: {text}')


def opened(name):
    """A file that no other program writes, for reading, and its size."""
    if not stat.S_ISREG(os.stat(name).st_mode):  # to open a pipe could take for ever
        give_up(f'{name} is no plain file')
    file = open(name, 'rb')
    try:
        fcntl.flock(file, fcntl.LOCK_SH | fcntl.LOCK_NB)
    except BlockingIOError:
        give_up(f'{name} is open in another program: wait until that is done')
    return file, os.fstat(file.fileno()).st_size


@contextmanager
def new_file(name):
    """A new file. It is taken away again if what is done with it fails or is ended."""
    file = open(name, 'xb')
    try:
        yield file
    except BaseException as fault:
        os.remove(name)
        if isinstance(fault, OSError):
            give_up(f'{name} is taken away again: {fault.filename or name}: {fault.strerror}')
        raise
    finally:
        with suppress(OSError):  # what it could not write was told
            file.close()


def write(new, whole):
    """Writes the whole batches to a new file."""
    end, _, _ = whole.ends[-1]
    new.write(HEAD.ljust(SLOT_BYTES, b'\0'))
    for place in range(SLOT_BYTES, end, SLOT_BYTES * MOST_SLOTS):
        new.write(whole.bytes_at(place, min(SLOT_BYTES * MOST_SLOTS, end - place)))
    new.write(CLOSED)
    new.flush()
    os.fsync(new.fileno())


def judge(name, whole, program):
    """Has the program judge a new archive of the whole batches."""
    _, count, _ = whole.ends[-1]
    found, line, status = archives.rows_of(program, name)
    if status or found != count:
        give_up(f'the program does not take {name}, which is taken away again: {line}')


def print_rows(whole):
    """Prints the rows behind the whole batches; gives how many there are."""
    behind = 0
    try:
        if sys.stdout is None:
            raise OSError(errno.EBADF, os.strerror(errno.EBADF))
        for row in whole.rows_behind():
            behind += 1
            print(row.line())
        sys.stdout.flush()
    except OSError as fault:
        sys.stdout = None  # it would be flushed once more
        raise OSError(fault.errno, fault.strerror, 'standard output') from fault
    return behind


def report(whole, chosen, behind):
    """Prints what was found."""
    old, new, station = chosen.old, chosen.new, chosen.known
    _, count, last = whole.ends[-1]
    say(f'{old} is ' + ('not damaged' if whole.damage is None else f'damaged at {whole.damage}'))
    say(f'{new} has its first {count} rows' + (f', the last of {last.stamp:%Y-%m-%d %H:%M}' if last else ''))
    if behind and whole.damage is None:
        say(f'{behind} rows behind them are dropped, and printed. The next round with {new} adds what the console still has of them')
    elif whole.damage or behind:
        say(f'{behind} rows behind them can be read. They are printed, and may be wrong: {new} has none of them')
        say(f'the other rows behind them are missing. The next round with {new} adds what the console still has:')
        say(f'the records later than the last row, out of its last {CONSOLE_RECORDS:,}')
    now, where = (station.now(), " in the station's zone") if station else (datetime.now(), '')
    if last and last.stamp > now:
        say(f"the last row of {new} is later than this machine's clock{where}, which shows {now:%Y-%m-%d %H:%M}: its stamp may be wrong.")
        say('No round adds a record until the console\'s clock has passed that stamp')


def archive_word(name):
    """A name that an archive may have."""
    refusal = archives.refusal_of(name)
    if refusal:
        raise argparse.ArgumentTypeError(refusal)
    return name


def stamp_word(text):
    """The stamp of a word."""
    try:
        return datetime.strptime(text, '%Y-%m-%d %H:%M')
    except ValueError:
        raise argparse.ArgumentTypeError(f"{text} is no stamp, as '2024-07-01 12:00'") from None


def chosen_words():
    """The words of the command line, with the names of OLD and NEW."""
    words = argparse.ArgumentParser(prog='jofitrana-salvage', description='Makes an archive of what is whole of a damaged one.')
    words.add_argument('names', type=archive_word, nargs='+', metavar='OLD NEW',
                       help='the damaged archive, which is only read, and the archive to make, which must not be there')
    words.add_argument('--until', type=stamp_word, metavar='STAMP', help='take no batch with a row later than that')
    words.add_argument('--program', default='jofitrana', help='the program that judges NEW')
    stations.add_station_option(words)
    chosen = words.parse_intermixed_args()
    try:
        station = stations.station_of(chosen)
    except stations.StationFault as fault:
        give_up(fault)
    names = [station.archive, *chosen.names] if station else chosen.names
    if len(names) != 2:
        words.error('two archives are wanted, or --station and one')
    chosen.old, chosen.new = names
    chosen.known = station
    return chosen


def has_rows(whole):
    """Whether there is a row, even one that is not kept."""
    return whole.size > EMPTY_BYTES and (whole.ends[-1][1] or any(whole.rows_behind()))


def salvage(chosen):
    """Makes NEW of what is whole of OLD, as far as the words say."""
    file, size = opened(chosen.old)
    with file:
        whole = Whole(file, size)
        whole.read()
        if not has_rows(whole):
            give_up(f'{chosen.old} has no row that can be read')
        if chosen.until:
            whole.drop_after(chosen.until)
            if not whole.ends[-1][1]:
                give_up(f'{chosen.old} has no batch of rows up to {chosen.until:%Y-%m-%d %H:%M}')
        with new_file(chosen.new) as new:
            write(new, whole)
            judge(chosen.new, whole, chosen.program)
            behind = print_rows(whole)
        report(whole, chosen, behind)


def stop(*_):
    """Ends the run, which takes NEW away again."""
    give_up('it was stopped')


def main():
    for number in (signal.SIGINT, signal.SIGTERM):
        signal.signal(number, stop)
    chosen = None
    try:
        chosen = chosen_words()
        if os.path.lexists(chosen.new):
            give_up(f'{chosen.new} is there already')
        salvage(chosen)
    except OSError as fault:
        give_up(f'{fault.filename or chosen.old}: {fault.strerror}')


if __name__ == '__main__':
    main()
