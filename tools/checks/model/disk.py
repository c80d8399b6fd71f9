"""The disk of a replay: the rows that a crash can not take away, and what a stop within a change leaves."""

from .archive import EMPTY_BYTES, SLOT_BYTES, SUMMARY_PARTS
from .stamps import archive_day

CHANGES_OF_BATCH, CHANGES_OF_MAKING = 4, 3
WRITING_CHANGES = (1, 2)  # the changes of a batch that write its slots
PICKS, KEPT, ERASED = 3, 0, 0xFF  # what a pick below 3 leaves: the old byte, the new one, or an erased one
PICK_FACTOR, PLACE_FACTOR = 2654435761, 40503


def slot_count(rows):
    """Slots that rows take, those for the summary of each closed day included."""
    days = {archive_day(row.stamp) for row in rows}
    return len(rows) + SUMMARY_PARTS * max(0, len(days) - 1)


def picked_length(pick, old, new):
    """What a crash leaves of a length that was being changed."""
    if pick < PICKS:
        return old if pick == KEPT else new
    return old + pick % (new - old + 1)


def picked_byte(pick, place, old, new):
    """What a crash leaves of a byte that was being written."""
    if pick < PICKS:
        return (old, new, ERASED)[pick]
    mixed = (pick * PICK_FACTOR + place * PLACE_FACTOR) % 2 ** 32
    return (old, new, ERASED, mixed // 2 ** 24)[mixed // 2 ** 16 % 4]


class Full(Exception):
    """A batch would exceed the most rows allowed."""


class Stopped(Exception):
    """The disk stopped within a change."""


class Disk:
    """The rows that a crash can not take away, and the length of their file."""

    def __init__(self, most):
        self.most = most
        self.rows = []
        self.length = 0
        self.stop = None     # the change at which the disk stops, and its pick
        self.batches = 0     # batches given since the stop was set

    def newest(self):
        """The newest stamp, or None."""
        return self.rows[-1].stamp if self.rows else None

    def recover(self, stop=None):
        """Opens the archive, and makes its file anew where it holds no row."""
        short = self.length <= EMPTY_BYTES
        if stop and (stop[0] == 1 or (short and stop[0] <= CHANGES_OF_MAKING)):
            if stop[0] > 1:
                self.length = picked_length(stop[1], self.length, EMPTY_BYTES)
            raise Stopped
        self.length = max(self.length, EMPTY_BYTES)

    def arm(self, stop):
        """Sets the stop of a round: a change and a pick, or None."""
        self.stop = stop
        self.batches = 0

    def add(self, batch):
        """Takes a batch whole, unless it is too much or the disk stops."""
        rows = self.rows + batch
        if len(rows) > self.most:
            raise Full
        first, last = slot_count(self.rows), slot_count(rows)
        length = max(self.length, SLOT_BYTES * (last + 1) + 1)
        self.batches += 1
        if self.stop and (self.stop[0] - 1) // CHANGES_OF_BATCH == self.batches - 1:
            self.stop_within(rows, SLOT_BYTES * (first + 1), length)
        self.rows, self.length = rows, length

    def stop_within(self, rows, gate, length):
        """The disk stops while a batch is written, or while its gate is opened."""
        change, pick = self.stop
        if change % CHANGES_OF_BATCH in WRITING_CHANGES:
            self.length = picked_length(pick, self.length, length)
        else:
            self.length = length
            if picked_byte(pick, gate, 0, 1) != 0:
                self.rows = rows
        raise Stopped
