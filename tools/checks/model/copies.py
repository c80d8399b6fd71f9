"""Copies of an archive into another of this version, batch by batch."""

from .archive import CLOSED_GATE, EMPTY_BYTES, SLOT_BYTES, THIS_VERSION, head_slot, read_archive
from .archive import sealed_batch, slots_to_add
from .outcomes import ARCHIVE_FULL, DONE, NOT_A_PREFIX, Refusal, outcome
from .settings import MOST_ROWS

ROWS_OF_BATCH = 5
LEFT_BY_POWER_CUT = 0, 0xFF  # in place of a byte that was being written


def copy(old, new):
    """What a copy ends with, and the bytes of the new file afterwards."""
    try:
        source = read_archive(old).rows
        if len(source) > MOST_ROWS:
            return outcome(ARCHIVE_FULL, ["archive full"]), new
        target = read_archive(new, to_write=True)
    except Refusal as refusal:
        return refusal.outcome, new
    if len(new) <= EMPTY_BYTES:
        new = head_slot(THIS_VERSION) + CLOSED_GATE
    differs = first_difference(target.rows, source)
    if differs is not None:
        return outcome(NOT_A_PREFIX, [f"not a prefix at row {differs}"]), new
    new = with_rows_added(new, target, source[len(target.rows):])
    return outcome(DONE, [f"copied {len(source)}"]), new


def may_be_written(image):
    """Whether a file is opened to be written: a short one only if a power cut may have left it of an archive in the making."""
    wanted = head_slot(THIS_VERSION) + CLOSED_GATE
    return len(image) > len(wanted) or all(byte in (whole, *LEFT_BY_POWER_CUT) for byte, whole in zip(image, wanted))


def first_difference(rows, source):
    """The first row that is not the source's row of that number, or None."""
    for number, row in enumerate(rows):
        if number >= len(source) or row != source[number]:
            return number
    return None


def with_rows_added(image, archive, lacking):
    """The file after the lacking rows were added batch by batch."""
    rows = list(archive.rows)
    end = SLOT_BYTES * (archive.slots + 1)
    for start in range(0, len(lacking), ROWS_OF_BATCH):
        batch = lacking[start:start + ROWS_OF_BATCH]
        added = sealed_batch(slots_to_add(rows, batch)) + CLOSED_GATE
        image = image[:end] + added + image[end + len(added):]
        end += len(added) - len(CLOSED_GATE)
        rows += batch
    return image
