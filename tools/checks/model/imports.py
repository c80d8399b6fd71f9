"""Texts of rows imported into an archive."""

from .archive import CLOSED_GATE, EMPTY_BYTES, THIS_VERSION, head_slot, read_archive
from .copies import with_rows_added
from .outcomes import ARCHIVE_FULL, DONE, Refusal, outcome
from .settings import MOST_ROWS


def import_rows(rows, image):
    """What an import of these rows ends with, and the bytes of the archive's file afterwards."""
    try:
        archive = read_archive(image, to_write=True)
    except Refusal as refusal:
        return refusal.outcome, image
    if len(image) <= EMPTY_BYTES:
        image = head_slot(THIS_VERSION) + CLOSED_GATE
    later = [row for row in rows if not archive.rows or row.stamp > archive.rows[-1].stamp]
    count = len(archive.rows) + len(later)
    if count > MOST_ROWS:
        return outcome(ARCHIVE_FULL, ["archive full"]), image
    image = with_rows_added(image, archive, later)
    return outcome(DONE, [f"imported {len(later)} passed {len(rows) - len(later)} rows {count}"]), image
