"""Checks, and pages of 267 bytes: a sequence number, five record slots, four unused bytes and a check."""

import binascii

from .outcomes import BAD_PAGE, DONE, outcome
from .records import EMPTY_SLOT, KNOWN_REVISION, NAMES, RECORD_BYTES, REVISION_PLACE, record_words
from .records import stamp_of_record, values_of
from .rows import corrected, row_line
from .stamps import stamp_text

CHECK_BYTES = 2
SLOTS_OF_PAGE = 5
UNUSED = b"\xff" * 4
PAGE_BYTES = 1 + SLOTS_OF_PAGE * RECORD_BYTES + len(UNUSED) + CHECK_BYTES
SEQUENCES = 256
TEMPERATURE_PLACE = NAMES.index("outTemp")


def check(data):
    """The CCITT check of the bytes, started at 0; 0 says that a sealed frame is good."""
    return binascii.crc_hqx(data, 0)


def sealed(data):
    """The bytes followed by their check, high byte first."""
    return data + check(data).to_bytes(CHECK_BYTES, "big")


def page_of(sequence, slots, unused=UNUSED):
    """A good page of five slots."""
    return sealed(bytes([sequence % SEQUENCES]) + b"".join(slots) + unused)


def slots_of(page, first=0):
    """The record slots of a page, from a place on."""
    starts = [1 + RECORD_BYTES * place for place in range(first, SLOTS_OF_PAGE)]
    return [page[start:start + RECORD_BYTES] for start in starts]


def is_known(record):
    """Whether a record has the form that is read."""
    return record[REVISION_PLACE] == KNOWN_REVISION


def plain_line(stamp, values):
    """Stamp and outside temperature of a record."""
    value = values[TEMPERATURE_PLACE]
    return f"{stamp_text(stamp)} {'-' if value is None else value}"


def slot_line(settings, number, place, slot):
    """The line of one slot that is not empty."""
    where = f"page {number} place {place}"
    if not is_known(slot):
        return f"{where} revision {slot[REVISION_PLACE]}"
    stamp = stamp_of_record(slot)
    if stamp is None:
        return "{} stamp {} {}".format(where, *record_words(slot))
    if settings is None:
        return plain_line(stamp, values_of(slot))
    return row_line(corrected(settings, stamp, values_of(slot)))


def page_lines(settings, number, page):
    """The lines of one good page."""
    return [slot_line(settings, number, place, slot)
            for place, slot in enumerate(slots_of(page)) if slot != EMPTY_SLOT]


def pages_outcome(settings, data):
    """What is printed of a file of pages up to its first bad one; settings are None where none are given."""
    lines = []
    for number, start in enumerate(range(0, len(data), PAGE_BYTES)):
        page = data[start:start + PAGE_BYTES]
        if len(page) < PAGE_BYTES or check(page) != 0:
            return outcome(BAD_PAGE, lines + [f"bad page {number}"])
        lines += page_lines(settings, number, page)
    return outcome(DONE, lines)
