"""The host: it wakes the console, asks for a dump, and takes its pages."""

from dataclasses import dataclass
from math import inf

from .console import ACK, CR, LF, NAK
from .line import WAIT
from .pages import PAGE_BYTES, SEQUENCES, SLOTS_OF_PAGE, check, is_known, sealed, slots_of
from .records import EMPTY_SLOT, stamp_bytes, stamp_of_record

EXCHANGE_WAITS, SETTLING_WAITS = 3, 6
WAKE_TRIES, ASKINGS = 3, 4
MOST_PAGES = 513
HEADER_BYTES = 7  # an acknowledgement, two numbers and a check
SETTLING_ROOM = PAGE_BYTES  # bytes that one receive takes at most where no answer is waited for


def listen(line, waits, size=inf):
    """Listens until so many quiet waits came in a row, or so many bytes; gives what was heard."""
    heard, quiet = bytearray(), 0
    while quiet < waits and len(heard) < size:
        piece = line.receive(SETTLING_ROOM if size == inf else size - len(heard))
        if piece is WAIT:
            quiet += 1
        else:
            heard += piece
            quiet = 0
    return bytes(heard)


def ask(line, message, size):
    """Sends a message; gives so many bytes of answer, or fewer where the line falls quiet."""
    line.send(message)
    return listen(line, EXCHANGE_WAITS, size)


def wake(line):
    """Whether the console answers a line's end within a few tries."""
    for _ in range(WAKE_TRIES):
        line.send(bytes([LF]))
        if listen(line, EXCHANGE_WAITS).endswith(bytes([LF, CR])):
            return True
    return False


class Failed(Exception):
    """An attempt came to nothing more and may be made again."""


@dataclass
class Tally:
    """What one round counts."""
    attempts: int = 0
    pages: int = 0
    skipped: int = 0


def read_header(answer):
    """Number of pages and first place of an answer to the stamp frame."""
    if len(answer) < HEADER_BYTES or answer[0] != ACK or check(answer[1:]) != 0:
        raise Failed
    pages, place = (int.from_bytes(answer[at:at + 2], "little") for at in (1, 3))
    if pages > MOST_PAGES or (pages > 0 and place >= SLOTS_OF_PAGE):
        raise Failed
    return pages, place


def ask_page(line, number):
    """The page of this number, asked for up to four times."""
    message = ACK
    for asking in range(ASKINGS):
        if asking > 0:
            listen(line, SETTLING_WAITS)
        answer = ask(line, bytes([message]), PAGE_BYTES)
        if len(answer) < PAGE_BYTES or check(answer) != 0:
            message = NAK
        elif answer[0] == number % SEQUENCES:
            return answer
        elif number > 0 and answer[0] == (number - 1) % SEQUENCES:
            message = ACK
        else:
            raise Failed
    raise Failed


def batch_of(page, place, newest, tally):
    """Stamps and records of a page, from a place on, that rise above the newest stamp."""
    batch = []
    for record in slots_of(page, place):
        if record == EMPTY_SLOT:
            continue
        stamp = stamp_of_record(record)
        if not is_known(record) or stamp is None:
            tally.skipped += 1
        elif newest is None or stamp > newest:
            batch.append((stamp, record))
            newest = stamp
    return batch


def dump(line, newest, keep, tally):
    """One attempt to fetch all records after the newest stamp, page by page."""
    listen(line, SETTLING_WAITS)
    if not wake(line) or ask(line, b"DMPAFT\n", 1) != bytes([ACK]):
        raise Failed
    pages, place = read_header(ask(line, sealed(stamp_bytes(newest)), HEADER_BYTES))
    for number in range(pages):
        page = ask_page(line, number)
        tally.pages += 1
        batch = batch_of(page, place if number == 0 else 0, newest, tally)
        if batch:
            keep(batch)
            newest = batch[-1][0]
    if pages > 0:
        line.send(bytes([ACK]))
