"""The console: its ring of records, its commands, and how it answers a dump byte by byte."""

import re
from dataclasses import dataclass

from .pages import SLOTS_OF_PAGE, check, page_of, sealed
from .records import EMPTY_SLOT
from .stamps import PERIODS, words_of

ACK, NAK, CANCEL, BAD_CHECK, UNKNOWN = 0x06, 0x15, 0x1B, 0x18, 0x21
LF, CR = 0x0A, 0x0D

RING_SLOTS, PAGES_OF_RING = 2560, 512
FRAME_BYTES = 6  # a stamp and a check
MOST_HELD, LONGEST_LINE = 64, 32
IDLE_DROPS_INPUT, IDLE_SLEEPS = 3, 32
HEX, PLACE_COUNT = "0123456789ABCDEFabcdef", 4096


@dataclass(frozen=True)
class Plan:
    """The pages of a dump: how many, the first record's place, and where they begin in the ring."""
    pages: int
    place: int
    first_page: int


class Ring:
    """All records put so far, of which the last 2,560 can be read."""

    def __init__(self):
        self.history = []

    def put(self, stamp, record):
        """Takes one more record."""
        self.history.append((stamp, record))

    def plan_after(self, date_word, time_word):
        """The pages with all records from the first one later than the two words on."""
        count = len(self.history)
        for first in range(max(0, count - RING_SLOTS), count):
            if words_of(self.history[first][0]) > (date_word, time_word):
                slot = first % RING_SLOTS
                place = slot % SLOTS_OF_PAGE
                pages = (count - 1 - first + place) // SLOTS_OF_PAGE + 1
                return Plan(pages, place, slot // SLOTS_OF_PAGE)
        return Plan(0, 0, 0)

    def slot(self, number):
        """What stands in a slot: the last record put there, if any."""
        count = len(self.history)
        rounds = (count - 1 - number) // RING_SLOTS
        return self.history[rounds * RING_SLOTS + number][1] if number < count else EMPTY_SLOT

    def page(self, plan, number):
        """The page of this number of a dump."""
        first = (plan.first_page + number) % PAGES_OF_RING * SLOTS_OF_PAGE
        slots = [self.slot(first + place) for place in range(SLOTS_OF_PAGE)]
        return page_of(number, slots)


def is_eeprom_range(words):
    """Whether two words are a place and a count of settings bytes that there are."""
    place, count = words
    if not (1 <= len(place) <= 3 and 1 <= len(count) <= 2 and set(place + count) <= set(HEX)):
        return False
    return int(count, 16) >= 1 and int(place, 16) + int(count, 16) <= PLACE_COUNT


def is_command(line):
    """Whether a line, without its end, is one of the console's commands."""
    if line == b"WRD\x12\x4d":
        return True
    word, *rest = line.decode("latin-1").split(" ")
    if word in ("TEST", "DMPAFT", "GETEE", "GETTIME", "SETTIME", "CLRLOG"):
        return not rest
    if word == "LOOP" and len(rest) == 1:
        return bool(re.fullmatch("[0-9]{1,4}", rest[0])) and int(rest[0]) >= 1
    if word in ("EEBRD", "EEBWR") and len(rest) == 2:
        return is_eeprom_range(rest)
    return word == "SETPER" and rest in [[str(period)] for period in PERIODS]


class Console:
    """The console as far as a host can bring it by a dump.

    Another command than that can only be heard in a harmed message. The run ends with that
    message, so what such a command does never shows and is left out.
    """

    def __init__(self):
        self.ring = Ring()
        self.state = "command"
        self.idle = 0
        self.input = bytearray()  # the unfinished line or frame
        self.held = []            # records that fell due during a dump
        self.plan = None
        self.present = -1         # the page sent last, -1 for none
        self.completed = False    # a command or a good frame was heard since this was cleared

    def hear(self, byte):
        """Takes one byte; gives the kind and the bytes of a reply, or None."""
        self.idle = 0
        return getattr(self, "hear_" + self.state)(byte)

    def hear_asleep(self, _):
        """Any byte wakes the console."""
        self.enter_command()

    def hear_command(self, byte):
        """A byte of a command line."""
        if byte != LF:
            self.input.append(byte)
            return None
        line = bytes(self.input)
        self.input.clear()
        if not line:
            return "wake", bytes([LF, CR])
        if len(line) > LONGEST_LINE or not is_command(line):
            return "code", bytes([UNKNOWN])
        self.completed = True
        if line != b"DMPAFT":
            return None
        self.state = "frame"
        return "ack", bytes([ACK])

    def hear_frame(self, byte):
        """A byte of the stamp after which records are wanted."""
        self.input.append(byte)
        if len(self.input) < FRAME_BYTES:
            return None
        frame = bytes(self.input)
        self.enter_command()
        if check(frame) != 0:
            return "code", bytes([BAD_CHECK])
        self.completed = True
        plan = self.ring.plan_after(int.from_bytes(frame[0:2], "little"),
                                    int.from_bytes(frame[2:4], "little"))
        if plan.pages > 0:
            self.state, self.plan, self.present = "dump", plan, -1
        header = plan.pages.to_bytes(2, "little") + plan.place.to_bytes(2, "little")
        return "ackframe", bytes([ACK]) + sealed(header)

    def hear_dump(self, byte):
        """A byte of a host that takes pages."""
        if byte == ACK:
            return self.next_page()
        if byte in (NAK, UNKNOWN):
            self.present = max(self.present, 0)
            return self.present_page()
        self.end_dump()
        return None if byte == CANCEL else self.hear_command(byte)

    def next_page(self):
        """The page after the one sent last, or the dump's end."""
        if self.present + 1 == self.plan.pages:
            self.end_dump()
            return None
        self.present += 1
        return self.present_page()

    def present_page(self):
        """The page sent last, once more."""
        return "page", self.ring.page(self.plan, self.present)

    def end_dump(self):
        """Ends the dump; the records held meanwhile come into the ring."""
        for stamp, record in self.held:
            self.ring.put(stamp, record)
        self.held.clear()
        self.enter_command()

    def enter_command(self):
        """Waits for a command, with nothing heard of it."""
        self.state = "command"
        self.input.clear()

    def tick(self):
        """One quiet wait passes; gives a reply or None."""
        if self.state == "asleep":
            return None
        self.idle += 1
        if self.idle == IDLE_DROPS_INPUT and self.state == "frame":
            self.enter_command()
            return "code", bytes([UNKNOWN])
        if self.idle == IDLE_DROPS_INPUT and self.state == "command":
            self.input.clear()
        if self.idle == IDLE_SLEEPS:
            if self.state == "dump":
                self.end_dump()
            self.state = "asleep"
        return None

    def due(self, stamp, record):
        """A record falls due; it is held during a dump, and ends one that holds too many."""
        if self.state == "dump" and len(self.held) < MOST_HELD:
            self.held.append((stamp, record))
            return
        if self.state == "dump":
            self.end_dump()
        self.ring.put(stamp, record)
