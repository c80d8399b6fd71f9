"""A console for stays, over a line that loses, cuts, changes and delays what it says, and that may end."""
import socket
import struct
import time
from contextlib import suppress
from datetime import datetime, timedelta
from enum import Enum
from threading import Event, Thread
from typing import NamedTuple

from fake_console import ACK, CANCEL, NO, RECORDS_OF_PAGE, WAKE_ANSWER, pages_of, record, sealed, words_of

HERE = '127.0.0.1'
FIRST = datetime(2024, 7, 1, 0, 5)
PERIOD = timedelta(minutes=5)
FRAME_BYTES = 6
LONGEST = 3600  # seconds without a caller
LINE_FEED, NAK = b'\n', b'\x15'
REFUSALS = NAK, NO


class Gone(Exception):
    """The line is no more."""


class Kind(Enum):
    """What a line does to what is said."""
    LOST = 'lost'
    CUT = 'cut'
    CHANGED = 'changed'
    LATE = 'late'


class Fault(NamedTuple):
    """What the line does to an answer: it keeps so many bytes, changes a bit of the one at that place, or waits so many seconds."""
    kind: Kind
    amount: float = 0

    def applied(self, data):
        """What comes of these bytes."""
        if self.kind is Kind.LOST:
            return b''
        if self.kind is Kind.CUT:
            return data[:self.amount % len(data)]
        if self.kind is Kind.CHANGED:
            place = self.amount % len(data)
            return data[:place] + bytes([data[place] ^ 1 << self.amount % 8]) + data[place + 1:]
        time.sleep(self.amount)
        return data


class Console(Thread):
    """A console at a port of this machine, for one caller after another. It has some records, and some more behind each dump.

    It ends the line once it has said `cut` bytes, or has been silent for `pause` seconds behind `rounds` dumps. It hears nothing of
    the line feeds whose numbers are in `deaf`. Behind each dump it says `talk`. The line has a fault at each answer whose number is
    in `faults`. All numbers go on from one caller to the next.
    """

    def __init__(self, records=12, more=1, cut=None, deaf=(), talk=b'', first=FIRST, faults=None, rounds=None, pause=0.0):
        super().__init__(daemon=True)
        self.stamps = [first + number * PERIOD for number in range(records)]
        self.more, self.left, self.deaf, self.talk, self.faults = more, cut, deaf, talk, faults or {}
        self.rounds, self.pause = rounds, pause
        self.fed = self.dumps = self.answers = self.pages = 0
        self.acknowledged = 0  # records of pages that were acknowledged
        self.said = None  # how many these are once the page that was said last is acknowledged
        self.is_repeated = False  # something of this dump was said twice, so a caller may acknowledge one page twice
        self.ahead = b''  # what was heard and belongs to the next line
        self.awaited, self.came = None, Event()  # the number of a page, and that it was said
        self.idle = Event()
        self.idle.set()
        self.door = socket.create_server((HERE, 0))
        self.door.settimeout(LONGEST)
        self.address = f'{HERE}:{self.door.getsockname()[1]}'
        self.start()

    def __enter__(self):
        return self

    def __exit__(self, *_):
        with suppress(OSError):
            self.door.shutdown(socket.SHUT_RDWR)

    def run(self):
        with suppress(OSError), self.door:
            while True:
                with self.door.accept()[0] as self.line, suppress(OSError, Gone):
                    self.idle.clear()
                    self.ahead, self.said = b'', None
                    self.line.setsockopt(socket.IPPROTO_TCP, socket.TCP_NODELAY, 1)
                    while True:
                        self.answer(self.hear_line())
                self.idle.set()

    def hear(self, count):
        """So many bytes."""
        heard, self.ahead = self.ahead[:count], self.ahead[count:]
        if len(heard) < count:
            heard += self.line.recv(count - len(heard), socket.MSG_WAITALL)
        if len(heard) < count:
            raise Gone
        return heard

    def hear_line(self):
        """The bytes up to a line feed, but for the bytes that end a dump."""
        line = b''
        while not line.endswith(LINE_FEED):
            line = (line + self.hear(1)).lstrip(ACK + CANCEL + NAK)
        return line

    def say(self, data):
        """Says these bytes, or what the line leaves of them up to the cut."""
        fault = self.faults.get(self.answers)
        self.answers += 1
        if fault and data:
            data = fault.applied(data)
        self.line.sendall(data[:self.left])
        if self.left is not None:
            self.left -= len(data)
            if self.left <= 0:
                raise Gone

    def answer(self, line):
        """Answers a line."""
        if line == LINE_FEED:
            self.fed += 1
            if self.fed - 1 not in self.deaf:
                self.say(WAKE_ANSWER)
        elif line == b'DMPAFT\n':
            try:
                self.dump()
            finally:
                self.dumps += 1
                self.grow()
            if self.dumps == self.rounds:
                time.sleep(self.pause)
                raise Gone
            self.line.sendall(self.talk)

    def grow(self):
        """Records fall due."""
        for _ in range(self.more):
            self.stamps.append(self.stamps[-1] + PERIOD)

    def behind(self, after):
        """The number of the first record behind the last one of this stamp; of the first one of all, where none has it."""
        return max((place + 1 for place, stamp in enumerate(self.stamps) if words_of(stamp) == after), default=0)

    def is_acknowledged(self, data):
        """Whether what was said is acknowledged. It is said again as often as it is refused."""
        while True:
            heard = self.hear(1)
            if heard == ACK:
                if not self.is_repeated:
                    self.acknowledged = max(self.acknowledged, self.said or 0)
                self.said = None
                return True
            if heard not in REFUSALS:
                self.ahead = b'' if heard == CANCEL else heard
                return False
            self.is_repeated = True
            self.say(data)

    def dump(self):
        """Sends the pages of the records that are later than the one that is named."""
        self.say(ACK)
        first = self.hear(1)
        if first in (CANCEL, LINE_FEED):  # of a caller that heard nothing good: no stamp of these trials begins so
            self.ahead = first
            return
        frame = first + self.hear(FRAME_BYTES - 1)
        place = self.behind(struct.unpack('<HH', frame[:4]))
        stamps = self.stamps[place:]
        pages = pages_of([record(stamp) for stamp in stamps])
        data = ACK + sealed(struct.pack('<HH', len(pages), 0))
        self.said, self.is_repeated = None, False
        self.say(data)
        for number, page in enumerate(pages):
            if not self.is_acknowledged(data):
                return
            data = page
            self.said = place + min(len(stamps), (number + 1) * RECORDS_OF_PAGE)
            self.say(data)
            self.pages += 1
            if self.pages == self.awaited:
                self.came.set()
        if pages:
            self.is_acknowledged(data)
