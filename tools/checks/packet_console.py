"""A console that a run of packets.py calls, and what the file of that run has to hold, for the trials of packets.py."""
import os
import random
import re
import signal
import struct
import time
from contextlib import contextmanager
from datetime import datetime, timezone
from pathlib import Path
from typing import NamedTuple

from model.pages import sealed
from try_line import ACK, AWAKE, HERE, LF, hear, listener, word_for
from trying import LONGEST, SLEEPER, Differs, Ended, Run, await_that, hold, hold_seconds, need

TOOL = Path(__file__).resolve().parent.parent / "product/packets.py"
FILE, ERRORS = "packets", "errors"
LONG = 100  # seconds of a run that is ended before
FEW = 4     # seconds of a run that ends by itself
TO_WRITE = 5  # seconds within which a packet is in the file
TO_STOP = 0.25  # seconds, which may be longer by as many
BETWEEN_LOOKS = 0.01
BETWEEN_PIECES = 0.1
HOUR = 3600

MOMENT = struct.Struct("<HHB")
ENTRY_BYTES = 104
VALUE_BYTES = 90  # of a packet, from its place 5 on
ASKING = re.compile(rb"LOOP ([1-9][0-9]{0,3})\n")

USAGE, SILENT, LINK_FAULT, FILE_FAULT = 1, 4, 6, 9
NONE_PASSED = "passed over 0"
NOBODY = f"{HERE}:1"  # nobody listens at port 1


class Sent(NamedTuple):
    """A packet that was sent whole, and between which times it was heard."""
    packet: bytes
    earliest: float
    latest: float


def packet_of(number, kind=0, end=b"\n\r", values=b""):
    """A packet like no other, whose check is good."""
    others = random.Random(number).randbytes(VALUE_BYTES - len(values))
    return sealed(b"LOO" + bytes([number % 256, kind]) + values + others + end)


def changed(packet, place):
    """A packet with another byte at a place."""
    return packet[:place] + bytes([packet[place] ^ 1]) + packet[place + 1:]


def entry_of(packet, seconds):
    """The entry of a packet that was heard at a time, by a clock of UTC."""
    at = datetime.fromtimestamp(seconds, timezone.utc)
    date = at.day + 32 * at.month + 512 * (at.year - 2000)
    return MOMENT.pack(date, 100 * at.hour + at.minute, at.second) + packet


def second_of(entry):
    """At which second the packet of an entry was heard, by a clock of UTC."""
    date, clock, second = MOMENT.unpack_from(entry)
    day = datetime(2000 + date // 512, date // 32 % 16, date % 32, tzinfo=timezone.utc)
    return int(day.timestamp()) + HOUR * (clock // 100) + 60 * (clock % 100) + second


def some_entries(count):
    """Entries of the last minutes, the last of them ten seconds old."""
    now = time.time()
    return b"".join(entry_of(packet_of(number), now - 10 * (count - number)) for number in range(count))


def rest_of(line):
    """What comes over a line until it ends."""
    rest = b""
    while piece := line.recv(ENTRY_BYTES):
        rest += piece
    return rest


def start(program, words, under=(), errors=ERRORS, zone="UTC0", **options):
    """Begins a run of the tool with these words. What it prints on standard error goes to a file."""
    with (program.folder / errors).open("wb") as to:
        return Run([*under, TOOL, *words], program.folder, stderr=to, env={**os.environ, "TZ": zone}, **options)


def tracing(program, *options):
    """The command under which the calls of a run on its file are traced, with these options."""
    need("strace", "-o", "/dev/null", "true")
    path = str(program.folder.resolve() / FILE)
    return ["strace", "-f", "-o", "trace", "-P", path, *[word for option in options for word in ("-e", option)]]


class Console:
    """The console that a run has called, and what the file of that run has to hold."""

    def __init__(self, program, run, line, before):
        self.program, self.run, self.line = program, run, line
        self.before, self.sent = before, []
        self.began = SLEEPER.now()
        self.ahead = 0  # seconds by which the clock of the run is ahead of UTC

    def errors(self):
        """What the run has printed on standard error."""
        return self.program.read(ERRORS).decode()

    def say(self, *pieces):
        """Says pieces, one after another."""
        for piece in pieces:
            self.line.sendall(piece)
            time.sleep(BETWEEN_PIECES)

    def hear_asking(self):
        """Hears an asking for packets; gives how many it asks for."""
        asked = b""
        while not asked.endswith(LF):
            asked += hear(self.line, 1)
        found = ASKING.fullmatch(asked)
        if not found:
            raise Differs(f"it asked {asked!r}")
        return int(found[1])

    def wake(self):
        """Hears a call to wake, and wakes."""
        hold("it said", hear(self.line, len(LF)), LF)
        self.line.sendall(AWAKE)

    def agree(self):
        """Wakes, hears an asking and agrees; gives how many packets it asks for."""
        self.wake()
        count = self.hear_asking()
        self.line.sendall(ACK)
        return count

    @staticmethod
    def await_second():
        """Waits until the clock's next second has begun."""
        time.sleep(1 - time.time() % 1 + BETWEEN_LOOKS)

    def give(self, packet, *pieces):
        """Sends a packet, or pieces that end with it, in a second of its own. Waits until the file has it."""
        self.await_second()
        if pieces:
            self.say(*pieces[:-1])
        earliest = time.time()
        self.line.sendall(pieces[-1] if pieces else packet)
        size = len(self.before) + ENTRY_BYTES * (len(self.sent) + 1)
        await_that(f"packet {packet[3]} is not taken", lambda: len(self.program.read(FILE)) >= size, TO_WRITE)
        self.sent.append(Sent(packet, earliest, time.time()))

    def hold_file(self):
        """Holds the file against what stood there before and the packets that were sent whole."""
        data = self.program.read(FILE)
        hold("the entries before", data[:len(self.before)], self.before)
        entries = [data[at:at + ENTRY_BYTES] for at in range(0, len(data), ENTRY_BYTES)]
        added = entries[len(self.before) // ENTRY_BYTES:]
        hold("the packets", [entry[MOMENT.size:] for entry in added], [sent.packet for sent in self.sent])
        for entry, sent in zip(added, self.sent):
            heard = second_of(entry) - self.ahead
            if not int(sent.earliest) <= heard <= sent.latest:
                raise Differs(f"packet {sent.packet[3]} of {heard}, in place of {sent.earliest} to {sent.latest}")
        seconds = [second_of(entry) for entry in entries]
        hold("the moments rise", seconds, sorted(set(seconds)))

    def hold_end(self, status, passed, errors):
        """Holds how the run ends, what it has printed, and the file."""
        ended = self.run.end()
        self.hold_file()
        hold("the run", ended, Ended(status, f"packets taken {len(self.sent)}, {passed}\n"))
        hold("its errors", self.errors(), errors)

    def stop(self, passed=NONE_PASSED, errors="", number=signal.SIGINT):
        """Ends the run by a signal, in good time. It has to end the packets too."""
        began = SLEEPER.now()
        self.run.process.send_signal(number)
        hold("it said at its end", rest_of(self.line), LF)
        hold_seconds("its end", began, TO_STOP)
        self.hold_end(0, passed, errors)


@contextmanager
def taking(program, before=b"", behind=b"", seconds=LONG, **options):
    """A run with a file of some entries, and of some bytes behind them, and the console that it calls."""
    program.write(FILE, before + behind)
    with listener() as peer, start(program, [word_for(peer), str(seconds), FILE], **options) as run:
        line, _ = peer.accept()
        with line:
            line.settimeout(LONGEST)
            yield Console(program, run, line, before)


def hold_refused(program, words, status, errors, **options):
    """Holds how a run ends that takes nothing, and what it prints on standard error, by a pattern."""
    with start(program, words, errors="refusal", **options) as run:
        hold(f"a run of {words}", run.end(), Ended(status, ""))
    printed = program.read("refusal").decode()
    if not re.fullmatch(errors, printed, re.DOTALL):
        raise Differs(f"a run of {words} printed {printed!r}, in place of {errors}")
