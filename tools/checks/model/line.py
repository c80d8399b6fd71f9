"""The line between host and console: it carries messages and replies, each by its fate."""

from collections import deque

from .console import ACK
from .pages import check
from .schedule import Fates

WAIT = None  # a wait in the flight


class Unseen(Exception):
    """A delivery was changed in a way that nobody could notice."""


def delivered(fate, message):
    """What comes of a message by its fate."""
    if fate is None:
        return message
    name, *numbers = fate
    if name == "lost":
        return b""
    if name == "cut":
        return message[:numbers[0]]
    place = numbers[0]
    if name == "drop":
        return message[:place] + message[place + numbers[1]:]
    changed = bytearray(message)
    for at, mask in enumerate(numbers[1], place):
        if at < len(changed):
            changed[at] ^= mask
    return bytes(changed)


def passes_for_right(kind, sent, got):
    """Whether a changed reply can not be told from a right one."""
    if kind in ("code", "wake"):
        return got[:1] == bytes([ACK])
    if kind == "ackframe":
        return len(got) == len(sent) and got[0] == ACK and check(got[1:]) == 0
    return kind == "page" and len(got) == len(sent) and check(got) == 0


class Line:
    """Carries messages to the console and replies to the host, each by its fate."""

    def __init__(self, console):
        self.console = console
        self.flight = deque()
        self.start(Fates())

    def start(self, fates):
        """Begins a round with these fates."""
        self.fates = fates
        self.mids = deque(fates.mids)
        self.messages = self.replies = self.harmed = 0
        self.calls = 0  # messages and receives

    def finish(self):
        """Ends a round: what did not fall due yet does now, and fates are over."""
        self.fall_due(None)
        self.start(Fates())

    def fall_due(self, message):
        """The records that fall due by the message of this number; None stands for the last."""
        while self.mids and (message is None or self.mids[0][0] <= message):
            _, stamp, record = self.mids.popleft()
            self.console.due(stamp, record)

    def send(self, message):
        """Carries a message to the console, and its replies back."""
        self.calls += 1
        self.messages += 1
        got = delivered(self.fates.host.get(self.messages), message)
        self.console.completed = False
        replies = [reply for reply in map(self.console.hear, got) if reply]
        if got != message:
            self.harmed += 1
            paged = any(kind == "page" for kind, _ in replies)
            if self.console.completed or (len(message) > 1 and paged):
                raise Unseen(f"host {self.messages}")
        for reply in replies:
            self.deliver(*reply)
        self.fall_due(self.messages)

    def deliver(self, kind, sent):
        """Puts a reply on its way to the host."""
        self.replies += 1
        got = delivered(self.fates.reply.get(self.replies), sent)
        if got != sent:
            self.harmed += 1
            if passes_for_right(kind, sent, got):
                raise Unseen(f"reply {self.replies}")
        waits, place = self.fates.late.get(self.replies, (0, 0))
        for at, byte in enumerate(got):
            if at == place:
                self.flight.extend([WAIT] * waits)
            self.flight.append(byte)

    def receive(self, most):
        """The bytes that come next, so many at most, or WAIT for a quiet wait."""
        self.calls += 1
        piece = bytearray()
        while self.flight and self.flight[0] is not WAIT and len(piece) < most:
            piece.append(self.flight.popleft())
        if piece:
            return bytes(piece)
        if self.flight:
            self.flight.popleft()
        self.tick()
        return WAIT

    def tick(self):
        """One quiet wait passes."""
        reply = self.console.tick()
        if reply:
            self.deliver(*reply)
