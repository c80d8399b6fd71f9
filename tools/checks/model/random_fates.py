"""Fates of deliveries, chosen at random while the model runs, so that they meet what is sent."""

from .console import ACK, BAD_CHECK, CANCEL, CR, LF, NAK, UNKNOWN
from .line import Line, delivered, passes_for_right

POLYNOMIAL = bytes([0x01, 0x10, 0x21])  # a change by it leaves a check as it was
BYTES_WITH_MEANING = (ACK, NAK, BAD_CHECK, CANCEL, UNKNOWN, LF, CR, 0)
MESSAGES = (b"DMPAFT\n", b"TEST\n", b"LOOP 9\n", b"\x15\n", b"\n\r", b"GETEE\n", b"\x15\x15\x15",
            b"\x06\x06\x06\x06", b"CLRLOG\n", b"\nTEST\n", b"\n\n", b"X\nY\n", b"dmpaft\n", b"\x1b\n")
TRIES, MOST_MASKS, MOST_WAITS = 4, 16, 2
QUIET_RATE = 0.1  # of the fates of an attacking line while the console is in no dump


def turned(message, place, wanted):
    """The fate that makes a message read `wanted` from a place on."""
    return "flip", place, bytes(old ^ new for old, new in zip(message[place:], wanted))


def fate_text(fate):
    """The words of a fate."""
    name, *numbers = fate
    return " ".join([name] + [part.hex().upper() if isinstance(part, bytes) else str(part) for part in numbers])


def fate_lines(chance, fates):
    """The lines of a round's fates, in any order."""
    lines = [f"host {number} {fate_text(fate)}" for number, fate in fates.host.items()]
    lines += [f"reply {number} {fate_text(fate)}" for number, fate in fates.reply.items()]
    lines += [f"reply {number} late {waits} {place}" for number, (waits, place) in fates.late.items()]
    chance.shuffle(lines)
    return lines


class ChoosingLine(Line):
    """A line that chooses the fate of each delivery of a round as it comes."""

    def __init__(self, console, chance, rate, unseen_rate):
        self.chance, self.rate, self.unseen_rate = chance, rate, unseen_rate
        super().__init__(console)
        self.choosing = False

    def start(self, fates):
        """Begins a round whose fates are chosen."""
        super().start(fates)
        self.choosing = True

    def finish(self):
        """Ends a round; nothing is harmed until the next one."""
        super().finish()
        self.choosing = False

    def choose(self, fates, number, kind, message):
        """Gives a delivery a fate, or none; harm that nobody can notice is rarer."""
        if number in fates or self.chance.random() >= self.rate:
            return
        for _ in range(TRIES):
            fate = self.fate(kind, message)
            if self.chance.random() < self.unseen_rate or not self.would_be_unseen(kind, message, fate):
                fates[number] = fate
                return

    @staticmethod
    def would_be_unseen(kind, sent, fate):
        """Whether a reply with this fate passes for a right one."""
        got = delivered(fate, sent)
        return kind != "host" and got != sent and passes_for_right(kind, sent, got)

    def fate(self, _, message):
        """Any fate of a message."""
        chance, size = self.chance, len(message)
        name = chance.choice(["lost", "cut", "drop", "flip", "flip"])
        if name == "lost":
            return ("lost",)
        if name == "cut":
            return "cut", chance.choice([0, 1, size - 1, size, chance.randrange(size + 3)])
        place = chance.choice([0, size - 1, chance.randrange(size + 2)])
        if name == "drop":
            return "drop", place, chance.choice([0, 1, 2, chance.randrange(size + 2)])
        return self.flip(message, place)

    def flip(self, message, place):
        """A fate that changes bytes: by chance, unseen by the check, to a byte with a meaning, or to a message."""
        chance, how = self.chance, self.chance.randrange(4)
        if how == 0:
            return "flip", place, chance.randbytes(chance.randint(1, MOST_MASKS))
        if how == 1 and len(message) > len(POLYNOMIAL):
            return "flip", chance.randrange(len(message) - 2), POLYNOMIAL
        if how == 2 or len(message) < 2:
            wanted = chance.choice([*BYTES_WITH_MEANING, chance.randrange(256)])
            return turned(message, min(place, len(message) - 1), bytes([wanted]))
        wanted = chance.choice(MESSAGES)
        return turned(message, chance.choice([0, max(0, len(message) - len(wanted))]), wanted)

    def send(self, message):
        """Chooses the fate of a message, and carries it."""
        if self.choosing:
            self.choose(self.fates.host, self.messages + 1, "host", message)
        super().send(message)

    def deliver(self, kind, sent):
        """Chooses the fate and the lateness of a reply, and carries it."""
        if self.choosing:
            number = self.replies + 1
            self.choose(self.fates.reply, number, kind, sent)
            if self.chance.random() < self.rate:
                size = len(delivered(self.fates.reply.get(number), sent))
                place = self.chance.choice([0, 1, max(0, size - 1), size, self.chance.randrange(size + 2)])
                self.fates.late.setdefault(number, (self.chance.randint(0, MOST_WAITS), place))
        super().deliver(kind, sent)


class AttackingLine(ChoosingLine):
    """A line whose fates keep the console in a dump that the host knows nothing of."""

    last = b""

    def choose(self, fates, number, kind, message):
        """Gives a delivery a fate; most come during a dump."""
        rate = self.rate
        self.rate = rate if self.console.state == "dump" else QUIET_RATE * rate
        super().choose(fates, number, kind, message)
        self.rate = rate

    def send(self, message):
        """Carries a message, and keeps it in mind."""
        self.last = message
        super().send(message)

    def fate(self, kind, message):
        """A fate that turns a message or a page into another that has a meaning."""
        if self.chance.random() < 0.3:
            return super().fate(kind, message)
        if kind == "host" and len(message) == 1:
            return self.fate_of_byte(message)
        if kind == "host" and message == b"DMPAFT\n":
            return self.fate_of_command(message)
        if kind == "page":
            return self.fate_of_page(message)
        return super().fate(kind, message)

    def fate_of_byte(self, message):
        """A fate of a message of one byte."""
        chance = self.chance
        asking = turned(message, 0, bytes([chance.choice([ACK, NAK, NAK, UNKNOWN])]))
        if message == bytes([CANCEL]):
            return chance.choice([("lost",), asking])
        return asking if self.console.state == "dump" else turned(message, 0, bytes([chance.randrange(256)]))

    def fate_of_command(self, message):
        """A fate of the command that asks for a dump."""
        chance = self.chance
        asking = turned(message, 0, bytes([chance.choice([ACK, NAK, NAK, UNKNOWN])]))
        return chance.choice([("lost",), ("cut", 1), ("drop", 0, 6), asking, turned(message, 6, b"X"),
                              turned(message, 0, b"\n"), turned(message, 2, b"\n"), turned(message, 0, b"\x1b"),
                              turned(message, 0, b"\x1b\n")])

    def fate_of_page(self, message):
        """A fate of a page; it may end like the answer to a waking line."""
        chance = self.chance
        awake = turned(message, len(message) - 2, bytes([LF, CR]))
        if self.last == b"\n" and chance.random() < 0.8:
            return awake
        return chance.choice([("lost",), ("cut", 7), ("cut", 266), awake, turned(message, 0, b"\x06"),
                              turned(message, 0, bytes([message[0] ^ 1])), ("drop", 0, 1), ("drop", 1, 52)])
