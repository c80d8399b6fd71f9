"""The language of schedules: what falls due, what each round meets, and the faults of a line."""

import re
from dataclasses import dataclass, field

from .outcomes import BAD_SCHEDULE, Refusal
from .records import NAMES, STAMP_BYTES, record_of, stamp_bytes
from .stamps import LAST_STAMP, has_form, stamp_of_texts

MOST_LINES, MOST_RECORDS, MOST_ROUNDS, MOST_MIDS = 10_000, 20_000, 200, 64
MOST_WAITS = 2
MOST_TICKS = 100
FIRST_PRINTED, LAST_PRINTED = 0x20, 0x7E  # the bytes that a line may have
FIRST_WORDS = ("due", "run", "idle", "open", "round", "host", "reply", "mid", "stop")

(TOO_MANY_LINES, BAD_BYTE, BAD_WORD, BAD_FORM, BAD_STAMP, NOT_RISING, BAD_VALUES,
 OUT_OF_PLACE, SECOND, TOO_MANY_RECORDS, TOO_MANY_ROUNDS, TOO_LATE, MID_ORDER,
 TOO_MANY_MIDS) = range(1, 15)


class LineFault(Exception):
    """A line of the schedule is refused for a cause of this kind."""


class ScheduleFault(Refusal):
    """The schedule is refused; the text is the line that says why."""

    def __init__(self, line):
        super().__init__(BAD_SCHEDULE, line)


@dataclass
class Fates:
    """What happens to the deliveries of one round, by their numbers."""
    host: dict = field(default_factory=dict)
    reply: dict = field(default_factory=dict)
    late: dict = field(default_factory=dict)
    mids: list = field(default_factory=list)


@dataclass
class Step:
    """One line of a schedule that does something, with the details that follow it."""
    word: str
    records: list = field(default_factory=list)  # stamps and bytes, of due and run
    ticks: int = 0                               # of idle
    fates: Fates = field(default_factory=Fates)  # of round
    stop: tuple | None = None                    # change and pick, of open and round


def demand(holds, kind):
    """Refuses the line for a cause of this kind unless the condition holds."""
    if not holds:
        raise LineFault(kind)


def number(text, least=0):
    """A number of up to seven digits."""
    demand(re.fullmatch("[0-9]{1,7}", text), BAD_FORM)
    demand(int(text) >= least, BAD_FORM)
    return int(text)


def signed_number(text):
    """A number that may have a minus; -0 is none."""
    if not text.startswith("-"):
        return number(text)
    return -number(text[1:], least=1)


def masks_of(text):
    """One to sixteen bytes in hexadecimal digits."""
    demand(re.fullmatch("([0-9A-Fa-f]{2}){1,16}", text), BAD_FORM)
    return bytes.fromhex(text)


def fate_of(words):
    """A fate as its name and numbers."""
    name, rest = words[0], words[1:]
    lengths = {"lost": 0, "cut": 1, "drop": 2, "flip": 2}
    demand(name in lengths and len(rest) == lengths[name], BAD_FORM)
    if name == "flip":
        return name, number(rest[0]), masks_of(rest[1])
    return name, *map(number, rest)


def named_values(words):
    """Names and values in the order given."""
    pairs = []
    for word in words:
        name, equals, value = word.partition("=")
        demand(equals, BAD_FORM)
        pairs.append((name, signed_number(value)))
    return pairs


def date_and_time(words):
    """The two words, which must have the form of a date and a time."""
    demand(len(words) == 2, BAD_FORM)
    demand(has_form(*words), BAD_FORM)
    return words


class ScheduleReader:
    """Takes a schedule line by line; the first faulty line is refused."""

    def __init__(self, period):
        self.period = period
        self.steps = []
        self.newest = -1        # stamp of the last record
        self.records = 0
        self.rounds = 0         # lines open and round
        self.owner = None       # the last open or round
        self.mids_allowed = False

    def take(self, line):
        """Takes one line, without its end."""
        demand(all(FIRST_PRINTED <= byte <= LAST_PRINTED for byte in line), BAD_BYTE)
        word, *rest = line.decode().split(" ")
        demand(word in FIRST_WORDS, BAD_WORD)
        getattr(self, "take_" + word)(rest)

    def first_of(self, when, count, pairs):
        """The first record that a line lets fall due, once its stamps and values are judged: stamp and bytes."""
        first = stamp_of_texts(*when)
        demand(first is not None, BAD_STAMP)
        demand(first + (count - 1) * self.period <= LAST_STAMP, BAD_STAMP)
        demand(first > self.newest, NOT_RISING)
        named = dict(pairs)
        demand(len(named) == len(pairs) and all(name in NAMES for name in named), BAD_VALUES)
        record = record_of(first, named)
        demand(record, BAD_VALUES)
        return first, record

    def add_records(self, first, count, record):
        """Stamps and bytes of the records that a line lets fall due, which differ from the first in the stamp alone."""
        demand(self.records + count <= MOST_RECORDS, TOO_MANY_RECORDS)
        stamps = [first + number * self.period for number in range(count)]
        self.records += count
        self.newest = stamps[-1]
        return [(stamp, stamp_bytes(stamp) + record[STAMP_BYTES:]) for stamp in stamps]

    def take_due(self, words):
        """due DATE TIME [NAME=VALUE ..]"""
        self.take_record_line("due", words[:2], 1, words[2:])

    def take_run(self, words):
        """run DATE TIME COUNT [NAME=VALUE ..]"""
        demand(len(words) >= 3, BAD_FORM)
        self.take_record_line("run", words[:2], number(words[2], 1), words[3:])

    def take_record_line(self, word, when, count, named_words):
        """A line of records: due or run."""
        when, pairs = date_and_time(when), named_values(named_words)
        first, record = self.first_of(when, count, pairs)
        self.steps.append(Step(word, records=self.add_records(first, count, record)))
        self.mids_allowed = False

    def take_idle(self, words):
        """idle TICKS"""
        demand(len(words) == 1, BAD_FORM)
        ticks = number(words[0], 1)
        demand(ticks <= MOST_TICKS, BAD_FORM)
        self.steps.append(Step("idle", ticks=ticks))

    def take_open(self, words):
        """open"""
        self.take_owner("open", words)

    def take_round(self, words):
        """round"""
        self.take_owner("round", words)

    def take_owner(self, word, words):
        """A line that details may follow: open or round."""
        demand(not words, BAD_FORM)
        self.rounds += 1
        demand(self.rounds <= MOST_ROUNDS, TOO_MANY_ROUNDS)
        self.owner = Step(word)
        self.mids_allowed = True
        self.steps.append(self.owner)

    def fates(self):
        """The fates of the round that a detail belongs to."""
        demand(self.owner and self.owner.word == "round", OUT_OF_PLACE)
        return self.owner.fates

    def take_host(self, words):
        """host NUMBER FATE"""
        demand(len(words) >= 2, BAD_FORM)
        self.add_fate("host", number(words[0], 1), fate_of(words[1:]))

    def take_reply(self, words):
        """reply NUMBER FATE, or reply NUMBER late WAITS PLACE"""
        demand(len(words) >= 2, BAD_FORM)
        delivery = number(words[0], 1)
        if words[1] == "late":
            self.add_lateness(delivery, words[2:])
        else:
            self.add_fate("reply", delivery, fate_of(words[1:]))

    def add_fate(self, side, delivery, fate):
        """Gives a delivery its fate; a second one is refused."""
        fates = getattr(self.fates(), side)
        demand(delivery not in fates, SECOND)
        fates[delivery] = fate

    def add_lateness(self, delivery, words):
        """Gives a reply its lateness; a second one is refused."""
        demand(len(words) == 2, BAD_FORM)
        waits, place = map(number, words)
        late = self.fates().late
        demand(delivery not in late, SECOND)
        demand(waits <= MOST_WAITS, TOO_LATE)
        late[delivery] = waits, place

    def take_mid(self, words):
        """mid NUMBER DATE TIME [NAME=VALUE ..]"""
        demand(len(words) >= 3, BAD_FORM)
        delivery = number(words[0], 1)
        when, pairs = date_and_time(words[1:3]), named_values(words[3:])
        first, record = self.first_of(when, 1, pairs)
        mids = self.fates().mids
        demand(self.mids_allowed, OUT_OF_PLACE)
        records = self.add_records(first, 1, record)
        demand(not mids or mids[-1][0] <= delivery, MID_ORDER)
        demand(len(mids) < MOST_MIDS, TOO_MANY_MIDS)
        mids.append((delivery, *records[0]))

    def take_stop(self, words):
        """stop CHANGE PICK"""
        demand(len(words) == 2, BAD_FORM)
        stop = number(words[0], 1), number(words[1])
        demand(self.owner, OUT_OF_PLACE)
        demand(self.owner.stop is None, SECOND)
        self.owner.stop = stop


def read_schedule(text, period):
    """The steps of a schedule, or its first fault."""
    reader = ScheduleReader(period)
    lines = text.split(b"\n")
    if lines[-1] == b"":
        lines.pop()
    for count, line in enumerate(lines, 1):
        try:
            demand(count <= MOST_LINES, TOO_MANY_LINES)
            if line and not line.startswith(b"#"):
                reader.take(line)
        except LineFault as fault:
            raise ScheduleFault(f"schedule line {count} fault {fault.args[0]}") from None
    return reader.steps
