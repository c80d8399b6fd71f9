"""Entries of LOOP packets, 104 bytes each, and the rows that they make."""

from dataclasses import dataclass
from itertools import groupby

from .outcomes import BAD_ENTRY, DONE, outcome
from .pages import CHECK_BYTES, check, sealed
from .records import NAMES, STAMP_BYTES, stamp_bytes, stamp_of_record
from .rows import corrected, row_line
from .stamps import LAST_STAMP

SECOND_PLACE = STAMP_BYTES
PACKET_PLACE = SECOND_PLACE + 1
PACKET_BYTES = 99
ENTRY_BYTES = PACKET_PLACE + PACKET_BYTES
MARK, TYPE_PLACE, LOOP_TYPE, END = b"LOO", 4, 0, b"\n\r"
END_PLACE = PACKET_BYTES - CHECK_BYTES - len(END)
SECONDS_OF_MINUTE = 60
MOST_SUM = 65_535


@dataclass(frozen=True)
class Member:
    """A number of a packet."""
    offset: int
    size: int = 1
    signed: bool = False
    missing: int | None = None  # the number that stands for no value


MEMBERS = {
    "barometer": Member(7, 2, missing=0),
    "in_temp": Member(9, 2, signed=True, missing=32767),
    "in_humidity": Member(11, missing=255),
    "out_temp": Member(12, 2, signed=True, missing=32767),
    "wind": Member(14, missing=255),
    "out_humidity": Member(33, missing=255),
    "rain_rate": Member(41, 2),
    "uv": Member(43, missing=255),
    "radiation": Member(44, 2, missing=32767),
    "day_rain": Member(50, 2),
    "day_et": Member(56, 2),
}


@dataclass(frozen=True)
class Entry:
    """A packet with the moment at which it was heard."""
    moment: int  # seconds since 2000-01-01 00:00:00
    packet: bytes
    rain: int = 0  # the rises since the entry before
    et: int = 0


def number_of(packet, name):
    """A number of a packet."""
    member = MEMBERS[name]
    return int.from_bytes(packet[member.offset:member.offset + member.size], "little", signed=member.signed)


def is_packet(data):
    """Whether 99 bytes are a LOOP packet."""
    return (data.startswith(MARK) and data[TYPE_PLACE] == LOOP_TYPE
            and data[END_PLACE:].startswith(END) and check(data) == 0)


def packet_of(data):
    """The packet with these bytes before its end."""
    return sealed(data[:END_PLACE] + END)


def entry_bytes(stamp, second, packet):
    """The bytes of an entry."""
    return stamp_bytes(stamp) + bytes([second]) + packet


def read_entry(data):
    """The entry that these bytes are, or None."""
    if len(data) != ENTRY_BYTES or data[SECOND_PLACE] >= SECONDS_OF_MINUTE or not is_packet(data[PACKET_PLACE:]):
        return None
    stamp = stamp_of_record(data)
    if stamp is None:
        return None
    return Entry(SECONDS_OF_MINUTE * stamp + data[SECOND_PLACE], data[PACKET_PLACE:])


def end_of(period, entry):
    """The stamp at which the entry's interval ends: the first end of a period that is not before the entry."""
    seconds = SECONDS_OF_MINUTE * period
    return (entry.moment + seconds - 1) // seconds * period


def rise(before, now):
    """By how much a number of the day rose; one that fell began again."""
    return now - before if now >= before else now


def behind(before, entry):
    """The entry, with its rises since the one before."""
    rain, et = (rise(number_of(before.packet, name), number_of(entry.packet, name)) for name in ("day_rain", "day_et"))
    return Entry(entry.moment, entry.packet, rain, et)


def follows(period, taken, entry):
    """Whether an entry can be taken behind these."""
    return end_of(period, entry) <= LAST_STAMP and (not taken or entry.moment > taken[-1].moment)


def values_of(entries):
    """The values of the row of an interval with these entries."""
    def told(name):
        numbers = [number_of(entry.packet, name) for entry in entries]
        return [number for number in numbers if number != MEMBERS[name].missing]

    def mean(name):
        numbers = told(name)
        return sum(numbers) // len(numbers) if numbers else None

    named = {
        "outTemp": mean("out_temp"),
        "highOutTemp": max(told("out_temp"), default=None),
        "lowOutTemp": min(told("out_temp"), default=None),
        "rain": min(sum(entry.rain for entry in entries), MOST_SUM),
        "highRainRate": max(told("rain_rate")),
        "barometer": mean("barometer"),
        "radiation": mean("radiation"),
        "windSamples": len(told("wind")),
        "inTemp": mean("in_temp"),
        "inHumidity": (told("in_humidity") or [None])[-1],
        "outHumidity": (told("out_humidity") or [None])[-1],
        "windSpeed": mean("wind"),
        "windGust": max(told("wind"), default=None),
        "UV": mean("uv"),
        "ET": min(sum(entry.et for entry in entries), MOST_SUM),
        "highRadiation": max(told("radiation"), default=None),
        "highUV": max(told("uv"), default=None),
    }
    return tuple(named.get(name) for name in NAMES)


def interval_lines(settings, entries):
    """The row lines of the intervals of these entries, one of each."""
    intervals = groupby(entries, lambda entry: end_of(settings.period, entry))
    return [row_line(corrected(settings, end, values_of(list(group)))) for end, group in intervals]


def soft_outcome(settings, data):
    """What is printed of a file of entries up to its first bad one."""
    taken = []
    for number, start in enumerate(range(0, len(data), ENTRY_BYTES)):
        entry = read_entry(data[start:start + ENTRY_BYTES])
        if entry is None or not follows(settings.period, taken, entry):
            last = end_of(settings.period, taken[-1]) if taken else None
            over = [entry for entry in taken if end_of(settings.period, entry) != last]
            return outcome(BAD_ENTRY, interval_lines(settings, over) + [f"bad entry {number}"])
        taken.append(behind(taken[-1], entry) if taken else entry)
    return outcome(DONE, interval_lines(settings, taken))
