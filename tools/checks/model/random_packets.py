"""Random files of LOOP packets with their moments, whole and harmed."""

from .cases import Case
from .packets import ENTRY_BYTES, MEMBERS, PACKET_BYTES, PACKET_PLACE, SECONDS_OF_MINUTE, entry_bytes, packet_of
from .random_pages import harmed, odd_words, random_stamp
from .records import STAMP_BYTES
from .setting_texts import any_settings_text
from .stamps import LAST_STAMP, PERIODS

STEPS = (1, 1, 2, 20, 59, 60, 61, 240, 299, 300, 301, 900, 7200)  # seconds from one entry to the next
MOST_ENTRIES = 40


def random_number(chance, member, before):
    """A number of a packet, often near that of the packet before, at an edge, or its mark."""
    bits = 8 * member.size
    low, high = (-2 ** (bits - 1), 2 ** (bits - 1) - 1) if member.signed else (0, 2 ** bits - 1)
    choice = chance.random()
    if choice < 0.15 and member.missing is not None:
        return member.missing
    if choice < 0.3:
        return chance.choice((low, low + 1, high - 1, high))
    if choice < 0.8:
        return min(max(before + chance.randint(-2, 5), low), high)
    return chance.randint(low, high)


def random_packet(chance, numbers):
    """A good packet, whose numbers come after those of the packet before."""
    data = bytearray(b"LOO" + bytes([chance.randrange(256), 0]) + chance.randbytes(PACKET_BYTES))
    for name, member in MEMBERS.items():
        numbers[name] = random_number(chance, member, numbers.get(name, 0))
        number = numbers[name].to_bytes(member.size, "little", signed=member.signed)
        data[member.offset:member.offset + member.size] = number
    return packet_of(bytes(data))


def odd_entry(chance, entry):
    """An entry with some harm, which is mostly bad."""
    choice = chance.randrange(5)
    if choice == 0:
        return entry[:PACKET_PLACE] + harmed(chance, entry[PACKET_PLACE:])
    if choice == 1:
        return entry[:PACKET_PLACE - 1] + bytes([chance.choice((59, 60, 61, 255))]) + entry[PACKET_PLACE:]
    if choice == 2:
        return b"".join(word.to_bytes(2, "little") for word in odd_words(chance)) + entry[STAMP_BYTES:]
    if choice == 3:
        return entry[:chance.randrange(len(entry))]
    place = chance.choice((*range(PACKET_PLACE + 5), chance.randrange(ENTRY_BYTES)))
    changed = bytearray(entry)
    changed[place] ^= 1 << chance.randrange(8)
    return bytes(changed)


def random_file(chance):
    """A file of entries: their moments rise, but in some files one does not, and some have a harmed one or a rest."""
    moment = SECONDS_OF_MINUTE * random_stamp(chance) + chance.choice((0, 0, 1, 59))
    numbers, entries = {}, []
    for _ in range(chance.choice((0, 1, 2, 3, 10, chance.randint(0, MOST_ENTRIES)))):
        stamp, second = divmod(moment, SECONDS_OF_MINUTE)
        if stamp > LAST_STAMP:
            break
        entries.append(entry_bytes(stamp, second, random_packet(chance, numbers)))
        moment += chance.choice(STEPS) if chance.random() < 0.99 else -chance.randint(0, min(moment, 1))
    if entries and chance.random() < 0.3:
        place = chance.randrange(len(entries))
        entries[place] = odd_entry(chance, entries[place])
    if chance.random() < 0.05:
        entries.append(chance.randbytes(chance.randint(1, ENTRY_BYTES)))
    return b"".join(entries)


def random_soft_case(chance):
    """A run of `soft`."""
    period = chance.choice(PERIODS) if chance.random() < 0.7 else None
    files = {"settings.toml": any_settings_text(chance, random_stamp, period), "packets.bin": random_file(chance)}
    return Case(["soft", "settings.toml", "packets.bin"], files)
