"""Lines of a schedule that have, or may have, a fault."""

from .stamps import stamp_text

NUMBERS = ("0", "1", "00", "007", "9999999", "10000000", "00000001", "-1", "+1", "", "x", "1.0", "1e3")
STAMPS = ("2024-07-01 24:00", "2024-13-01 00:05", "2024-02-30 00:05", "2023-02-29 00:05", "1999-12-31 23:59",
          "2128-01-01 00:00", "2127-12-31 23:59", "2024-07-01 0:05", "2024-7-01 00:05", "2024-07-01T00:05",
          "2024-07-01", "2024-07-01  00:05", "0000-00-00 00:00", "9999-99-99 99:99", "2024-07-01 00:60",
          "2024-07-01 00:05 ", "+024-07-01 00:05", "2127-12-31 23:50", "2000-01-01 00:00")
VALUES = ("outTemp=32767", "outTemp=32768", "outTemp=-32768", "outTemp=-32769", "highOutTemp=-32768", "rain=65535",
          "rain=65536", "rain=-1", "barometer=0", "radiation=32767", "inHumidity=255", "inHumidity=256",
          "forecastRule=193", "leafTemp1=165", "leafTemp1=-90", "leafTemp1=-91", "soilTemp4=166", "outtemp=5", "=5",
          "outTemp", "outTemp=", "outTemp=-0", "outTemp=-00", "outTemp=a", "outTemp=1=2", "outTemp=+5", "outTemp=0005",
          "outTemp=-005", "outTemp=00000005", "outTemp=5 outTemp=5", "outTemp=5 outTemp=x", "leafTemp3=1", "x=",
          "outTemp=5 rain=3", "outTemp=1000000", "outTemp=99999999", "=", "outTemp=--5", "ET=256", "ET=255")
FATES = ("lost 1", "lose", "cut", "cut 1 2", "drop 1", "drop", "LOST", "", "cut 0", "drop 3 0")
MASKS = ("00", "ff", "Ff", "0", "", "0g", "00" * 16, "00" * 17, "000")
ODD_LINES = ("open 1", "open ", "round 1", " round", "stop 1 1 1", "OPEN", "\topen", "open\r", "due", "run", "idle",
             "host", "reply", "mid", "stop", "host 1", "reply 1", "mid 1", "due 2024-07-01", "# ok\x01", "x\x01",
             "due\x7f", " ", "  ", "idle 5 5", "end", "\x00", "round\nstop 1 1\nstop 2 2", "open\nstop 1 1\nstop 0 1",
             "round\nstop 1\n", "reply 1 late 1", "host 1 lost\nhost 1 cut 3", "reply 1 lost\nreply 1 cut 3",
             "reply 3 lost\nreply 3 late 1 1", "reply 3 late 1 1\nreply 3 late 4 1", "open\nhost 1 lost",
             "open\nreply 1 late 3 3", "open\nstop 1 1")
MANY_ROUNDS = (190, 198, 199, 200, 201)
MANY_RECORDS = (19_990, 19_999, 20_000, 20_001)
MANY_MIDS = (63, 64, 65, 66)


def record_fault(chance, early, late):
    """A line of records with a stamp or a value that may be wrong."""
    word = chance.choice(["due", "run", "mid 3"])
    count = chance.choice(["", " 3", " 1", " 20001", " 9999999"]) if word == "run" else ""
    when = chance.choice([*STAMPS, early, late, late, late])
    return f"{word} {when}{count} {chance.choice(VALUES)}" if chance.random() < 0.7 else f"{word} {when}{count}"


def number_fault(chance, early, late):
    """A line with a number that may be wrong."""
    number, when = chance.choice(NUMBERS), chance.choice([early, late])
    return chance.choice([f"run {when} {number}", f"mid {number} {when}", f"idle {number}",
                          f"idle {chance.choice(['100', '101', '099'])}", f"host {number} lost", f"reply {number} lost",
                          f"stop {number} {chance.choice(['0', number])}", f"mid {chance.randint(1, 4)} {late}"])


def fate_fault(chance):
    """A line of a fate that may be wrong."""
    side, number = chance.choice(["host", "reply"]), chance.choice(NUMBERS)
    waits = chance.choice(["0", "1", "2", "3", "4", "9999999", "10000000", number])
    return chance.choice([f"{side} 1 {chance.choice(FATES)}", f"{side} 1 cut {number}", f"{side} 1 drop {number} 1",
                          f"{side} 2 flip {number} {chance.choice(MASKS)}", f"{side} 1 late {waits} {number}"])


def order_fault(chance, late, later):
    """Lines that may stand where they must not."""
    detail = chance.choice(["host 1 lost", "reply 1 lost", "stop 1 1", f"mid 1 {later}"])
    return chance.choice([f"round\nhost 1 lost\nmid 5 {late}\nidle 3\nmid {chance.randint(3, 6)} {later}",
                          f"round\ndue {late}\n{detail}", f"open\n{detail}", chance.choice(ODD_LINES)])


def broken_line(chance, late):
    """A good line with something taken out or put in."""
    good = chance.choice([f"due {late}", f"run {late} 3", f"mid 4 {late}", "round", "open", "idle 5",
                          "host 1 lost", "reply 1 cut 5", "reply 2 late 1 5", "stop 3 1"])
    middle = chance.choice(["", " ", "x", "\x7f", "\t", "  "])
    return good[:chance.randrange(len(good) + 1)] + middle + good[chance.randrange(len(good)):]


def too_many(chance, stamp):
    """More rounds, records or mids than there may be, or just as many."""
    mids = [f"mid 3 {stamp_text(stamp + number)}" for number in range(chance.choice(MANY_MIDS))]
    records = f"run {stamp_text(stamp)} {chance.choice(MANY_RECORDS)}"
    return chance.choice(["round\n" + "\n".join(mids), "round\n" * chance.choice(MANY_ROUNDS), records])


def faulty_line(chance, stamp, period):
    """A line, or some, with what may be a fault; the stamp is the next that rises."""
    early, late, later = (stamp_text(max(0, stamp + minutes)) for minutes in (-chance.randint(0, 50_000), 0, period))
    records, numbers = record_fault(chance, early, late), number_fault(chance, early, late)
    return chance.choice([records, records, numbers, fate_fault(chance), order_fault(chance, late, later),
                          broken_line(chance, late), too_many(chance, stamp)])
