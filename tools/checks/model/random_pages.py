"""Random files of pages, whole and harmed, with and without settings."""

from .cases import Case
from .pages import SLOTS_OF_PAGE, UNUSED, page_of
from .records import EMPTY_SLOT, FIELDS, KINDS, RECORD_BYTES, REVISION_PLACE, STAMP_BYTES
from .setting_texts import any_settings_text
from .stamps import LAST_STAMP, MINUTES_OF_DAY, MONTH_WEIGHT, YEAR_WEIGHT, stamp_of_texts, words_of

FIRST_HOUR = stamp_of_texts("2024-07-01", "00:00")
LAST_HOUR = stamp_of_texts("2024-07-01", "23:00")
ODD_TIMES = (2400, 2360, 60, 99, 100, 2359, 160, 65535, 2401, 6553)
ODD_MONTHS, ODD_DAYS = (0, 2, 4, 6, 9, 11, 12, 13, 14, 15), (0, 1, 28, 29, 30, 31)
ODD_YEARS = (0, 23, 24, 100, 104, 127)  # since 2000


def random_stamp(chance):
    """A stamp, mostly within the minutes of a few hours."""
    if chance.random() < 0.8:
        return chance.choice((FIRST_HOUR, FIRST_HOUR, LAST_HOUR)) + chance.randrange(60)
    midnight = chance.randrange(LAST_STAMP // MINUTES_OF_DAY) * MINUTES_OF_DAY
    minute = chance.choice((0, MINUTES_OF_DAY - 1, chance.randrange(MINUTES_OF_DAY)))
    return chance.choice((0, LAST_STAMP, midnight + minute, midnight + minute))


def odd_words(chance):
    """Words that are often no stamp, near ones that are."""
    date_word, time_word = words_of(random_stamp(chance))
    choice = chance.randrange(3)
    if choice == 0:
        year, month, day = chance.choice(ODD_YEARS), chance.choice(ODD_MONTHS), chance.choice(ODD_DAYS)
        return YEAR_WEIGHT * year + MONTH_WEIGHT * month + day, time_word
    if choice == 1:
        return date_word, chance.choice(ODD_TIMES)
    return chance.randrange(2 ** 16), chance.randrange(2 ** 16)


def random_raw(chance, member):
    """A raw number of a field, often at an edge or at its mark."""
    _, _, low, high, shift = KINDS[member.kind]
    edges = [low, high, 0, shift, low + 1, high - 1, 32767, 193, 255, 254]
    if member.missing is not None:
        edges += [member.missing] * 3 + [member.missing - 1, member.missing + 1]
    raw = chance.choice(edges) if chance.random() < 0.4 else chance.randint(low, high)
    return raw if low <= raw <= high else high


def random_record(chance):
    """A record, at times with an odd stamp or of another revision."""
    slot = bytearray(chance.randbytes(RECORD_BYTES))
    words = odd_words(chance) if chance.random() < 0.15 else words_of(random_stamp(chance))
    slot[:STAMP_BYTES] = b"".join(word.to_bytes(2, "little") for word in words)
    for member in FIELDS:
        size, signed = KINDS[member.kind][:2]
        slot[member.offset:member.offset + size] = random_raw(chance, member).to_bytes(size, "little", signed=signed)
    slot[REVISION_PLACE] = chance.choice((1, 255, chance.randrange(256))) if chance.random() < 0.1 else 0
    return bytes(slot)


def random_slot(chance):
    """One slot: a record, an empty one, or one that is nearly empty."""
    choice = chance.random()
    if choice < 0.12:
        return EMPTY_SLOT
    if choice < 0.2:
        slot = bytearray(EMPTY_SLOT)
        place = chance.choice((REVISION_PLACE, 0, RECORD_BYTES - 1, chance.randrange(RECORD_BYTES)))
        slot[place] = chance.randrange(256)
        return bytes(slot)
    return random_record(chance)


def random_page(chance):
    """A good page."""
    unused = UNUSED if chance.random() < 0.7 else chance.randbytes(len(UNUSED))
    return page_of(chance.randrange(256), [random_slot(chance) for _ in range(SLOTS_OF_PAGE)], unused)


def harmed(chance, page):
    """A page with some harm, which its check mostly shows."""
    choice = chance.randrange(4)
    if choice == 0:
        return page[:chance.randrange(1, len(page))]
    if choice == 1:
        return page[:-2] + bytes([page[-1], page[-2]])
    if choice == 2:
        return bytes(len(page))
    changed = bytearray(page)
    for _ in range(chance.randint(1, 3)):
        changed[chance.randrange(len(page))] ^= 1 << chance.randrange(8)
    return bytes(changed)


def random_file(chance):
    """A file of pages: good ones, and in some files harmed ones or a rest."""
    pages = [random_page(chance) for _ in range(chance.choice((0, 1, 1, 2, 3)))]
    if chance.random() < 0.25:
        pages.insert(chance.randint(0, len(pages)), harmed(chance, random_page(chance)))
    if chance.random() < 0.1:
        pages.append(chance.randbytes(chance.randint(1, 300)))
    return b"".join(pages)


def random_pages_case(chance):
    """A run of `pages`, mostly with settings."""
    files = {"pages.bin": random_file(chance)}
    if chance.random() < 0.2:
        return Case(["pages", "pages.bin"], files)
    files["settings.toml"] = any_settings_text(chance, random_stamp)
    return Case(["pages", "settings.toml", "pages.bin"], files)
