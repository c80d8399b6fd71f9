"""Archive records of a console: 52 bytes with a stamp and 37 fields."""

from dataclasses import dataclass

from .stamps import stamp_of_words, words_of

RECORD_BYTES = 52
EMPTY_SLOT = b"\xff" * RECORD_BYTES
REVISION_PLACE = 42  # the byte that tells the form of a record
KNOWN_REVISION = 0
STAMP_BYTES = 4


@dataclass(frozen=True)
class Field:
    """One field of a record."""
    name: str
    offset: int
    kind: str
    missing: int | None  # the raw number that stands for no value


def numbered(name, count, offset, kind, missing):
    """Fields of one kind in consecutive bytes, named with rising numbers."""
    return [Field(f"{name}{place + 1}", offset + place, kind, missing) for place in range(count)]


FIELDS = [
    Field("outTemp", 4, "s16", 32767),
    Field("highOutTemp", 6, "s16", -32768),
    Field("lowOutTemp", 8, "s16", 32767),
    Field("rain", 10, "u16", None),
    Field("highRainRate", 12, "u16", None),
    Field("barometer", 14, "u16", 0),
    Field("radiation", 16, "u16", 32767),
    Field("windSamples", 18, "u16", None),
    Field("inTemp", 20, "s16", 32767),
    Field("inHumidity", 22, "u8", 255),
    Field("outHumidity", 23, "u8", 255),
    Field("windSpeed", 24, "u8", 255),
    Field("windGust", 25, "u8", None),
    Field("windGustDir", 26, "u8", 255),
    Field("windDir", 27, "u8", 255),
    Field("UV", 28, "u8", 255),
    Field("ET", 29, "u8", None),
    Field("highRadiation", 30, "u16", 32767),
    Field("highUV", 32, "u8", 255),
    Field("forecastRule", 33, "u8", 193),
    *numbered("leafTemp", 2, 34, "t8", 255),
    *numbered("leafWet", 2, 36, "u8", 255),
    *numbered("soilTemp", 4, 38, "t8", 255),
    *numbered("extraHumid", 2, 43, "u8", 255),
    *numbered("extraTemp", 3, 45, "t8", 255),
    *numbered("soilMoist", 4, 48, "u8", 255),
]
NAMES = [member.name for member in FIELDS]

# Kind: size in a record, signed, lowest raw number, highest raw number, raw minus value.
KINDS = {
    "s16": (2, True, -32768, 32767, 0),
    "u16": (2, False, 0, 65535, 0),
    "u8": (1, False, 0, 255, 0),
    "t8": (1, False, 0, 255, 90),
}


def raw_of(member, value):
    """The number stored for a value (None: no value), or None where it can not be stored."""
    _, _, lowest, highest, shift = KINDS[member.kind]
    if value is None:
        return member.missing
    raw = value + shift
    return raw if lowest <= raw <= highest and raw != member.missing else None


def record_of(stamp, named):
    """The 52 bytes of a record with the named values, or None where there are none.

    A field that is not named has no value, or 0 where it has no mark for that.
    """
    record = bytearray(RECORD_BYTES)
    for member in FIELDS:
        unnamed = 0 if member.missing is None else None
        raw = raw_of(member, named.get(member.name, unnamed))
        if raw is None:
            return None
        size, signed = KINDS[member.kind][:2]
        record[member.offset:member.offset + size] = raw.to_bytes(size, "little", signed=signed)
    return stamp_bytes(stamp) + bytes(record[STAMP_BYTES:])


def stamp_bytes(stamp):
    """The two words of a stamp as they stand in a record."""
    return b"".join(word.to_bytes(2, "little") for word in words_of(stamp))


def stamp_of_record(record):
    """The stamp that a record names, or None."""
    return stamp_of_words(*record_words(record))


def record_words(record):
    """Date word and time word of a record."""
    return int.from_bytes(record[0:2], "little"), int.from_bytes(record[2:4], "little")


def values_of(record):
    """A value for each field, None where it is missing."""
    values = []
    for member in FIELDS:
        size, signed, _, _, shift = KINDS[member.kind]
        raw = int.from_bytes(record[member.offset:member.offset + size], "little", signed=signed)
        values.append(None if raw == member.missing else raw - shift)
    return tuple(values)
