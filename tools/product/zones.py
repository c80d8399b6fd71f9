"""The zones that a value of TZ may name: those of the system, and rules such as <+01>-1."""
import io
import struct
from zoneinfo import ZoneInfo

# A file of a zone that has only a rule (RFC 8536): a header, one kind of local time, and behind that the rule.
HEAD = struct.Struct('>4sc15x6I')
ONE_KIND = HEAD.pack(b'TZif', b'2', 0, 0, 0, 0, 1, 4) + bytes(6) + b'UTC\0'


class NoZone(Exception):
    """Why a text is no zone."""


def by_rule(rule):
    """The zone of a rule."""
    text = rule.encode('ascii')
    if b'\n' in text:
        raise ValueError(rule)
    return ZoneInfo.from_file(io.BytesIO(2 * ONE_KIND + b'\n' + text + b'\n'), key=rule)


def zone_named(name):
    """The zone of a name or of a rule, as TZ has it."""
    for made_by in (ZoneInfo, by_rule):
        try:
            return made_by(name.removeprefix(':'))
        except (ValueError, OSError, LookupError):
            pass
    raise NoZone(f'{name} is no time zone of this system (package tzdata)')
