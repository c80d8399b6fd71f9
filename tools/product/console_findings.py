"""What a check finds of a console's clock and period, and the note of it that later checks read."""
import json
import os
import tomllib
from datetime import datetime, timedelta
from typing import NamedTuple

import archives
from findings import Ended, Finding, Status
from whole_files import write_whole

STAMP = '%Y-%m-%d %H:%M:%S'
MINUTE = timedelta(minutes=1)
PERIOD_PLACE = '2D'
DEFAULT_PERIOD = 5
OLDEST_NOTE = timedelta(days=3)  # a note that is older is passed over


class Asked(NamedTuple):
    """What a console showed: its clock and its period, when it was asked by this machine's clock, and the last row then."""
    shown: datetime
    period: int | None
    now: datetime
    last: datetime

    def behind(self):
        """The minutes that its clock was behind this machine's, each without its seconds."""
        return (self.now.replace(second=0) - self.shown.replace(second=0)) // MINUTE


def apart(behind):
    """How far a clock is from this machine's, in words."""
    return f"{behind} minutes behind this machine's" if behind >= 0 else f"{-behind} minutes ahead of this machine's"


def ask(program, address, *words):
    """What a console answers to a task, or the finding that it does not."""
    said, status = archives.run(program, 'task', address, *words)
    if status == 0:
        return said, None
    return None, Finding(f'console {words[0]}', Status.WARNING,
                         f'the console at {address} was asked for its {words[0]}: {said}')


def ask_console(program, address, now, last):
    """What the console at an address shows, and the findings of what it does not answer."""
    clock, no_clock = ask(program, address, 'time')
    byte, no_period = ask(program, address, 'eeprom', 'read', PERIOD_PLACE, '1')
    troubles = [trouble for trouble in (no_clock, no_period) if trouble]
    if clock is None:
        return None, int(byte, 16) if byte else None, troubles
    asked = Asked(datetime.strptime(clock.removeprefix('time '), STAMP), int(byte, 16) if byte else None, now, last)
    return asked, asked.period, troubles


def clock_finding(asked, limits, when=''):
    """The finding of a console's clock, if there is one."""
    behind = asked.behind()
    if asked.shown < asked.last:
        return Finding('clock', Status.CRITICAL, f"the console's clock {when or 'shows'} {asked.shown:%Y-%m-%d %H:%M:%S}, "
                       'before the last row: it was set back, and records are lost until it passes that')
    status = limits.beyond(abs(behind))
    if status == Status.OK:
        return None
    return Finding('clock', status, f"the console's clock {when or 'shows'} {asked.shown:%Y-%m-%d %H:%M:%S}, {apart(behind)}")


def period_of(settings):
    """The period of a file of settings."""
    try:
        with open(settings, 'rb') as file:
            return tomllib.load(file).get('period', DEFAULT_PERIOD)
    except (OSError, ValueError):
        raise Ended(Status.UNKNOWN, f'{settings} cannot be read as settings', 'settings') from None


def period_finding(period, settings, claimed):
    """The finding of a console's period, against that of the settings or else of the last row; nothing if they agree."""
    wanted, owner = (period_of(settings), settings) if settings else (claimed, 'the last row')
    if period in (None, wanted):
        return None
    return Finding('period', Status.CRITICAL, f'the console keeps a record every {period} minutes, and {owner} has {wanted}: '
                   f'write period = {period} in the settings')


def note_name(archive):
    """The file of the note beside an archive."""
    return f'{archive.removesuffix(".archive")}.console'


def remember(asked, archive):
    """Writes the note of what a console showed."""
    times = {key: getattr(asked, key).isoformat() for key in ('shown', 'now', 'last')}
    write_whole(note_name(archive), json.dumps({**times, 'period': asked.period}) + '\n')


def remembered(archive):
    """What the note has of the console; nothing if there is none."""
    try:
        with open(note_name(archive), encoding='utf-8') as file:
            note = json.load(file)
        times = {key: datetime.fromisoformat(note[key]) for key in ('shown', 'now', 'last')}
        return Asked(**times, period=note['period'])
    except (OSError, ValueError, KeyError, TypeError):
        return None


def still_holds(asked, now, last):
    """Whether a note may still be right: no row has come since that the noted clock could not have given."""
    since = now - asked.now
    return timedelta(0) <= since <= OLDEST_NOTE and (last == asked.last or last <= asked.shown + since)


def forget(archive):
    """Takes the note of a console away, if there is one."""
    try:
        os.remove(note_name(archive))
    except FileNotFoundError:
        pass
