"""What a console's clock has to show, what stamps its memory has, and how the clock is set right so that no record is lost."""
import os
import shutil
import tempfile
import time
from datetime import datetime, timedelta, timezone
from typing import NamedTuple
from zoneinfo import ZoneInfo

import archives

STAMP, MINUTE_STAMP = '%Y-%m-%d %H:%M:%S', '%Y-%m-%d %H:%M'
WHOLE_UNITS = 3  # of a unit of time; a shorter span is given in the next smaller unit
SECONDS_TO_SET = 4  # from the first byte to the console until it has the time that was said
RIGHT_SECONDS = 5  # a clock that is no further away is not adjusted
BEHIND_RECORD = timedelta(seconds=3)  # a clock that goes back is set to no less behind the last record
BEFORE_RECORD = timedelta(seconds=15)  # it is set no later before the next record


def utc_now():
    """This moment in UTC, to the second."""
    return datetime.now(timezone.utc).replace(microsecond=0)


def sleep(seconds):
    """Waits."""
    time.sleep(seconds)


def standard_offset():
    """How far this machine's zone is ahead of UTC outside summer time."""
    return timedelta(seconds=-time.timezone)


def offset_text(offset):
    """An offset from UTC as +HH:MM."""
    minutes = round(offset.total_seconds()) // 60
    return f'{"-" if minutes < 0 else "+"}{abs(minutes) // 60:02}:{abs(minutes) % 60:02}'


def zone_rule(offset):
    """A value of TZ for a clock that is always so far ahead of UTC. Its sign is the other way round."""
    text = offset_text(offset)
    name = text.removesuffix(':00').replace(':', '')
    return f'<{name}>{"-" if text[0] == "+" else "+"}{text[1:].removesuffix(":00")}'


class RightTime(NamedTuple):
    """What a console's clock has to show: this machine's time without summer time, or that of a zone with summer time."""
    zone: ZoneInfo | None = None

    def now(self):
        """What it has to show now."""
        if self.zone:
            return utc_now().astimezone(self.zone).replace(tzinfo=None, fold=0)
        return utc_now().replace(tzinfo=None) + standard_offset()

    def words(self):
        """What it is, in words."""
        return f"this machine's time{self.within()}"

    def within(self):
        """In which zone it is, in words."""
        return f' in {self.zone.key}' if self.zone else ' without summer time'

    def text(self):
        """The value of TZ for it."""
        return self.zone.key if self.zone else zone_rule(standard_offset())


def words_of_time(span):
    """A span of time in words."""
    seconds = abs(int(span.total_seconds()))
    for unit, size in (('days', 86_400), ('hours', 3_600), ('minutes', 60)):
        if seconds >= WHOLE_UNITS * size:
            return f'{seconds / size:.0f} {unit}'
    return f'{seconds} seconds'


def clock_of(station):
    """What the console's clock shows."""
    return datetime.strptime(station.ask('time').removeprefix('time '), STAMP)


def set_clock(station, right):
    """Sets the console's clock."""
    station.ask('time', 'set', *f'{right.now() + timedelta(seconds=SECONDS_TO_SET):{STAMP}}'.split(' '))


class Newest(NamedTuple):
    """The newest stamp of the console's memory and of the archive, if there is one; or why the memory is not known."""
    stamp: datetime | None
    why_not: str | None = None


def take_records(station, period, folder):
    """Takes the console's records into an archive of a folder, behind those of the station's archive."""
    settings, trial = os.path.join(folder, 'trial.toml'), os.path.join(folder, 'trial.archive')
    with open(settings, 'w', encoding='utf-8') as file:
        file.write(f'period = {period}\n')
    if os.path.exists(station.archive):
        shutil.copyfile(station.archive, trial)
    line, status = archives.run(station.program, 'station', settings, trial, station.address)
    count = 0
    if status == 0:
        count, line, status = archives.rows_of(station.program, trial)
    if status:
        return Newest(None, line)
    return Newest(datetime.strptime(' '.join(line.split(' ')[1:3]), MINUTE_STAMP) if count else None)


def newest_record(station, period):
    """The newest stamp of the console's memory and of the archive, neither of which is changed."""
    try:
        with tempfile.TemporaryDirectory() as folder:
            return take_records(station, period, folder)
    except OSError as fault:
        return Newest(None, fault.strerror)


class Clock(NamedTuple):
    """What a console's clock shows, how far it is ahead, and the newest stamp that it has given."""
    shown: datetime
    ahead: timedelta
    newest: Newest

    def has_gone_back(self):
        """Whether a record is ahead of the clock."""
        return self.newest.stamp is not None and self.newest.stamp > self.shown


def look(station, right, period):
    """The console's clock. Its memory is read first, which may take long."""
    newest = newest_record(station, period)
    shown = clock_of(station)
    return Clock(shown, shown - right.now(), newest)


def wait_to_set_back(clock, period):
    """How long to wait until a clock that is ahead can be set back to a time behind its last record; nothing if it cannot be.
    The last record is that of the last full period, whether or not it is in the memory yet."""
    length = timedelta(minutes=period)
    since_record = (clock.shown - datetime.min) % length
    if clock.ahead + BEHIND_RECORD + BEFORE_RECORD >= length:
        return None
    if since_record > length - BEFORE_RECORD:
        return length - since_record + clock.ahead + BEHIND_RECORD
    return max(timedelta(0), clock.ahead + BEHIND_RECORD - since_record)


def set_back(station, right, clock, period, report):
    """Sets a clock that is ahead back to a time behind its last record, if that can be."""
    wait = wait_to_set_back(clock, period)
    if clock.has_gone_back() or wait is None:
        why = ('records ahead of it are in its memory' if clock.has_gone_back()
               else 'that is not less than a period, so records would be lost')
        report.trouble(f'Its clock is not set back: {why}. Leave it as it is.')
        return
    if wait:
        report.found(f'It is set in {words_of_time(wait)}, once the time of its last record has passed.')
        sleep(wait.total_seconds())
    set_clock(station, right)
    report.found(f'Its clock was set back to {right.words()}, behind its last record: no record is lost.')


def adjust(station, right, period, report):
    """Sets the console's clock right if that loses no record."""
    clock = look(station, right, period)
    if clock.newest.why_not:
        report.trouble(f'Its records could not be read, so its clock is left as it is: {clock.newest.why_not}. Try once more.')
        return
    if abs(clock.ahead.total_seconds()) <= RIGHT_SECONDS:
        report.found(f'Its clock shows {clock.shown}, as it has to.')
        return
    way = 'ahead of' if clock.ahead > timedelta() else 'behind'
    report.found(f'Its clock shows {clock.shown}, {words_of_time(clock.ahead)} {way} {right.words()}.')
    if clock.ahead > timedelta():
        set_back(station, right, clock, period, report)
        return
    set_clock(station, right)
    report.found(f'Its clock was set forward to {right.words()}.')
    if clock.has_gone_back():
        report.trouble(f'It had gone back before: it has records up to {clock.newest.stamp:{MINUTE_STAMP}}.\n'
                       '  What it has recorded since is lost.')
