#!/usr/bin/python3
"""Tries what setup finds of a console's clock, summer time and records, and how it adjusts the clock, on a clock of its own.

    tools/checks/try_clock.py

The last line is 'N passed, M failed', and the status is 1 if any failed.
"""
import sys
from datetime import datetime, timedelta, timezone
from types import SimpleNamespace

sys.dont_write_bytecode = True  # nothing is left beside the scripts
import rooms  # first: the imports below are of other rooms too
import console_clock
import setup_clock
from console_clock import Newest, RightTime
from trying import Differs, hold
from zones import zone_named

NOW = datetime(2024, 7, 3, 12, 1, 40)
UTC = zone_named('UTC')
BERLIN = zone_named('Europe/Berlin')
MINUTE, SECOND = timedelta(minutes=1), timedelta(seconds=1)
STAMP = console_clock.STAMP


class Trial:
    """A station whose console has a clock that is so far ahead, and records up to a stamp. Time passes as it is waited for."""
    program, name, address, archive = 'program', 'roof', 'there:1', 'roof.archive'

    def __init__(self, ahead, newest=None, why_not=None, last=None, now=NOW, period=5):
        self.now, self.ahead, self.newest, self.last = now, ahead, Newest(newest, why_not), last
        self.length, self.lines, self.has_trouble, self.set_to = timedelta(minutes=period), [], False, None

    def begin(self):
        """Puts its time and its records in the place of the real ones."""
        console_clock.utc_now = lambda: self.now.replace(tzinfo=timezone.utc)
        console_clock.sleep = self.sleep
        console_clock.newest_record = lambda station, period: self.newest

    def sleep(self, seconds):
        """Time passes."""
        self.now += seconds * SECOND

    def ask(self, *words):
        """What the console answers to a task about its clock."""
        if words == ('time',):
            return f'time {self.now + self.ahead:{STAMP}}'
        self.now += console_clock.SECONDS_TO_SET * SECOND
        before = self.now + self.ahead
        self.set_to = datetime.strptime(' '.join(words[2:]), STAMP)
        self.ahead = self.set_to - self.now
        self.last_record = before - (before - datetime.min) % self.length
        return 'time set'

    def last_stamp(self):
        """The last row's stamp."""
        return self.last

    def found(self, text):
        """A report's line."""
        self.lines.append(text)

    def trouble(self, text):
        """A report's trouble."""
        self.has_trouble = True
        self.lines.append(f'! {text}')

    def adjust(self, period=5):
        """What adjusting prints."""
        self.begin()
        console_clock.adjust(self, RightTime(UTC), period, self)
        return '\n'.join(self.lines)

    def look(self, **memory):
        """What setup prints of the clock."""
        self.begin()
        places = bytearray(256)
        places[setup_clock.PERIOD], places[setup_clock.SUMMER_BY_HAND] = 5, 1
        setup_clock.look_at_clock(self, SimpleNamespace(set_clock=memory.get('set_clock', False)), places, RightTime(UTC), self)
        return '\n'.join(self.lines)


def hold_parts(what, text, *parts, lacks=()):
    """Holds a text against parts that it has, and parts that it lacks."""
    for part in parts:
        if part not in text:
            raise Differs(f'{what}: {text}, in place of {part}')
    for part in lacks:
        if part in text:
            raise Differs(f'{what}: {text}, which should not have {part}')


def slow_clocks():
    """A slow clock is set forward at once."""
    trial = Trial(-9 * MINUTE, NOW - 12 * MINUTE)
    hold_parts('slow', trial.adjust(), '9 minutes behind', 'was set forward', lacks=['!'])
    hold('what it shows then', (trial.ahead, trial.now), (0 * MINUTE, NOW + 4 * SECOND))
    trial = Trial(-360 * MINUTE, NOW - 3 * MINUTE)
    hold_parts('set back by a battery', trial.adjust(), 'was set forward', '! It had gone back before')
    hold('what it shows then', trial.ahead, 0 * MINUTE)
    for seconds in (-5, 5):
        hold_parts('near enough', Trial(seconds * SECOND).adjust(), 'as it has to', lacks=['was set', '!'])


def fast_clocks():
    """A clock that is fast by less than a period is set back behind its last record, whenever that is begun."""
    for ahead in (6, 30, 100, 200, 280):
        for begun in range(0, 300, 7):
            trial = Trial(ahead * SECOND, now=NOW.replace(minute=0, second=0) + begun * SECOND)
            text = trial.adjust()
            hold_parts(f'{ahead} s fast, {begun} s', text, 'was set back', lacks=['!'])
            hold(f'{ahead} s fast, {begun} s: what it shows then', trial.ahead, 0 * MINUTE)
            if trial.set_to <= trial.last_record:
                raise Differs(f'{ahead} s fast, {begun} s: set to {trial.set_to}, and the last record is {trial.last_record}')
            if trial.now - NOW.replace(minute=0, second=0) - begun * SECOND > 6 * MINUTE:
                raise Differs(f'{ahead} s fast, {begun} s: it took until {trial.now}')


def clocks_that_are_left():
    """What is not set back."""
    for what, trial, part in (
            ('a period fast', Trial(5 * MINUTE), 'not less than a period'),
            ('nearly a period fast', Trial(290 * SECOND), 'not less than a period'),
            ('an hour fast', Trial(60 * MINUTE), 'not less than a period'),
            ('records ahead', Trial(MINUTE, NOW + 2 * MINUTE), 'records ahead of it are in its memory'),
            ('unread', Trial(MINUTE, why_not='gave up'), 'could not be read, so its clock is left as it is: gave up'),
            ('unread and slow', Trial(-9 * MINUTE, why_not='gave up'), 'left as it is')):
        hold_parts(what, trial.adjust(), '!', part)
        hold(f'{what}: it is not set', trial.set_to, None)
    trial = Trial(29 * MINUTE, period=30)
    hold_parts('of half an hour', trial.adjust(30), 'was set back', lacks=['!'])


def records_and_clock():
    """What setup remembers by the records in the memory."""
    hold_parts('as it has to be', Trial(0 * MINUTE, NOW - MINUTE).look(), "as this machine's does", lacks=['!'])
    ahead = Trial(0 * MINUTE, NOW + 59 * MINUTE)
    hold_parts('behind a switch of summer time', ahead.look(), '! Its memory has records up to 2024-07-03 13:00',
               '59 minutes ahead of its clock,', 'which has gone back', 'jofitrana task there:1 period 5')
    hold_parts('a memory that is not read', Trial(0 * MINUTE, why_not='link fault').look(),
               '! Its records could not be read: link fault', 'not known whether one is ahead')
    hold_parts('slow', Trial(-9 * MINUTE, NOW - 12 * MINUTE, last=NOW - 12 * MINUTE).look(),
               'To set it forward loses nothing: jofitrana-setup --adjust roof')
    for last in (NOW - 3 * MINUTE, NOW - 800 * MINUTE):
        hold_parts('a new battery', Trial(-360 * MINUTE, NOW - 3 * MINUTE, last=last).look(),
                   'What it has recorded since it went back is lost', lacks=['loses nothing'])
    hold_parts('slow and not read', Trial(-9 * MINUTE, why_not='gave up', last=NOW - 12 * MINUTE).look(), 'is not known',
               lacks=['loses nothing'])
    hold_parts('a little fast', Trial(4 * MINUTE, last=NOW - 5 * MINUTE).look(), 'behind its last record', '--adjust roof')
    hold_parts('fast', Trial(5 * MINUTE, last=NOW - 5 * MINUTE).look(), 'Leave it as it is')
    back = Trial(60 * MINUTE, NOW + 58 * MINUTE)
    hold_parts('set back by hand', back.look(set_clock=True), 'was set to', '! Its memory has records')


def summer_time_that_is_kept():
    """A console that keeps summer time."""
    for by_hand, is_on, right, part in (
            (0, 0, RightTime(BERLIN), '02:00 to 03:00 of 2024-10-27 will come twice, and its second time will be lost'),
            (1, 0, RightTime(BERLIN), '! The zone Europe/Berlin has summer time'),
            (0, 0, RightTime(), '! Summer time comes and goes by itself'), (1, 1, RightTime(), '! Summer time is switched on'),
            (1, 0, RightTime(), 'is off, as it has to be')):
        trial = Trial(0 * MINUTE)
        trial.begin()
        memory = bytearray(256)
        memory[setup_clock.SUMMER_BY_HAND], memory[setup_clock.SUMMER_ON] = by_hand, is_on
        setup_clock.look_at_summer_time(trial, memory, right, trial)
        hold_parts(part, '\n'.join(trial.lines), part)
        hold(f'{part}: a trouble', trial.has_trouble, part.startswith('!'))
    Trial(0 * MINUTE).begin()
    hold('in summer', RightTime(BERLIN).now(), NOW + 120 * MINUTE)
    hold('its TZ', RightTime(BERLIN).text(), 'Europe/Berlin')


CASES = (slow_clocks, fast_clocks, clocks_that_are_left, records_and_clock, summer_time_that_is_kept)


def main():
    passed = failed = 0
    for case in CASES:
        try:
            case()
            passed += 1
        except Exception as reason:  # whatever it is, the other cases go on
            failed += 1
            print(f'{case.__name__} failed: {reason!r:.600}', file=sys.stderr)
    print(f'{passed} passed, {failed} failed')
    sys.exit(failed > 0)


if __name__ == '__main__':
    main()
