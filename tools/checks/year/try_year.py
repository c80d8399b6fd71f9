#!/usr/bin/python3
"""Lives a year with the built program, its tools and a console of scripted life, and prints what came of each event.

    tools/checks/year/try_year.py PROGRAM

Each event is a line of a table: what happened, the rows that were lost, and what the observer was told. The last line is
'N passed, M failed', and the status is 1 if any failed. It takes long, since each of some hundred rounds waits four seconds.
"""
import signal
import subprocess
import sys
import tempfile
import time
import traceback
from datetime import datetime, timedelta
from pathlib import Path
from typing import NamedTuple

sys.dont_write_bytecode = True  # nothing is left beside the scripts
sys.path.insert(0, str(Path(__file__).resolve().parent.parent))
from trying import Differs, hold
from year.life import Life

DAY, HOUR, MINUTE = timedelta(days=1), timedelta(hours=1), timedelta(minutes=1)
DAY_ROWS = 288
FULL_MEMORY = 2560
LIMITS = 'period = 5\n[limits.outTemp]\nleast = -900\ngreatest = 1500\n'
TELL = 'cat >>$TOLD'


def hold_words(what, text, *words):
    """Holds a text against words that it has to have."""
    for word in words:
        if word not in text:
            raise Differs(f'{what}: {text[-900:]!r} has no {word!r}')


class Came(NamedTuple):
    """What came of an event."""
    lost: int
    wanted: int  # as many have to be lost
    told: str


class Event:
    """An event of a life, with what was lost since it began."""

    def __init__(self, life):
        self.life, self.rows, self.made = life, life.rows(), life.console.made

    def passes(self, span):
        """Time passes."""
        self.life.console.pass_minutes(span // MINUTE)

    def lost(self):
        """How many records fell due since that are no rows behind a round."""
        self.life.round()
        return self.life.console.made - self.made - (self.life.rows() - self.rows)


def know_gap(life, event):
    """The observer knows of a gap, and has it left out from then on."""
    life.add_key('CHECK', f'--known {life.console.moment + DAY:%Y-%m-%d}')
    event.passes(DAY)
    life.round()
    hold_words('once it is known', ' '.join(life.alert()), 'JOFITRANA OK')


def first_setup(life):
    """Set up in summer, summer time was AUTO and is switched off"""
    console = life.console
    console.keep_summer_time(True)
    console.pass_minutes(10 * 1440)
    said = life.set_up('roof', life.address)
    hold_words('the first run', said, '! Summer time comes and goes by itself')
    console.keep_summer_time(False)
    said = life.set_up('roof', life.address)
    hold_words('the second run', said, '! Its memory has records up to', '60 minutes ahead of its clock')
    life.add_key('ALERT', TELL)
    life.settings.write_text(LIMITS)
    life.round()
    hold('the first round', life.rows(), FULL_MEMORY)
    event = Event(life)
    event.passes(2 * HOUR)
    lost = event.lost()
    hold('what setup finds then', life.set_up('roof', life.address).count('!'), 0)
    return Came(lost, 12, 'by setup, before the first round')


def cut_cable(life):
    """The cable is out for five hours"""
    event = Event(life)
    life.console.is_cut = True
    minutes, line = life.until_told(20)
    hold_words('the cut', line, 'WARNING', 'minutes ago')
    if minutes > 35:
        raise Differs(f'it took {minutes} minutes until the observer was told')
    event.passes(5 * HOUR - minutes * MINUTE)
    life.console.is_cut = False
    lost = event.lost()
    hold_words('the end', ' '.join(life.alert()), 'JOFITRANA OK')
    return Came(lost, 0, f'after {minutes} minutes, and as all was well')


def long_absence(life):
    """The computer is off for twelve days"""
    event = Event(life)
    event.passes(12 * DAY)
    lost = event.lost()
    hold_words('the absence', ' '.join(life.alert()), 'CRITICAL', f'lacks {lost} rows')
    life.add_key('CHECK', f'--known {life.console.moment:%Y-%m-%d}')
    hold_words('once it is known', ' '.join(life.alert()), 'JOFITRANA OK')
    return Came(lost, 12 * DAY_ROWS - FULL_MEMORY, 'with the first check, with the number of rows')


def broken_sensor(title, fault, words):
    """An event of a sensor that fails for a day."""
    def event_of(life):
        event = Event(life)
        life.console.faults = {fault}
        for quarter in range(1, 9):
            event.passes(6 * HOUR)
            life.round()
            lines = life.alert()
            if lines:
                break
        hold_words(fault, ' '.join(lines), 'WARNING', *words)
        life.console.faults = set()
        event.passes(HOUR)
        lost = event.lost()
        hold_words('the end', ' '.join(life.alert()), 'JOFITRANA OK')
        return Came(lost, 0, f'after {6 * quarter} hours; the rows have no such value')
    event_of.__doc__ = title
    return event_of


def blocked_gauge(life):
    """The rain gauge is blocked for five days"""
    event = Event(life)
    life.console.faults = {'rain'}
    told = []
    for _ in range(5):
        event.passes(DAY)
        life.round()
        told += life.alert()
    life.console.faults = set()
    hold('what the observer is told', told, [])
    return Came(event.lost(), 0, '**not at all**: its rain is lost, and the rows have none')


def slow_clock(life):
    """The clock is nine minutes slow"""
    event = Event(life)
    life.console.stand_still(9)
    event.passes(20 * MINUTE)
    life.round()
    life.look()
    hold_words('the look', ' '.join(life.alert()), 'WARNING', "9 minutes behind this machine's")
    hold_words('adjusting', life.set_up('--adjust', 'roof'), 'was set forward')
    event.passes(HOUR)
    lost = event.lost()
    hold_words('the end', ' '.join(life.alert()), 'JOFITRANA OK')
    return Came(lost, 0, 'by the look of that day; `--adjust` sets it right')


def fast_clock(life):
    """The clock is three minutes fast"""
    event = Event(life)
    life.console.error = 3 * MINUTE
    event.passes(21 * MINUTE)
    life.round()
    life.look()
    hold('a clock within the limits', life.alert(), [])
    hold_words('setup', life.set_up('roof', life.address), '3 minutes ahead', '--adjust roof')
    hold_words('adjusting', life.set_up('--adjust', 'roof'), 'no record is lost')
    life.even()
    life.console.error = timedelta(0)
    event.passes(HOUR)
    return Came(event.lost(), 0, 'by setup alone, since five minutes are allowed; `--adjust` sets it right')


def very_fast_clock(life):
    """The clock is twenty minutes fast, and is set back by hand"""
    event = Event(life)
    life.console.error = 20 * MINUTE
    event.passes(HOUR)
    life.round()
    hold_words('the alert', ' '.join(life.alert()), 'WARNING', 'is ahead', 'rows are still added')
    hold_words('adjusting', life.set_up('--adjust', 'roof'), '! Its clock is not set back')
    life.console.error = timedelta(0)
    event.passes(HOUR + DAY)
    lost = event.lost()
    life.look()
    hold_words('the end', ' '.join(life.alert()), 'JOFITRANA OK')
    return Came(lost, 4, 'that it is ahead, with the next check; `--adjust` refuses')


def new_battery(life):
    """A new battery sets the clock back six hours, and it is set right after five"""
    event = Event(life)
    life.console.error = -6 * HOUR
    minutes, line = life.until_told(20, has_line=True)
    hold_words('the alert', line, 'WARNING', 'minutes ago')
    life.look()
    hold_words('the look', ' '.join(life.alert()), 'CRITICAL', 'it was set back')
    hold_words('setup', life.set_up('roof', life.address), 'was set back', 'What it has recorded since it went back is lost')
    event.passes(5 * HOUR - minutes * MINUTE)
    hold_words('adjusting', life.set_up('--adjust', 'roof'), 'was set forward', '! It had gone back before')
    event.passes(HOUR)
    lost = event.lost()
    hold_words('the gap', life.check().line(), f'lacks {lost} rows')
    know_gap(life, event)
    return Came(lost, 60, f'after {minutes} minutes; why, by the look of that day')


def record_of_the_future(life):
    """The clock is set a day ahead by mistake, and back after ten minutes"""
    event = Event(life)
    life.console.error = DAY
    event.passes(10 * MINUTE)
    life.round()
    hold_words('the alert', ' '.join(life.alert()), 'CRITICAL', 'is ahead')
    life.console.error = timedelta(0)
    event.passes(HOUR)
    life.round()
    hold_words('behind it', ' '.join(life.alert()), 'CRITICAL', 'was set back', 'no record is added')
    event.passes(DAY)
    lost = event.lost()
    life.look()
    know_gap(life, event)
    return Came(lost, DAY_ROWS, 'with the next check, both times')


def other_period(life):
    """The period is changed in the console, and in the settings three hours later"""
    event = Event(life)
    life.task('period', '10')
    event.passes(3 * HOUR)
    life.round()
    found = life.check()
    hold_words('the check', found.line(), 'rows come every 10 minutes', 'claim 5', 'lacks 0 rows')
    hold_words('the alert', ' '.join(life.alert()), 'rows come every 10 minutes')
    life.settings.write_text(LIMITS.replace('period = 5', 'period = 10'))
    event.passes(3 * HOUR)
    lost = event.lost()
    hold_words('the end', ' '.join(life.alert()), 'JOFITRANA OK', 'rows are of 10 minutes')
    life.task('period', '5')
    life.settings.write_text(LIMITS)
    event.passes(3 * HOUR)
    hold('of the first change', lost, 0)
    return Came(event.lost(), 0, 'with the next check; the rows until then claim a wrong length')


def full_disk(life):
    """The disk is full for six hours"""
    event = Event(life)
    event.passes(20 * MINUTE)
    status, _ = life.round(room=life.archive.stat().st_size // 4096 * 4096)
    hold('the round', status, 7)
    hold_words('the alert', ' '.join(life.alert(failed_round=7)), 'a round failed: exit-code 7')
    event.passes(6 * HOUR)
    lost = event.lost()
    hold_words('the end', ' '.join(life.alert()), 'JOFITRANA OK')
    return Came(lost, 0, 'at once, by the round that failed')


def killed_round(life):
    """A round is killed, and the mail server is down as the cable is cut"""
    event = Event(life)
    event.passes(7 * DAY)
    ran = subprocess.Popen([life.program, 'station', life.settings, life.archive, life.address], stdout=subprocess.DEVNULL)
    size = life.archive.stat().st_size
    while ran.poll() is None and life.archive.stat().st_size == size:
        time.sleep(0.001)
    ran.send_signal(signal.SIGKILL)
    ran.wait()
    life.round()
    life.alert()
    life.console.is_cut = True
    life.add_key('ALERT', 'false')
    event.passes(HOUR)
    hold('without a mail server', life.alert(), [])
    life.add_key('ALERT', TELL)
    hold_words('with one', ' '.join(life.alert()), 'minutes ago')
    life.console.is_cut = False
    lost = event.lost()
    hold_words('the end', ' '.join(life.alert()), 'JOFITRANA OK')
    return Came(lost, 0, 'of the cable, once the server took the mail')


def missing_logger(life):
    """The logger is taken out for two days"""
    event = Event(life)
    life.console.has_logger = False
    minutes, line = life.until_told(8, has_line=True)
    hold_words('the alert', line, 'WARNING', 'minutes ago')
    event.passes(2 * DAY - minutes * MINUTE)
    life.console.has_logger = True
    event.passes(HOUR)
    lost = event.lost()
    hold_words('the gap', ' '.join(life.alert()), 'CRITICAL', f'lacks {lost} rows')
    know_gap(life, event)
    return Came(lost, 2 * DAY_ROWS, f'after {minutes} minutes; the gap, with its rows, for 31 days')


YEAR = (
    (datetime(2025, 7, 1), first_setup), (datetime(2025, 7, 20), cut_cable), (datetime(2025, 8, 5), long_absence),
    (datetime(2025, 9, 10), broken_sensor('The thermometer is out for a day', 'temperature', ['outTemp has had no value for 2'])),
    (datetime(2025, 9, 25), broken_sensor('The thermometer shows 199.9 F for a day', 'hot', ['are beyond its limits'])),
    (datetime(2025, 10, 5), broken_sensor('The anemometer is out for a day', 'wind', ['windSpeed has had no value'])),
    (datetime(2025, 10, 15), blocked_gauge), (datetime(2025, 11, 5), slow_clock), (datetime(2025, 11, 20), fast_clock),
    (datetime(2025, 12, 5), very_fast_clock), (datetime(2026, 1, 10), new_battery), (datetime(2026, 2, 1), record_of_the_future),
    (datetime(2026, 2, 15), other_period), (datetime(2026, 3, 5), full_disk), (datetime(2026, 3, 20), killed_round),
    (datetime(2026, 4, 10), missing_logger),
)
END = datetime(2026, 6, 30)


def kept_summer_time(life):
    """A console that keeps summer time comes to the end of October"""
    console = life.console
    console.keep_summer_time(True)
    console.pass_minutes(10 * 1440)
    said = life.set_up('--summer', 'roof', life.address)
    hold_words('setup', said, 'will come twice, and its second time will be lost', 'as in Europe/Berlin')
    hold('its troubles', said.count('!'), 0)
    life.add_key('ALERT', TELL)
    life.settings.write_text(LIMITS)
    life.round()
    hold('a month before', life.live_until(datetime(2025, 10, 18)), [])
    hold_words('a month before', life.check().line(), 'OK', '02:00 to 03:00 of 2025-10-26 will come twice')
    hold_words('a week before', ' '.join(life.live_until(datetime(2025, 10, 20))), 'WARNING', 'will come twice')
    life.live_until(datetime(2025, 10, 25))
    event = Event(life)
    event.passes(2 * DAY)
    lost = event.lost()
    hold_words('behind it', life.check().line(), f'lacks {lost} rows')
    return Came(lost, 12, 'from 31 days before, by an alert from seven days before')


class Table:
    """The lines of a table, as they come."""

    def __init__(self):
        self.passed = self.failed = self.lost = 0

    def add(self, life, event_of):
        """A line of an event, which is lived through."""
        day = life.console.moment
        try:
            came = event_of(life)
            print(f'| {day:%Y-%m-%d} | {event_of.__doc__} | {came.lost} | {came.told} |', flush=True)
            hold('rows that were lost', came.lost, came.wanted)
            self.passed += 1
            self.lost += came.lost
        except Exception:  # whatever it is, the other events go on
            self.failed += 1
            print(f'{event_of.__doc__} failed: {traceback.format_exc(limit=-3)}', file=sys.stderr, flush=True)
            life.console.is_cut, life.console.has_logger, life.console.faults = False, True, set()
            life.console.error = timedelta(0)
        life.even()

    def pass_quietly(self, life, day):
        """Time passes until a day. Whatever the observer is told meanwhile has to be that all is well."""
        told = [line for line in life.live_until(day) if 'JOFITRANA OK' not in line]
        if told:
            self.failed += 1
            print(f'before {day:%Y-%m-%d} the observer was told {told}', file=sys.stderr, flush=True)


def live_year(program, folder, table):
    """Lives a year with its events."""
    life = Life(program, folder, datetime(2025, 6, 21))
    for day, event_of in YEAR:
        if life.archive.exists():
            table.pass_quietly(life, day)
        table.add(life, event_of)
    table.pass_quietly(life, END)
    made = life.console.made - (10 * DAY_ROWS - FULL_MEMORY)
    hold('rows of the year', life.rows(), made - table.lost)


def main(words):
    if len(words) != 2:
        sys.exit('usage: try_year.py PROGRAM')
    program, table = Path(words[1]).resolve(), Table()
    print('| Day | What happened | Rows lost | When the observer was told |\n|---|---|---|---|')
    with tempfile.TemporaryDirectory() as folder, tempfile.TemporaryDirectory() as other:
        live_year(program, folder, table)
        table.add(Life(program, other, datetime(2025, 9, 5)), kept_summer_time)
    print(f'{table.passed} passed, {table.failed} failed')
    return 1 if table.failed else 0


if __name__ == '__main__':
    sys.exit(main(sys.argv))
