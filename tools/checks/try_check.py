#!/usr/bin/python3
"""Tries what the check finds in the rows of an archive and of a console, on a clock that stands still.

    tools/checks/try_check.py

The last line is 'N passed, M failed', and the status is 1 if any failed.
"""
import os
import sys
import tempfile
from datetime import datetime, timedelta
from functools import cache
from pathlib import Path

sys.dont_write_bytecode = True  # nothing is left beside the scripts
import rooms  # first: the imports below are of other rooms too
import archives
import check
import reports
import rows
from trying import Differs, hold

NOW = datetime(2024, 7, 3, 12, 0)
DAY, HOUR, MINUTE = timedelta(days=1), timedelta(hours=1), timedelta(minutes=1)
MOVING = {'outTemp': (500, 700), 'outHumidity': (40, 60), 'barometer': (29_000, 30_000), 'windSpeed': (1, 9),
          'windGust': (2, 12), 'windDir': (0, 15)}
STATUSES = {'OK': 0, 'WARNING': 1, 'CRITICAL': 2, 'UNKNOWN': 3}


class Clock(datetime):
    """A clock that stands still."""
    moment = NOW

    @classmethod
    def now(cls, tz=None):
        return cls.moment.replace(tzinfo=tz)


class Listed:
    """An archive of the rows of a list."""

    def __init__(self, rows):
        self.rows = rows

    def lines(self, name, kind, first, last):
        """The lines of a report."""
        chosen = [(stamp, line) for stamp, line in self.rows if first <= (stamp - MINUTE).date().isoformat() <= last]
        if kind == 'rows':
            return [f'{line}\n' for _, line in chosen], 0
        return [f'month {month} ..\n' for month in sorted({f'{stamp - MINUTE:%Y-%m}' for stamp, _ in chosen})], 0


class Made:
    """Rows that are made for a case: so many days of them, the last one now, with values that move."""

    def __init__(self, days=9, minutes=5, last=None):
        last = last or NOW
        stamps = [last - number * minutes * MINUTE for number in range(int(days * DAY / MINUTE) // minutes)][::-1]
        self.rows = [(stamp, minutes, self.values(number)) for number, stamp in enumerate(stamps)]

    @staticmethod
    def values(number):
        """The values of a row."""
        return {name: low + number * 7 % (high - low + 1) for name, (low, high) in MOVING.items()}

    def without(self, begin, end):
        """The rows but for those from one stamp to another."""
        self.rows = [row for row in self.rows if not begin <= row[0] <= end]
        return self

    def every(self, minutes, since, claimed=None):
        """From a stamp on the rows that come every so many minutes, and what they claim."""
        kept = [row for row in self.rows if row[0] <= since]
        self.rows = kept + [(stamp, claimed or of_row, values) for stamp, of_row, values in self.rows
                            if stamp > since and stamp.hour * 60 + stamp.minute in range(0, 1440, minutes)]
        return self

    def setting(self, hours, **values):
        """These values in the rows of the last hours. None takes a value away."""
        begin = self.rows[-1][0] - hours * HOUR
        for stamp, _, row in self.rows:
            if stamp > begin:
                row.update(values)
        return self

    def listed(self):
        """The archive of the rows."""
        lines = []
        for stamp, minutes, values in self.rows:
            pairs = ''.join(f' {name}={value}' for name, value in values.items() if value is not None)
            lines.append((stamp, f'row {stamp:%Y-%m-%d %H:%M} {minutes}{pairs}'))
        return Listed(lines)


def checked(made, *options, now=NOW, zone='UTC', answers=None, archive='archive'):
    """The line of a check of rows, and its status."""
    listed, answers = made.listed(), answers or {}
    Clock.moment = now
    os.environ['TZ'] = zone
    reports.Archive.lines = lambda archive, *words: listed.lines(*words[1:])
    archives.run = lambda program, task, address, *words: answers.get(' '.join(words), ('link fault', 6))
    words = [*options] if '--station' in options else [*options, archive]
    found = check.check(words)
    return found.line(), found.status()


def hold_line(what, seen, word, *parts, lacks=()):
    """Holds a check against a status, parts that its line has, and parts that it lacks."""
    line, status = seen
    if status != STATUSES[word] or not line.startswith(f'JOFITRANA {word} - '):
        raise Differs(f'{what}: {status} {line}, in place of {word}')
    for part in parts:
        if part not in line:
            raise Differs(f'{what}: {line}, in place of {part}')
    for part in lacks:
        if part in line:
            raise Differs(f'{what}: {line}, which should not have {part}')


# Minutes of a row, minutes of age, rows that are lacking, the status; each limit, and one beyond it.
LIMITS = [
    (1, 15, 15, 'OK'), (1, 16, 0, 'WARNING'), (1, 0, 16, 'WARNING'), (1, 60, 120, 'WARNING'), (1, 61, 0, 'CRITICAL'),
    (1, 0, 121, 'CRITICAL'), (5, 15, 3, 'OK'), (5, 16, 0, 'WARNING'), (5, 0, 4, 'WARNING'), (5, 60, 24, 'WARNING'),
    (5, 61, 0, 'CRITICAL'), (5, 0, 25, 'CRITICAL'), (30, 90, 1, 'OK'), (30, 91, 0, 'WARNING'), (30, 0, 2, 'WARNING'),
    (30, 360, 4, 'WARNING'), (30, 361, 0, 'CRITICAL'), (30, 0, 5, 'CRITICAL'), (120, 360, 1, 'OK'), (120, 361, 0, 'WARNING'),
    (120, 0, 2, 'WARNING'), (120, 1440, 2, 'WARNING'), (120, 1441, 0, 'CRITICAL'), (120, 0, 3, 'CRITICAL'),
]


def aged(minutes, age, lacking):
    """Rows of which the last has an age, and of which so many are lacking before the last one."""
    made = Made(2, minutes, NOW - age * MINUTE)
    last = made.rows[-1][0]
    return made.without(last - lacking * minutes * MINUTE, last - MINUTE) if lacking else made


def limits_of_age_and_rows():
    """The limits that follow the period, and those that are given."""
    quiet = ('--gap', '9999,9999')
    for minutes, age, lacking, word in LIMITS:
        hold_line(f'{minutes} {age} {lacking}', checked(aged(minutes, age, lacking), *quiet), word, f', {age} minutes ago;',
                  f'lacks {lacking} rows', f'| age={age * 60}s lacking={lacking}')
    for options, word in ((('-w', '20,6', '-c', '30,9'), 'OK'), (('-w', '19,6', '-c', '30,9'), 'WARNING'),
                          (('-w', '20,5', '-c', '30,9'), 'WARNING'), (('-w', '10,1', '-c', '19,9'), 'CRITICAL'),
                          (('-w', '10,1', '-c', '30,5'), 'CRITICAL')):
        hold_line(options, checked(aged(5, 20, 6), *quiet, *options), word)


def gap_before_now(rows, ended=2 * DAY):
    """Rows of which so many lack some days ago."""
    end = NOW - ended
    return Made().without(end - (rows - 1) * 5 * MINUTE, end)


def longest_gap():
    """The longest gap of 31 days, its rows, and its limits."""
    hold_line('no gap', checked(Made()), 'OK', lacks=['gap'])
    for rows, word in ((1, 'OK'), (12, 'OK'), (13, 'WARNING'), (288, 'WARNING'), (289, 'CRITICAL'), (896, 'CRITICAL')):
        hold_line(f'a gap of {rows}', checked(gap_before_now(rows)), word, f'lacks {rows} rows', 'the longest gap of 31 days',
                  lacks=['gap'] if rows == 0 else ())
    begin, end = NOW - 2 * DAY - 12 * 5 * MINUTE - 5 * MINUTE, NOW - 2 * DAY + 5 * MINUTE
    hold_line('where it lies', checked(gap_before_now(13)), 'WARNING',
              f'31 days, {begin:%Y-%m-%d %H:%M} to {end:%Y-%m-%d %H:%M}, lacks 13 rows')
    two = gap_before_now(20).without(NOW - 5 * DAY, NOW - 5 * DAY + 100 * MINUTE)
    hold_line('the longer of two', checked(two), 'WARNING', 'lacks 21 rows', lacks=['lacks 20 rows'])
    hold_line('a gap that is known', checked(gap_before_now(896), '--known', '2024-07-02'), 'OK', lacks=['gap'])
    hold_line('a gap behind what is known', checked(gap_before_now(896), '--known', '2024-07-01'), 'CRITICAL')
    hold_line('other limits', checked(gap_before_now(21), '--gap', '21,22'), 'OK', 'lacks 21 rows')
    hold_line('other limits, passed', checked(gap_before_now(23), '--gap', '21,22'), 'CRITICAL', 'lacks 23 rows')
    hold_line('rows of half an hour', checked(Made(9, 30).without(NOW - 3 * DAY, NOW - 3 * DAY + 60 * MINUTE)), 'WARNING',
              'lacks 3 rows')


def gap_over_the_edge():
    """Gaps that begin before 31 days ago, and those that end before."""
    hold_line('a gap of 40 days', checked(Made(60, 30).without(NOW - 45 * DAY, NOW - 5 * DAY)), 'CRITICAL',
              f'lacks {40 * 48 + 1} rows')
    hold_line('a gap long ago', checked(Made(60, 30).without(NOW - 45 * DAY, NOW - 33 * DAY)), 'OK', lacks=['gap'])
    hold_line('a young archive', checked(Made(3)), 'OK', 'lacks 0 rows', lacks=['gap'])
    hold_line('rows that ended long ago', checked(Made(9, 5, NOW - 60 * DAY)), 'CRITICAL', '86400 minutes ago',
              'lacks 0 rows')


def silent_fields():
    """Fields without values for a day that had them for a week."""
    for hours, word in ((23, 'OK'), (24, 'WARNING'), (71, 'WARNING'), (72, 'CRITICAL')):
        named = [f'outTemp has had no value for {hours} hours' if hours < 72 else 'outTemp has had no value for 3 days']
        hold_line(f'silent for {hours} hours', checked(Made(12, 30).setting(hours, outTemp=None)), word,
                  *(named if hours >= 24 else ()), lacks=() if hours >= 24 else ['outTemp'])
    hold_line('other limits', checked(Made(12, 30).setting(5, outTemp=None), '--silent', '5,6'), 'WARNING', 'outTemp')
    hold_line('six days of values', checked(Made(8, 30).setting(24 * 2.5, outTemp=None)), 'OK', lacks=['outTemp'])
    hold_line('a field that never was', checked(Made(12, 30)), 'OK', lacks=['soilTemp1'])
    limited = Made(12, 30).setting(30, outTemp='limit')
    hold_line('beyond its limits', checked(limited), 'WARNING', 'all its values are beyond its limits')
    calm = Made(12, 30).setting(30, windSpeed=0, windGust=0, windDir=None)
    hold_line('a calm has no direction', checked(calm), 'OK', lacks=['windDir'])
    hold_line('a wind without direction', checked(Made(12, 30).setting(30, windDir=None)), 'WARNING', 'windDir has had no value')
    broken = Made(12, 30).setting(30, windSpeed=None, windGust=0, windDir=None)
    hold_line('an anemometer that is out', checked(broken), 'WARNING', 'windSpeed has had no value', lacks=['windDir'])
    away = Made(20, 30).without(NOW - 3 * DAY, NOW - 10 * MINUTE).setting(1, outTemp=None)
    hold_line('one row without behind a gap', checked(away), 'CRITICAL', 'gap', lacks=['outTemp'])
    away.rows[-2][2]['outTemp'] = None
    hold_line('rows without on both sides of a gap', checked(away), 'CRITICAL', 'gap', lacks=['outTemp'])


# Hours for which values stand, the values, the status, and whether it is named.
STANDING = [
    (23.5, {'outTemp': 650}, 'OK'), (24, {'outTemp': 650}, 'WARNING'), (72, {'outTemp': 650}, 'CRITICAL'),
    (24, {'barometer': 29_900}, 'WARNING'), (24, {'outHumidity': 94}, 'WARNING'), (24, {'outHumidity': 95}, 'OK'),
    (24 * 7 - 0.5, {'outHumidity': 100}, 'OK'), (24 * 7, {'outHumidity': 100}, 'WARNING'),
    (24, {'windSpeed': 0, 'windGust': 0}, 'OK'), (71.5, {'windSpeed': 0, 'windGust': 0}, 'OK'),
    (72, {'windSpeed': 0, 'windGust': 0}, 'WARNING'), (24, {'windSpeed': 5, 'windGust': 5}, 'WARNING'),
    (24, {'windSpeed': 0, 'windGust': 1}, 'WARNING'), (24, {'windSpeed': 1}, 'OK'), (24 * 7 - 0.5, {'inTemp': 680}, 'OK'),
    (24 * 7, {'inTemp': 680}, 'WARNING'),
]


def stuck_sensors():
    """Values that stand, and those that may."""
    for hours, values, word in STANDING:
        name = 'wind' if 'windSpeed' in values else next(iter(values))
        parts = () if word == 'OK' else (f'{name} has stood at ',)
        hold_line(f'{values} for {hours} hours', checked(Made(12, 30).setting(hours, **values)), word, *parts,
                  lacks=() if parts else ['stood'])
    hold_line('other limits', checked(Made(12, 30).setting(5, outTemp=1), '--stuck', '5,6'), 'WARNING', 'outTemp has stood at 1')
    away = Made(20, 30).without(NOW - 3 * DAY, NOW - 10 * MINUTE)
    away.rows[-1][2]['outTemp'] = away.rows[-2][2]['outTemp'] = away.rows[-3][2]['outTemp']
    hold_line('the same on both sides of a gap', checked(away), 'CRITICAL', 'gap', lacks=['stood'])


def periods():
    """A period that was changed, in the console alone and in the settings too."""
    since = NOW - 10 * HOUR
    hold_line('of the console alone', checked(Made().every(10, since)), 'CRITICAL',
              f'rows come every 10 minutes since {since:%Y-%m-%d %H:%M} and claim 5', 'lacks 0 rows', lacks=['gap'])
    later = Made().every(10, since)
    later.rows = [(stamp, 10 if stamp > NOW - 5 * HOUR else minutes, values) for stamp, minutes, values in later.rows]
    hold_line('of the settings later', checked(later), 'OK', 'rows are of 10 minutes since', 'lacks 0 rows', lacks=['gap', 'every'])
    hold_line('for an hour', checked(Made().every(10, NOW - HOUR)), 'WARNING', 'every 10 minutes', 'lacks 0 rows')
    asked = checked(Made().every(10, NOW - HOUR), '--console', 'there:1', answers=answers_of(NOW, '0a'))
    hold_line('of the console, which is asked', asked, 'CRITICAL', 'a record every 10 minutes')
    hold_line('of both', checked(Made().every(10, since, 10)), 'OK', 'rows are of 10 minutes since', 'were of 5 before',
              'lacks 0 rows', lacks=['gap'])
    shorter = Made(9, 5)
    shorter.rows = [(stamp, 30, values) for stamp, _, values in shorter.rows]
    hold_line('a shorter one of the console', checked(shorter), 'CRITICAL', 'rows come every 5 minutes', 'claim 30')
    two = Made().without(NOW - 5 * MINUTE, NOW - 5 * MINUTE).without(NOW - 15 * MINUTE, NOW - 15 * MINUTE)
    hold_line('two single rows that lack', checked(two), 'OK', 'day up to it lacks 2 rows', lacks=['every'])


def ahead_of_the_clock():
    """A clock that is ahead, and one that was set back."""
    with tempfile.TemporaryDirectory() as folder:
        archive = Path(folder, 'roof.archive')
        archive.touch()
        for minutes, word in ((5, 'OK'), (6, 'WARNING'), (60, 'WARNING'), (61, 'CRITICAL')):
            made = Made(9, 5, NOW + minutes * MINUTE)
            os.utime(archive, (0, NOW.timestamp() - 15 * 60))
            hold_line(f'{minutes} ahead', checked(made, archive=str(archive)), word,
                      *(['is ahead', 'rows are still added'] if minutes > 5 else ()), lacks=['set back'])
            os.utime(archive, (0, NOW.timestamp() - 15 * 60 - 1))
            hold_line(f'{minutes} ahead and still', checked(made, archive=str(archive)), 'CRITICAL' if minutes > 5 else 'OK',
                      *(['was set back', 'no record is added'] if minutes > 5 else ()), lacks=['still added'])
    future = Made()
    future.rows.append((NOW + 900 * DAY, 5, Made.values(1)))
    hold_line('a row far ahead makes no gap', checked(future), 'CRITICAL', 'ahead', lacks=['gap'])


def answers_of(shown, period='05'):
    """What a console answers whose clock shows this."""
    return {'time': (f'time {shown:%Y-%m-%d %H:%M:%S}', 0), 'eeprom read 2D 1': (period, 0)}


def consoles():
    """What a console shows, and that a later warning hides nothing critical."""
    asked = ('--console', 'there:1')
    for behind, word, part in (
            (5, 'OK', 'lacks 0'), (6, 'WARNING', '6 minutes behind'), (61, 'CRITICAL', '61 minutes behind'),
            (-5, 'OK', 'lacks 0'), (-6, 'WARNING', '6 minutes ahead'), (-61, 'CRITICAL', '61 minutes ahead')):
        made = Made(9, 5, NOW - max(behind, 0) * MINUTE)
        seen = checked(made, *asked, '-w', '99,9', '-c', '99,9', answers=answers_of(NOW - behind * MINUTE))
        hold_line(f'{behind} behind', seen, word, part)
    old = Made(9, 5, NOW - 61 * MINUTE)
    hold_line('an old row and no answer', checked(old, *asked), 'CRITICAL', '61 minutes ago', 'time: link fault',
              'eeprom: link fault')
    hold_line('an old row and a clock ahead', checked(old, *asked, answers=answers_of(NOW + 30 * MINUTE)), 'CRITICAL',
              '30 minutes ahead')
    back = {'time': ('time 2024-07-03 11:00:00', 0)}
    hold_line('set back and no period', checked(Made(), *asked, answers=back), 'CRITICAL', 'it was set back',
              'eeprom: link fault')
    silent_and_old = Made(12, 5, NOW - 61 * MINUTE).setting(30, outTemp=None)
    hold_line('an old row and a silent field', checked(silent_and_old), 'CRITICAL', 'outTemp has had no value')
    hold_line('another period', checked(Made(), *asked, answers=answers_of(NOW, '0a')), 'CRITICAL', 'a record every 10 minutes')


def station_folder(folder, zone='UTC'):
    """A station's files; gives the options that name it."""
    Path(folder, 'roof.env').write_text(f'ADDRESS=there:1\nTZ={zone}\n')
    Path(folder, 'roof.toml').write_text('period = 5\n')
    Path(folder, 'roof.archive').touch()
    return ('--stations', folder, '--archives', folder, '--station', 'roof')


def noted_consoles():
    """What a check notes of a console, for the checks behind it."""
    with tempfile.TemporaryDirectory() as folder:
        station = station_folder(folder)
        ahead = answers_of(NOW + 9 * MINUTE)
        hold_line('no note', checked(Made(), *station), 'OK', lacks=['console'])
        hold_line('asked', checked(Made(), *station, '--console', answers=ahead), 'WARNING', '9 minutes ahead')
        later = NOW + HOUR
        hold_line('an hour later', checked(Made(9, 5, later), *station, now=later), 'WARNING',
                  "the console's clock showed at 2024-07-03 12:00", '9 minutes ahead')
        late = NOW + 3 * DAY
        hold_line('three days later', checked(Made(9, 5, late), *station, now=late), 'WARNING', '9 minutes ahead')
        late = NOW + 3 * DAY + HOUR
        hold_line('longer', checked(Made(9, 5, late), *station, now=late), 'OK', lacks=['console'])
        back = answers_of(NOW - 3 * HOUR)
        hold_line('set back', checked(Made(), *station, '--console', answers=back), 'CRITICAL', 'it was set back')
        hold_line('still set back', checked(Made(), *station, now=NOW + 5 * MINUTE), 'CRITICAL', 'it was set back')
        hold_line('set right since', checked(Made(9, 5, later), *station, now=later), 'OK', lacks=['console'])
        hold_line('asked again', checked(Made(), *station, '--console', answers=answers_of(NOW)), 'OK')
        hold_line('good since', checked(Made(), *station), 'OK', lacks=['console'])
        Path(folder, 'roof.toml').write_text('period = 10\n')
        hold_line('a period of the settings alone', checked(Made(), *station), 'CRITICAL', 'a record every 5 minutes')
        changed = Made().every(10, NOW - 5 * HOUR, 10)
        hold_line('a period that was changed since', checked(changed, *station), 'OK', lacks=['a record every'])
        Path(folder, 'roof.console').write_text('{')
        hold_line('half a note', checked(Made(), *station), 'OK', lacks=['console'])
        hold('what is left', sorted(os.listdir(folder)), ['roof.archive', 'roof.console', 'roof.env', 'roof.toml'])


def stations():
    """The zone, the archive and the settings of a station."""
    with tempfile.TemporaryDirectory() as folder:
        station = station_folder(folder, '<+01>-01')
        hold_line('its zone', checked(Made(), *station, zone='Europe/Berlin'), 'OK', ' 0 minutes ago')
        wrong = checked(Made(), *station, '--console', zone='Nowhere', answers=answers_of(NOW, '0a'))
        hold_line('its settings', wrong, 'CRITICAL', f'{folder}/roof.toml has 5')
        hold_line('a name that is none', checked(Made(), *station[:-1], 'other'), 'UNKNOWN', 'other.env: No such file')
        hold_line('a station and an archive', checked(Made(), *station, 'archive'), 'UNKNOWN', 'usage')
        Path(folder, 'roof.env').write_text('TZ=<+01>-01\n')
        hold_line('no address', checked(Made(), *station, '--console'), 'UNKNOWN', 'has no ADDRESS')
    hold_line('a console and no station', checked(Made(), '--console', archive='--silent=24,72'), 'UNKNOWN', 'usage')
    hold_line('a zone that is none', checked(Made(), zone='Europe/Nowhere'), 'UNKNOWN', 'TZ=Europe/Nowhere is no time zone')


AUTUMN, SPRING = datetime(2024, 10, 27, 3, 0), datetime(2024, 3, 31, 3, 0)


def summer_time():
    """Both ends of the summer time of a console that keeps it."""
    will = '02:00 to 03:00 of 2024-10-27 will come twice'
    for days, word, parts in ((32, 'OK', []), (30, 'OK', [will]), (8, 'OK', [will]), (6, 'WARNING', [will])):
        now = AUTUMN - days * DAY
        hold_line(f'{days} days before', checked(Made(9, 5, now), now=now, zone='Europe/Berlin'), word, *parts,
                  lacks=[] if parts else ['twice'])
        hold_line('a console that keeps none', checked(Made(9, 5, now), now=now, zone='<+01>-01'), 'OK', lacks=['twice'])
    now = AUTUMN + 9 * HOUR
    hold_line('an hour that was lost', checked(Made(9, 5, now), now=now, zone='Europe/Berlin'), 'WARNING', 'lacks 12 rows',
              '2024-10-27 02:55 to 2024-10-27 03:00', lacks=['twice'])
    now = SPRING + 9 * HOUR
    jumped = Made(9, 5, now).without(SPRING - HOUR, SPRING - MINUTE)
    hold_line('an hour that never was', checked(jumped, now=now, zone='Europe/Berlin'), 'OK', 'lacks 0 rows', lacks=['gap'])
    hold_line('an hour that lacks', checked(jumped, now=now, zone='UTC'), 'WARNING', 'lacks 12 rows')


CASES = (limits_of_age_and_rows, longest_gap, gap_over_the_edge, silent_fields, stuck_sensors, periods, ahead_of_the_clock,
         consoles, noted_consoles, stations, summer_time)


def main():
    check.datetime = Clock
    rows.counted_row = cache(rows.counted_row)  # the cases have most rows in common
    passed = failed = 0
    for case in CASES:
        try:
            case()
            passed += 1
        except Exception as reason:  # whatever it is, the other cases go on
            failed += 1
            print(f'{case.__name__} failed: {reason!r:.600}', file=sys.stderr)
    print(f'{passed} passed, {failed} failed')
    sys.exit(failed > 0)


if __name__ == '__main__':
    main()
