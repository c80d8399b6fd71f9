#!/usr/bin/python3
"""Reports how old the last row of an archive is and what is wrong with the rows of the last 31 days, as a plugin of Nagios
does: one line, and status 0 (good), 1 (warning), 2 (critical) or 3 (unknown).

    jofitrana-check [OPTIONS] ARCHIVE
    jofitrana-check [OPTIONS] --station NAME [--console]

A pair of limits is WARNING,CRITICAL, and what is beyond it is a warning or critical. With a console its clock and period are
compared with the archive, and with the settings if they are given. This machine's clock has to show the console's time: set
TZ if it does not. With `--station` archive, settings, address and zone are those of the station, and what was seen of its
console is noted beside the archive for the checks that come later.
"""
import argparse
import os
import re
import sys
from contextlib import suppress
from datetime import date, datetime, timedelta
from typing import NamedTuple

sys.dont_write_bytecode = True  # nothing is left beside an installed script
import archives
import console_findings as consoles
import row_fields
import row_gaps
import rows as row_lines
import summer_time
from findings import Ended, Finding, Found, Limits, Status
from reports import FIRST_DAY, LAST_DAY, Archive, Refused
from stations import StationFault, add_station_option, station_of
from zones import NoZone, zone_named

USAGE = 'usage: check [-w MINUTES,ROWS] [-c MINUTES,ROWS] [OPTIONS] ARCHIVE, or check [OPTIONS] --station NAME: see man jofitrana'
PAIR = re.compile(r'([0-9]+),([0-9]+)')
MONTH_LETTERS = len('2000-01')
NO_ARCHIVE = (7, 11)  # statuses of a report of what is absent, damaged or of another kind

DAY, HOUR, MINUTE = timedelta(days=1), timedelta(hours=1), timedelta(minutes=1)
WATCHED = timedelta(days=31)
SOON = timedelta(days=7)  # so long before an hour is lost it becomes a warning
WARNING_MINUTES, CRITICAL_MINUTES = 15, 60
WARNING_PERIODS, CRITICAL_PERIODS = 3, 12
WARNING_LACKING_MINUTES, CRITICAL_LACKING_MINUTES = 15, 120
CLOCK_MINUTES = Limits(5, 60)
FIELD_HOURS = Limits(24, 72)
GAP_MINUTES = Limits(60, 1440)


class Subject(NamedTuple):
    """What is checked, and at what moment by its clock."""
    archive: Archive
    settings: str | None
    address: str | None
    zone: object  # None is that of this machine
    now: datetime
    is_station: bool


class Words(argparse.ArgumentParser):
    """A command line whose faults are a line of a plugin."""

    def error(self, message):
        raise Ended(Status.UNKNOWN, USAGE, 'usage')


def pair(text):
    """The limits of a text."""
    match = PAIR.fullmatch(text)
    if not match:
        raise argparse.ArgumentTypeError(text)
    return Limits(int(match[1]), int(match[2]))


def default_program():
    """The program of this checkout, or else the installed one."""
    built = os.path.join(os.path.dirname(os.path.realpath(__file__)), '../../crates/station_program/out/station_program')
    return built if os.access(built, os.X_OK) else 'jofitrana'


def words():
    """The options of the command line."""
    parser = Words(prog='check', description='Checks an archive, as a plugin of Nagios does.', allow_abbrev=False)
    parser.add_argument('archive', nargs='?')
    parser.add_argument('-w', dest='warning', type=pair, metavar='MINUTES,ROWS', help='the limits of a warning')
    parser.add_argument('-c', dest='critical', type=pair, metavar='MINUTES,ROWS', help='the limits of what is critical')
    parser.add_argument('--gap', type=pair, metavar='ROWS,ROWS', help='rows that may lack in the longest gap of 31 days')
    parser.add_argument('--known', type=datetime.fromisoformat, default=datetime.min, metavar='STAMP',
                        help='gaps that end up to this stamp are known, and left out')
    parser.add_argument('--silent', type=pair, default=FIELD_HOURS, metavar='HOURS,HOURS', help='a field without values')
    parser.add_argument('--stuck', type=pair, default=FIELD_HOURS, metavar='HOURS,HOURS', help='a value that does not move')
    parser.add_argument('--clock', type=pair, default=CLOCK_MINUTES, metavar='MINUTES,MINUTES', help='two clocks that differ')
    parser.add_argument('-p', dest='program', default=default_program(), metavar='PROGRAM', help='the program')
    parser.add_argument('--settings', metavar='FILE', help='the settings of the station')
    parser.add_argument('--console', nargs='?', const='', metavar='ADDRESS', help='ask the console too')
    add_station_option(parser, '--stations')
    return parser


def zone_of_machine():
    """The zone of TZ; None without it."""
    name = os.environ.get('TZ', '')
    try:
        return zone_named(name) if name else None
    except NoZone as fault:
        raise Ended(Status.UNKNOWN, f'TZ={fault}', 'zone') from None


def subject_of(chosen):
    """What the words of the command line name."""
    try:
        station = station_of(chosen)
    except StationFault as fault:
        raise Ended(Status.UNKNOWN, str(fault), 'station') from None
    if (station is None) == (chosen.archive is None) or station is None and chosen.console == '':
        raise Ended(Status.UNKNOWN, USAGE, 'usage')
    zone = station.zone if station and station.zone else zone_of_machine()
    now = datetime.now(zone).replace(tzinfo=None, microsecond=0)
    if station is None:
        return Subject(Archive(chosen.program, chosen.archive), chosen.settings, chosen.console, zone, now, False)
    address = None if chosen.console is None else chosen.console or station.address
    if chosen.console == '' and not address:
        raise Ended(Status.UNKNOWN, f'{station.environment} has no ADDRESS', 'station')
    return Subject(Archive(chosen.program, station.archive), chosen.settings or station.settings, address, zone, now, True)


def lines_of(archive, kind, first, last):
    """The lines of a report. Ends if the program refuses it."""
    try:
        lines, status = archive.lines('report', archive.name, kind, first.isoformat(), last.isoformat())
        said = lines[-1].rstrip() if lines else f'status {status}'
        if status:
            is_archive = status not in NO_ARCHIVE
            raise Ended(Status.UNKNOWN if is_archive else Status.CRITICAL,
                        f'the program refused the report: {said}' if is_archive else f'{archive.name}: {said}')
        return [row_lines.whole(line) for line in lines]
    except (Refused, row_lines.NotRows) as reason:
        raise Ended(Status.UNKNOWN, str(reason), 'program') from None


def lines_before(archive, day):
    """The row lines of the last month before a day that has rows, if there is one."""
    months = lines_of(archive, 'months', FIRST_DAY, day - DAY)
    if not months:
        return []
    month = date.fromisoformat(f'{months[-1].split()[1][:MONTH_LETTERS]}-01')
    return lines_of(archive, 'rows', month, day - DAY)


def watched_lines(subject):
    """The row lines of the last 31 days, with that of the row before them if they begin later. Without any, older ones."""
    begin = subject.now - WATCHED
    lines = lines_of(subject.archive, 'rows', begin.date(), LAST_DAY)
    if not lines:
        lines = lines_before(subject.archive, begin.date())
    elif row_lines.counted_row(lines[0]).stamp > begin + DAY:
        lines = lines_before(subject.archive, begin.date())[-1:] + lines
    if not lines:
        raise Ended(Status.CRITICAL, f'{subject.archive.name} has no row')
    return lines


def age_finding(subject, last, limits):
    """How old the last row is, and the minutes."""
    now = subject.now.replace(second=0)
    age = row_gaps.Clock(subject.zone).minutes(last.stamp, now)
    text = f'{age} minutes ago' if age >= 0 else f'{-age} minutes ahead of the clock'
    return Finding('age', limits.beyond(age), f'last row {last.stamp:%Y-%m-%d %H:%M}, {text}'), age


def rows_still_come(subject, limits):
    """Whether the archive was written a short time ago; also where that is not known."""
    try:
        written = os.stat(subject.archive.name).st_mtime
    except OSError:
        return True
    return subject.now.replace(tzinfo=subject.zone).timestamp() - written <= limits.warning * MINUTE.total_seconds()


def ahead_finding(subject, age, chosen, limits):
    """The finding of a last row that is ahead of this machine's clock."""
    status = chosen.clock.beyond(-age)
    if status == Status.OK:
        return None
    if rows_still_come(subject, limits):
        return Finding('ahead', status, "the console's clock is ahead, or TZ is not its zone; rows are still added")
    return Finding('set back', Status.CRITICAL, "the console's clock was set back, or that row's stamp was wrong: no record is "
                   'added until its clock passes that row')


def gap_finding(steps, subject, chosen):
    """The finding of the longest gap, if there is one."""
    latest = subject.now + timedelta(minutes=chosen.clock.warning)
    gap = row_gaps.longest_gap([step for step in steps if step.row.stamp > chosen.known], latest)
    if not gap:
        return None
    limits = chosen.gap or Limits(*(limit / gap.claimed() for limit in GAP_MINUTES))
    return Finding(f'gap {gap.before.stamp:%Y-%m-%d %H:%M}', limits.beyond(gap.lacking()),
                   f'the longest gap of 31 days, {gap.before.stamp:%Y-%m-%d %H:%M} to {gap.row.stamp:%Y-%m-%d %H:%M}, '
                   f'lacks {gap.lacking()} rows')


def rows_period_finding(steps, clock):
    """The finding of rows that come otherwise than they claim, or that have come to claim another period."""
    same = row_gaps.last_of_other_period(steps)
    if same:
        first, last = same
        minutes = clock.minutes(first.before.stamp, last.row.stamp)
        status = Status.CRITICAL if minutes > CRITICAL_LACKING_MINUTES else Status.WARNING
        return Finding('period', status, f'rows come every {last.minutes} minutes since {first.before.stamp:%Y-%m-%d %H:%M} and '
                       f'claim {last.claimed()}: the console has another period than the settings')
    change = row_gaps.last_change(steps)
    if not change:
        return None
    return Finding('new period', Status.OK, f'rows are of {change.claimed()} minutes since {change.row.stamp:%Y-%m-%d %H:%M}, '
                   f'and were of {change.before.interval // MINUTE} before')


def hours_text(length):
    """A time in hours, or in days if it is long."""
    hours = length // HOUR
    return f'{hours} hours' if hours < 72 else f'{hours // 24} days'


def field_findings(rows, limited, chosen):
    """The findings of fields that are silent or stand still."""
    found = []
    for field in row_fields.silent_fields(rows):
        why = ', since all its values are beyond its limits' if field.name in limited else ''
        found.append(Finding(f'silent {field.name}', chosen.silent.reached(field.length / HOUR),
                             f'{field.name} has had no value for {hours_text(field.length)}{why}'))
    for sensor in row_fields.stuck_sensors(rows):
        found.append(Finding(f'stuck {sensor.title}', chosen.stuck.times(sensor.patience).reached(sensor.length / HOUR),
                             f'{sensor.title} has stood at {sensor.text} for {hours_text(sensor.length)}'))
    return [finding for finding in found if finding.status != Status.OK]


def summer_finding(subject):
    """The finding of an hour that is going to be lost, if a zone was named that has summer time."""
    twice = summer_time.next_twice(subject.zone, subject.now) if subject.zone else None
    if not twice:
        return None
    status = Status.WARNING if twice.begin - subject.now <= SOON else Status.OK
    return Finding('summer time', status, f'{twice.text()} will come twice as summer time ends, and its second time will be lost')


def console_findings(subject, steps, last, chosen):
    """The findings of the console, if it is to be asked, or else of the note of an earlier check."""
    claimed = last.interval // MINUTE
    if subject.address is None:
        noted = consoles.remembered(subject.archive.name) if subject.is_station else None
        if not noted or not consoles.still_holds(noted, subject.now, last.stamp):
            return []
        clock = consoles.clock_finding(noted, chosen.clock, f'showed at {noted.now:%Y-%m-%d %H:%M}')
        has_period = bool(steps) and steps[-1].minutes == noted.period
        return [clock, consoles.period_finding(noted.period, subject.settings, claimed) if has_period else None]
    asked, period, troubles = consoles.ask_console(chosen.program, subject.address, subject.now, last.stamp)
    if asked and subject.is_station:
        with suppress(PermissionError):  # a user who may just read gets the line all the same
            consoles.remember(asked, subject.archive.name)
    clock = consoles.clock_finding(asked, chosen.clock) if asked else None
    return [*troubles, clock, consoles.period_finding(period, subject.settings, claimed)]


def age_limits(chosen, period):
    """The limits of the last row's minutes and of the rows that lack in a day."""
    warning = chosen.warning or (max(WARNING_MINUTES, WARNING_PERIODS * period), max(WARNING_LACKING_MINUTES // period, 1))
    critical = chosen.critical or (max(CRITICAL_MINUTES, CRITICAL_PERIODS * period),
                                   max(CRITICAL_LACKING_MINUTES // period, 2))
    return Limits(warning[0], critical[0]), Limits(warning[1], critical[1])


def one_of_kind(findings):
    """The findings, of each kind the worst alone."""
    worst = {}
    for finding in filter(None, findings):
        if finding.kind not in worst or finding.status > worst[finding.kind].status:
            worst[finding.kind] = finding
    return list(worst.values())


def found_in(chosen):
    """What a check of these words finds."""
    subject = subject_of(chosen)
    refusal = archives.refusal_of(subject.archive.name)
    if refusal:
        raise Ended(Status.UNKNOWN, refusal)
    lines = watched_lines(subject)
    rows = [row_lines.counted_row(line) for line in lines]
    clock, last = row_gaps.Clock(subject.zone), rows[-1]
    minutes, lacks = age_limits(chosen, last.interval // MINUTE)
    steps = row_gaps.steps_of(rows, clock)
    age, old = age_finding(subject, last, minutes)
    lacking = row_gaps.lacking_in_day(steps, clock)
    findings = [age, Finding('lacking', lacks.beyond(lacking), f'the day up to it lacks {lacking} rows'),
                ahead_finding(subject, old, chosen, minutes), gap_finding(steps, subject, chosen),
                rows_period_finding(steps, clock), *field_findings(rows, re.findall(r'(\w+)=limit', lines[-1]), chosen),
                *console_findings(subject, steps, last, chosen), summer_finding(subject)]
    return Found(one_of_kind(findings), f'age={old * 60}s lacking={lacking}')


def check(command):
    """What a check of the words of a command line finds."""
    try:
        return found_in(words().parse_args(command))
    except Ended as ended:
        return ended.found
    except row_lines.NotRows as reason:
        return Ended(Status.UNKNOWN, str(reason), 'program').found
    except OSError as fault:
        return Ended(Status.UNKNOWN, f'{fault.filename}: {fault.strerror}').found


def main():
    found = check(sys.argv[1:])
    print(found.line())
    sys.exit(found.status())


if __name__ == '__main__':
    main()
