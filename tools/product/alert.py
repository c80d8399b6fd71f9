#!/usr/bin/python3
"""Runs the command of a station with the line of its check, once when something turns bad and once when all is well again.

    jofitrana-alert [--stations FOLDER] [--archives FOLDER] [-p PROGRAM] NAME

/etc/jofitrana/NAME.env has the command, for example ALERT=mail -s Weather me@example.org, and CHECK with options of the check.
A shell runs the command, with the line at its standard input and in JOFITRANA_LINE. What was told stands beside the archive
in NAME.alert. A command that fails is run again at the next check. Systemd starts this behind each check, and behind a round or a
stay that failed.
Statuses: 0, 1 if the command failed or the station cannot be read.
"""
import argparse
import fcntl
import json
import os
import shlex
import subprocess
import sys
from contextlib import contextmanager
from typing import NamedTuple

sys.dont_write_bytecode = True  # nothing is left beside an installed script
import check
from findings import Finding, Status
from stations import ARCHIVES, SETTINGS, StationFault, read_station
from whole_files import write_whole

ROUND_UNITS = {'jofitrana@': 'a round', 'jofitrana-stay@': 'a stay'}  # by how their names begin
ABSENT = -1  # the size of an archive that is not there


class Told(NamedTuple):
    """What the observer was told last: the kinds of trouble. And a round that failed, with the size of the archive then."""
    kinds: list
    failed_round: str | None = None
    size: int = ABSENT


def state_name(station):
    """The file of what was told."""
    return f'{station.archive.removesuffix(".archive")}.alert'


def told_of(station):
    """What was told; nothing if there is no file of it that can be read."""
    try:
        with open(state_name(station), encoding='utf-8') as file:
            return Told(**json.load(file))
    except (OSError, ValueError, TypeError):
        return Told([])


def size_of(station):
    """How large the archive is. Each new row makes it larger."""
    try:
        return os.path.getsize(station.archive)
    except OSError:
        return ABSENT


def failed_round(environment):
    """The round or the stay that failed and for which systemd starts this, in words."""
    unit = environment.get('MONITOR_UNIT', '')
    what = next((what for begin, what in ROUND_UNITS.items() if unit.startswith(begin)), None)
    if what is None:
        return None
    return (f'{what} failed: {environment.get("MONITOR_SERVICE_RESULT", "")} {environment.get("MONITOR_EXIT_STATUS", "")}'
            f', see journalctl -u {unit}')


def with_round(found, told, station, environment):
    """What was found with a round that failed, until a row has come since; and what is to be kept of it."""
    text, size = failed_round(environment), size_of(station)
    if text is None and told.failed_round and told.size == size:
        text = told.failed_round
    if text is None:
        return found, None
    return found._replace(findings=[*found.findings, Finding('round', Status.CRITICAL, text)]), text


def has_news(troubles, told):
    """Whether there is a trouble that was not told, or none of those that were."""
    return bool(set(troubles) - set(told.kinds)) or bool(told.kinds and not troubles)


def run_command(station, found):
    """Runs the command of the station; gives its status."""
    line = f'{station.name}: {found.line()}'
    environment = {**os.environ, 'JOFITRANA_LINE': line, 'JOFITRANA_STATION': station.name,
                   'JOFITRANA_STATUS': found.status().name}
    return subprocess.run(['/bin/sh', '-c', station.alert], input=f'{line}\n', text=True, env=environment,
                          check=False).returncode


def alert(station, found, environment):
    """Tells what is new; gives the status."""
    told = told_of(station)
    found, text = with_round(found, told, station, environment)
    troubles = found.troubles()
    if has_news(troubles, told):
        status = run_command(station, found)
        if status:
            print(f'alert: the command ended with status {status}, and is run again at the next check: {station.alert}')
            return 1
    now = Told(sorted(troubles), text, size_of(station) if text else ABSENT)
    if now != told:
        write_whole(state_name(station), json.dumps(now._asdict()) + '\n')
    return 0


@contextmanager
def turn_of(station):
    """Waits until no other alert of a station is made. Each begins with what the one before it has told."""
    with open(station.environment, encoding='utf-8') as file:
        fcntl.flock(file, fcntl.LOCK_EX)
        yield


def check_of(station, chosen):
    """What the check of a station finds."""
    options = shlex.split(station.keys.get('CHECK', ''))
    program = ['-p', chosen.program] if chosen.program else []
    folders = ['--stations', chosen.stations, '--archives', chosen.archives]
    return check.check([*options, *program, *folders, '--station', station.name])


def main():
    words = argparse.ArgumentParser(prog='alert', description='Runs the command of a station if its check has turned.')
    words.add_argument('name', metavar='NAME', help='the station')
    words.add_argument('--stations', default=SETTINGS, metavar='FOLDER', help='where NAME.env stands')
    words.add_argument('--archives', default=ARCHIVES, metavar='FOLDER', help='where NAME.archive stands')
    words.add_argument('-p', dest='program', metavar='PROGRAM', help='the program, if it is another one')
    chosen = words.parse_args()
    try:
        station = read_station(chosen.name, chosen.stations, chosen.archives)
        if station.alert is None:
            return 0
        with turn_of(station):
            return alert(station, check_of(station, chosen), os.environ)
    except (StationFault, ValueError) as fault:
        print(f'alert: {fault}')
    except OSError as fault:
        print(f'alert: {fault.filename}: {fault.strerror}')
    return 1


if __name__ == '__main__':
    sys.exit(main())
