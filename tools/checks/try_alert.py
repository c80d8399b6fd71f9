#!/usr/bin/python3
"""Tries when the command of an alert is run, and with which line.

    tools/checks/try_alert.py

The last line is 'N passed, M failed', and the status is 1 if any failed.
"""
import contextlib
import io
import os
import subprocess
import sys
import tempfile
from datetime import datetime, timedelta
from pathlib import Path

sys.dont_write_bytecode = True  # nothing is left beside the scripts
import rooms  # first: the imports below are of other rooms too
import alert
from findings import Finding, Found, Status
from stations import read_station
from trying import hold

TOOLS = Path(__file__).resolve().parent.parent
GOOD = Finding('age', Status.OK, 'last row 2024-07-03 12:00, 0 minutes ago')
OLD = Finding('age', Status.WARNING, 'last row 2024-07-03 12:00, 20 minutes ago')
OLDER = Finding('age', Status.CRITICAL, 'last row 2024-07-03 12:00, 70 minutes ago')
SILENT = Finding('silent outTemp', Status.WARNING, 'outTemp has had no value for 24 hours')
ROUND = {'MONITOR_UNIT': 'jofitrana@roof.service', 'MONITOR_SERVICE_RESULT': 'exit-code', 'MONITOR_EXIT_STATUS': '7'}
STAY = ROUND | {'MONITOR_UNIT': 'jofitrana-stay@roof.service', 'MONITOR_EXIT_STATUS': '2'}
COMMAND_SECONDS = 2  # of a command that takes its time
CHECK = {'MONITOR_UNIT': 'jofitrana-check@roof.service', 'MONITOR_EXIT_STATUS': '1'}


class Trial:
    """A station whose command adds its standard input to a file."""

    def __init__(self, folder, command='cat >>"$FOLDER/told"'):
        self.folder = Path(folder)
        os.environ['FOLDER'] = folder
        (self.folder / 'roof.env').write_text(f"ALERT='{command}'\nTZ=UTC\n")
        (self.folder / 'roof.archive').touch()
        self.station = read_station('roof', folder, folder)

    def alert(self, *findings, environment=None):
        """What the command was told of these findings, and the status."""
        with contextlib.redirect_stdout(io.StringIO()) as said:
            status = alert.alert(self.station, Found(list(findings)), environment or CHECK)
        told = self.folder / 'told'
        lines = told.read_text().splitlines() if told.exists() else []
        told.unlink(missing_ok=True)
        return lines, status, said.getvalue()

    def told(self, *findings, environment=None):
        """The lines that the command was told."""
        return self.alert(*findings, environment=environment)[0]


def once_bad_and_once_well(folder):
    """The command is run once when something turns bad, and once when all is well."""
    trial = Trial(folder)
    hold('well at first', trial.told(GOOD), [])
    hold('bad', trial.told(OLD), [f'roof: JOFITRANA WARNING - {OLD.text}'])
    hold('bad again', trial.told(OLD), [])
    hold('worse', trial.told(OLDER), [])
    hold('well', trial.told(GOOD), [f'roof: JOFITRANA OK - {GOOD.text}'])
    hold('well again', trial.told(GOOD), [])
    hold('bad once more', trial.told(OLDER), [f'roof: JOFITRANA CRITICAL - {OLDER.text}'])


def other_troubles(folder):
    """A trouble beside another one is told; the end of one of two is not."""
    trial = Trial(folder)
    trial.told(GOOD, SILENT)
    hold('another', trial.told(OLD, SILENT), [f'roof: JOFITRANA WARNING - {OLD.text}; {SILENT.text}'])
    hold('one of two ends', trial.told(GOOD, SILENT), [])
    hold('it comes again', len(trial.told(OLD, SILENT)), 1)
    hold('both end', trial.told(GOOD), [f'roof: JOFITRANA OK - {GOOD.text}'])


def failed_rounds(folder):
    """A round or a stay that failed is told once, and is over with the next row."""
    trial = Trial(folder)
    line = 'roof: JOFITRANA CRITICAL - {}; a round failed: exit-code 7, see journalctl -u jofitrana@roof.service'
    hold('a round', trial.told(GOOD, environment=ROUND), [line.format(GOOD.text)])
    hold('the next round', trial.told(GOOD, environment=ROUND), [])
    hold('a check behind it', trial.told(GOOD), [])
    trial.station = read_station('roof', folder, folder)
    Path(trial.station.archive).write_bytes(b'row')
    hold('a check behind a row', trial.told(GOOD), [f'roof: JOFITRANA OK - {GOOD.text}'])
    line = 'roof: JOFITRANA CRITICAL - {}; a stay failed: exit-code 2, see journalctl -u jofitrana-stay@roof.service'
    hold('a stay', trial.told(GOOD, environment=STAY), [line.format(GOOD.text)])


def commands(folder):
    """A command that fails is run again; what it is given."""
    trial = Trial(folder, 'cat >>"$FOLDER/told"; false')
    lines, status, said = trial.alert(OLD)
    hold('a command that fails', (len(lines), status, 'is run again at the next check' in said), (1, 1, True))
    hold('it is run again', len(trial.told(OLD)), 1)
    trial = Trial(folder, 'echo "$JOFITRANA_STATION $JOFITRANA_STATUS $JOFITRANA_LINE" >>"$FOLDER/told"')
    hold('its environment', trial.told(OLD), [f'roof WARNING roof: JOFITRANA WARNING - {OLD.text}'])
    hold('what is left', sorted(os.listdir(folder)), ['roof.alert', 'roof.archive', 'roof.env'])
    (trial.folder / 'roof.alert').write_text('{"kinds"')
    hold('half a state', len(trial.told(OLD)), 1)


def a_whole_run(folder):
    """The tool itself, over a program that reports rows: a cable that is out, with the options of CHECK."""
    trial = Trial(folder)
    last = datetime.now() - timedelta(minutes=20)
    program = trial.folder / 'program'
    program.write_text(f"#!/bin/sh\n[ \"$3\" = months ] || echo 'row {last:%Y-%m-%d %H:%M} 5 outTemp=650'\n")
    program.chmod(0o755)

    def run(check=''):
        (trial.folder / 'roof.env').write_text(f"ALERT='cat >>{folder}/told'\nCHECK={check}\n")
        ran = subprocess.run([TOOLS / 'product/alert.py', '-p', program, '--stations', folder, '--archives', folder, 'roof'], text=True,
                             stdout=subprocess.PIPE, check=False)
        told = trial.folder / 'told'
        lines = told.read_text().splitlines() if told.exists() else []
        told.unlink(missing_ok=True)
        return [line.split(' - ')[0] for line in lines], ran.returncode, ran.stdout

    hold('with other limits', run('-w 99,9'), ([], 0, ''))
    hold('an old row', run(), (['roof: JOFITRANA WARNING'], 0, ''))
    hold('again', run(), ([], 0, ''))
    hold('well', run('-w 99,9'), (['roof: JOFITRANA OK'], 0, ''))
    (trial.folder / 'roof.env').write_text('TZ=UTC\n')
    ran = subprocess.run([TOOLS / 'product/alert.py', '--stations', folder, 'roof'], check=False)
    hold('no command', ran.returncode, 0)


def two_at_once(folder):
    """Two alerts that systemd starts at one moment, behind a check and behind a round: the second knows what the first has told."""
    trial = Trial(folder)
    program = trial.folder / 'program'
    program.write_text('#!/bin/sh\nexit 7\n')
    program.chmod(0o755)
    (trial.folder / 'roof.env').write_text(f"ALERT='cat >>{folder}/told; sleep {COMMAND_SECONDS}'\n")
    words = [TOOLS / 'product/alert.py', '-p', program, '--stations', folder, '--archives', folder, 'roof']
    both = [subprocess.Popen(words) for _ in range(2)]
    hold('their statuses', [one.wait() for one in both], [0, 0])
    hold('what was told', (trial.folder / 'told').read_text().count('JOFITRANA CRITICAL'), 1)


CASES = (once_bad_and_once_well, other_troubles, failed_rounds, commands, a_whole_run, two_at_once)


def main():
    passed = failed = 0
    for case in CASES:
        with tempfile.TemporaryDirectory() as folder:
            try:
                case(folder)
                passed += 1
            except Exception as reason:  # whatever it is, the other cases go on
                failed += 1
                print(f'{case.__name__} failed: {reason!r:.600}', file=sys.stderr)
    print(f'{passed} passed, {failed} failed')
    sys.exit(failed > 0)


if __name__ == '__main__':
    main()
