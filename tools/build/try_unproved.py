#!/usr/bin/env python3
"""Runs a command of the station on the program as it is, before any proof.

    ./station try COMMAND WORDS..

The program is compiled with checks and runs in a folder of its own, with a copy of each file that a word names. Standard
output and the status are the program's. Status 64: not a command to try. Status 70: the program did not end.
"""
import os
import re
import shlex
import signal
import subprocess
import sys
from pathlib import Path

TOP = str(Path(__file__).resolve().parents[2])
NOT_TRIED = ('station', 'stay', 'copy', 'import', 'task', 'install', 'uninstall')
TAKEN = ('.', '..', 'program', 'stdin', 'stdout', 'stderr')  # names in the folder that the program runs in

STEPS = 1  # of the toolchain's interpreter, which few commands can run on
SECONDS = 86_400  # of the compiled program: a modelled console may serve for hours

# Statuses: that of no command to try, of a run without an end, and the number below those of runs that a signal ended.
NO_COMMAND = 64
FAILED = 70
SIGNAL = 128
ENDED = re.compile(r'^run=ended status=(\d+) ', re.M)


def say(text):
    """Prints a line for the user."""
    print(f'station: {text}', file=sys.stderr, flush=True)


def handed_over(words):
    """The words as the program gets them, and the files that they name by names in its folder."""
    given, files = [], {}
    for number, word in enumerate(words):
        if os.path.isfile(word) and os.access(word, os.R_OK):
            is_plain = word not in TAKEN and not set('/=') & set(word)
            name = word if is_plain else f'{number}-{os.path.basename(word).replace("=", "-")}'
            files[name] = os.path.abspath(word)
            word = name
        given.append(word)
    return given, files


def tried(words):
    """Runs the words on the unproved program, and returns its status and what the toolchain said."""
    given, files = handed_over(words)
    data = [part for name, file in files.items() for part in ('--data', f'{name}={file}')]
    run = subprocess.Popen(
        ['rt', 'try', '--steps', str(STEPS), '--seconds', str(SECONDS), *data, '--', *given],
        cwd=f'{TOP}/crates/station_program', stdin=subprocess.DEVNULL, stderr=subprocess.PIPE, start_new_session=True,
        text=True, errors='replace')
    for number in (signal.SIGINT, signal.SIGTERM, signal.SIGHUP):
        signal.signal(number, lambda number, _: run.send_signal(number))
    said = run.communicate()[1]
    return run.returncode, said


def main(words):
    if not words or words[0] in NOT_TRIED:
        say('station, stay, copy, import and task keep or send something, so they are for the proved program alone;'
            ' try takes replay, make, console, report, pages and soft')
        return NO_COMMAND
    say(f'unproved: this is the program before any proof. To prove it first: ./station {shlex.join(words)}')
    try:
        status, said = tried(words)
    except FileNotFoundError:
        say('the toolchain is missing: there is no command rt')
        return FAILED
    if ENDED.search(said) or status > SIGNAL:
        return status
    print(said, end='', file=sys.stderr)
    say('the program did not end')
    return FAILED


if __name__ == '__main__':
    sys.exit(main(sys.argv[1:]))
