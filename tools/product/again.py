#!/usr/bin/python3
"""Serves a modelled console, or an archive, to one caller after another and to several at once.

    jofitrana-again console SETTINGS SCHEDULE ADDRESS
    jofitrana-again serve ARCHIVE ADDRESS

The program's own commands `console` and `serve` end with their first caller. This runs the command anew for each caller, at a port
that nobody else has, and hands the bytes over. So each caller has a console of its own, which begins as the schedule says, or
the rows that the archive has as the call comes. It runs until Control-C, which is its good end.
Statuses: 0 stopped, 2 words out of form, 6 the address is taken; else the status with which the program refused the files.
"""
import argparse
import os
import re
import selectors
import signal
import socket
import subprocess
import sys
import threading
import time
from contextlib import contextmanager, suppress

LINK_FAULT = 6
ADDRESS = re.compile('(.+):([0-9]{1,5})')
FILES = {'console': ['SETTINGS', 'SCHEDULE'], 'serve': ['ARCHIVE']}
TURNS = '1000000'
AT_ONCE = 32  # callers; others wait until one is done
PIECE_BYTES = 65_536
TRIES = 5  # of a port that somebody else may take meanwhile
BEGIN_SECONDS, GLANCE_SECONDS = 30, 0.02


RUNS = set()  # of the program


class Refused(Exception):
    """The program's line in place of serving, and its status."""

    def __init__(self, line, status):
        super().__init__(line)
        self.status = status


def free_port():
    """A port of this machine that nobody has."""
    with socket.socket() as door:
        door.bind(('127.0.0.1', 0))
        return door.getsockname()[1]


def connected(process, port):
    """A connection to a process that is to listen at a port; nothing if it ended before."""
    end = time.monotonic() + BEGIN_SECONDS
    while time.monotonic() < end:
        if process.poll() is not None:
            return None
        with suppress(ConnectionRefusedError):
            return socket.create_connection(('127.0.0.1', port))
        time.sleep(GLANCE_SECONDS)
    raise Refused('the program does not serve', LINK_FAULT)


@contextmanager
def served(command):
    """A connection to a run of the program of its own, which ends with it."""
    for _ in range(TRIES):
        port = free_port()
        process = subprocess.Popen([*command, f'127.0.0.1:{port}', TURNS], stdout=subprocess.PIPE, text=True)
        RUNS.add(process)
        try:
            line = connected(process, port)
            if line:
                with line:
                    yield line
                return
            status = process.wait()
            if status != LINK_FAULT:
                raise Refused(process.stdout.read().strip() or f'status {status}', status)
        finally:
            process.kill()
            process.communicate()
            RUNS.discard(process)
    raise Refused('the program found no free port', LINK_FAULT)


def hand_over(caller, line):
    """Hands over what either side sends, until the program's side ends."""
    other = {caller: line, line: caller}
    with selectors.DefaultSelector() as waiting:
        for side in other:
            waiting.register(side, selectors.EVENT_READ)
        while line in waiting.get_map():
            for key, _ in waiting.select():
                piece = key.fileobj.recv(PIECE_BYTES)
                if piece:
                    other[key.fileobj].sendall(piece)
                else:
                    waiting.unregister(key.fileobj)
                    other[key.fileobj].shutdown(socket.SHUT_WR)


def answer(caller, command, room):
    """Answers a caller by a run of the program."""
    try:
        with caller, served(command) as line:
            hand_over(caller, line)
    except Refused as reason:
        print(f'again: {reason}', file=sys.stderr, flush=True)
    except OSError:
        pass  # the caller is gone
    finally:
        room.release()


def serve(door, command):
    """Answers callers until the end."""
    room = threading.Semaphore(AT_ONCE)
    while True:
        room.acquire()
        caller, _ = door.accept()
        threading.Thread(target=answer, args=(caller, command, room), daemon=True).start()


def stop(*_):
    """Ends the tool and all runs of the program."""
    for process in list(RUNS):
        process.kill()
    sys.exit(0)


def chosen_words():
    """The command of the program, without its address, and the place at which callers come."""
    words = argparse.ArgumentParser(prog='again', description='Serves a console or an archive to many callers.')
    words.add_argument('--program', default='jofitrana')
    commands = words.add_subparsers(dest='command', required=True)
    for name, files in FILES.items():
        command = commands.add_parser(name)
        for file in [*files, 'ADDRESS']:
            command.add_argument(file)
    chosen = vars(words.parse_args())
    address = ADDRESS.fullmatch(chosen['ADDRESS'])
    if not address:
        words.error(f'{chosen["ADDRESS"]} is no address, as 127.0.0.1:22222')
    command = [chosen['program'], chosen['command'], *(chosen[file] for file in FILES[chosen['command']])]
    return command, (address[1].strip('[]'), int(address[2]))


def main():
    command, place = chosen_words()
    for number in (signal.SIGINT, signal.SIGTERM):
        signal.signal(number, stop)
    try:
        with served(command):
            pass  # the files are good
        with socket.create_server(place) as door:
            serve(door, command)
    except Refused as reason:
        print(f'again: {reason}', file=sys.stderr)
        sys.exit(reason.status)
    except (OSError, OverflowError) as fault:
        why = os.strerror(fault.errno) if getattr(fault, 'errno', None) else fault
        print(f'again: {place[0]}:{place[1]}: {why}', file=sys.stderr)
        sys.exit(LINK_FAULT)


if __name__ == '__main__':
    main()
