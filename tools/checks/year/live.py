#!/usr/bin/python3
"""Serves a console of scripted life whose clock goes with this machine's, at a port or at a serial adapter that it stands for.

    tools/checks/year/live.py [--days N] [--period MINUTES] HOST:PORT
    tools/checks/year/live.py [--days N] [--period MINUTES] --adapter NAME

It has the records of the last days, and from then on one more each period. With an adapter NAME is a link to a pseudo-terminal that
the group dialout may use. It answers one caller after another until it is ended.
"""
import argparse
import os
import pty
import shutil
import socket
import sys
import tty
from contextlib import suppress
from datetime import datetime, timedelta, timezone
from pathlib import Path
from threading import Thread

sys.dont_write_bytecode = True  # nothing is left beside the scripts
sys.path.insert(0, str(Path(__file__).resolve().parent.parent))
from fake_console import PERIOD_PLACE
from year.console import MINUTE, Console

GROUP, MODE = 'dialout', 0o660  # of an adapter
PIECE_BYTES = 4096


def utc_now():
    """This moment in UTC."""
    return datetime.now(timezone.utc).replace(tzinfo=None)


class LiveConsole(Console):
    """A console whose clock goes on."""

    def __init__(self, days, period):
        super().__init__((utc_now() - timedelta(days=days)).replace(second=0, microsecond=0))
        self.memory[PERIOD_PLACE] = period
        self.of_minute = timedelta(0)  # the part of a minute that has passed

    def go_on(self):
        """Lets the time pass that has passed."""
        minutes, rest = divmod(utc_now() - self.moment, MINUTE)
        self.of_minute = timedelta(0)
        self.pass_minutes(minutes)
        self.of_minute = rest

    def shown(self):
        """What its clock shows."""
        return super().shown() + self.of_minute

    def show(self, stamp):
        """Sets its clock."""
        super().show(stamp - self.of_minute)

    def answer(self, caller, line):
        """Answers a command line."""
        self.go_on()
        super().answer(caller, line)


def pump(take, give):
    """Hands bytes over until the end."""
    while True:
        give(take(PIECE_BYTES))


def adapter_line(name):
    """A line to a pseudo-terminal with a name, which stands for a serial adapter. It stays, whoever opens and closes the adapter."""
    end, plug = pty.openpty()  # the plug stays open
    tty.setraw(plug)
    device = os.ttyname(plug)
    shutil.chown(device, group=GROUP)
    os.chmod(device, MODE)
    Path(name).parent.mkdir(parents=True, exist_ok=True)
    Path(name).unlink(missing_ok=True)
    Path(name).symlink_to(device)
    line, other = socket.socketpair()
    for take, give in ((other.recv, lambda data: os.write(end, data)), (lambda count: os.read(end, count), other.sendall)):
        Thread(target=pump, args=(take, give), daemon=True).start()
    return line


def serve(console, place):
    """Answers one caller after another."""
    with socket.create_server(place) as door:
        while True:
            caller, _ = door.accept()
            with caller, suppress(ConnectionError):
                console.serve(caller)


def main():
    words = argparse.ArgumentParser(description='Serves a console of scripted life.')
    words.add_argument('--days', type=int, default=2, help='so long it has been recording')
    words.add_argument('--period', type=int, default=5)
    words.add_argument('--adapter', metavar='NAME')
    words.add_argument('place', nargs='?', metavar='HOST:PORT')
    chosen = words.parse_args()
    console = LiveConsole(chosen.days, chosen.period)
    if chosen.adapter:
        console.serve(adapter_line(chosen.adapter))
    host, port = (chosen.place or words.error('a place or an adapter is wanted')).rsplit(':', 1)
    serve(console, (host, int(port)))


if __name__ == '__main__':
    main()
