#!/usr/bin/python3
"""Takes the live packets of a console for some time, and adds each to a file with the moment at which it was heard.

    jofitrana-packets --station NAME SECONDS FILE
    jofitrana-packets ADDRESS SECONDS FILE

With `--station` the address and the zone of the console's clock are the station's. ADDRESS is a name or a number, a colon and a port, for example 192.168.1.20:22222. SECONDS is a whole number of 1 to 10
digits, at least 1. FILE is made if it is not there. Each entry of it has 104 bytes: a moment and a packet (docs/FORMATS.md).
Moments are the zone's time without summer time, that of this machine if no other one is given, and rise from entry to entry.
A damaged packet is passed over. So is one within the second of the last entry, or by a clock that went back: standard error
names each of these. If FILE ends with a part of an entry, that part is cut off first.
Control-C ends the run as the end of the seconds does. The last line says how many packets were taken and passed over.
Statuses: 0 done, 1 words out of form, 4 no answer of the console, 6 link fault, 9 FILE cannot be written.
"""
import argparse
import binascii
import errno
import fcntl
import os
import re
import signal
import socket
import stat
import struct
import sys
import time
from collections import Counter
from contextlib import contextmanager, suppress
from typing import NamedTuple

sys.dont_write_bytecode = True  # nothing is left beside an installed script
import stations

# What is said and heard, by the Davis serial manual.
LF, ACK, AWAKE = b'\n', b'\x06', b'\n\r'
ASK = b'LOOP %d\n'
PACKETS = 100  # that are asked for at once: so many may come yet after a run that was killed
ANSWER_SECONDS = 1.2
MARK, PACKET_BYTES = b'LOO', 99
TYPE, TYPE_PLACE = 0, 4
END, END_PLACE = b'\n\r', 95

# A packet comes every two seconds. If none comes for so long, the console is asked again.
PACKET_SECONDS = 7
TRIES = 3  # in a row without a packet

CALL_SECONDS = 5  # for each address of a name
SAY_SECONDS = 10
QUIET_SECONDS = 0.4  # as long may Control-C take
LEAST_SECONDS = 0.001  # 0 would be no wait
PIECE_BYTES = 4096

ENTRY = struct.Struct(f'<HHB{PACKET_BYTES}s')
MARK_PLACE = ENTRY.size - PACKET_BYTES
MOST_WORD = 0xFFFF
SYNC_SECONDS = 60
UNSYNCED_BYTES = (SYNC_SECONDS + 2) * ENTRY.size  # that a loss of power may harm: an entry each second, and a part

DAMAGED, SAME_SECOND, WENT_BACK, WRONG_YEAR = 'damaged', 'same second', 'clock went back', 'clock out of range'
DONE, USAGE, SILENT, LINK_FAULT, FILE_FAULT = 0, 1, 4, 6, 9

ADDRESS = re.compile('(.+):([0-9]{1,5})')
MOST_PORT = 65_535
SECONDS = re.compile('[0-9]{1,10}')


class Trouble(Exception):
    """What ends a run early, and its status."""

    def __init__(self, status, text):
        super().__init__(text)
        self.status = status


@contextmanager
def link_faults():
    """Makes each failure of the system a fault of the link."""
    try:
        yield
    except (OSError, UnicodeError) as fault:  # a name may have no form in bytes
        raise Trouble(LINK_FAULT, 'link fault') from fault


@contextmanager
def file_faults(name):
    """Makes each failure of the system one of a file, and names the cause."""
    try:
        yield
    except OSError as fault:
        raise Trouble(FILE_FAULT, f'{name}: {fault.strerror}') from fault


def say(text):
    """Prints what an observer may want to know."""
    with suppress(OSError):
        print(text, file=sys.stderr)


class Moment(NamedTuple):
    """A second as an entry has it. A later one is greater."""
    date: int
    time: int
    second: int

    def __str__(self):
        return (f'{2000 + self.date // 512}-{self.date // 32 % 16:02}-{self.date % 32:02}'
                f' {self.time // 100:02}:{self.time % 100:02}:{self.second:02}')


def this_moment():
    """What a clock of this machine's zone shows that keeps no summer time."""
    now = time.gmtime(time.time() - time.timezone)
    return Moment(now.tm_mday + 32 * now.tm_mon + 512 * (now.tm_year - 2000), 100 * now.tm_hour + now.tm_min, now.tm_sec)


def reason_against(moment, last):
    """Why an entry of this moment cannot follow the last one, if so."""
    if not 0 < moment.date <= MOST_WORD:
        return WRONG_YEAR
    if last is None or moment > last:
        return None
    return SAME_SECOND if moment == last else WENT_BACK


def is_packet(data):
    """Whether bytes are a whole packet: its mark, its type, its end and its check are good."""
    return (len(data) == PACKET_BYTES and data.startswith(MARK) and data[TYPE_PLACE] == TYPE
            and data.startswith(END, END_PLACE) and binascii.crc_hqx(data, 0) == 0)


class PacketFile:
    """A file of entries, to which this run alone adds."""

    def __init__(self, name):
        self.name = name
        self.last = None  # the moment of the last entry
        self.size = 0     # the bytes of the whole entries
        self.synced = time.monotonic()
        with file_faults(name):
            self.file = os.open(name, os.O_RDWR | os.O_CREAT | os.O_APPEND, 0o666)
            self.lock()
            self.keep_whole()

    def __enter__(self):
        return self

    def __exit__(self, *_):
        try:
            with file_faults(self.name):
                self.sync()
        finally:
            os.close(self.file)

    def lock(self):
        """Keeps other runs from the file, which has to be a plain one."""
        if not stat.S_ISREG(os.fstat(self.file).st_mode):
            raise Trouble(FILE_FAULT, f'{self.name} is no plain file')
        try:
            fcntl.flock(self.file, fcntl.LOCK_EX | fcntl.LOCK_NB)
        except BlockingIOError:
            raise Trouble(FILE_FAULT, f'{self.name} is open in another run') from None

    def is_entry(self, place):
        """Whether a whole entry stands at a place."""
        return is_packet(os.pread(self.file, ENTRY.size, place)[MARK_PLACE:])

    def keep_whole(self):
        """Cuts off what stands behind the last whole entry. A file that holds other things is refused, and kept."""
        size = os.fstat(self.file).st_size
        is_part = size < ENTRY.size and MARK.startswith(os.pread(self.file, len(MARK), MARK_PLACE))
        if not is_part and not self.is_entry(0):
            raise Trouble(FILE_FAULT, f'{self.name} holds other things than packets, and was not changed')
        whole = size - size % ENTRY.size
        while whole and size - whole <= UNSYNCED_BYTES and not self.is_entry(whole - ENTRY.size):
            whole -= ENTRY.size
        if size - whole > UNSYNCED_BYTES:
            raise Trouble(FILE_FAULT, f'{self.name} is damaged from byte {whole} on, and was not changed')
        if whole:
            self.last = Moment(*ENTRY.unpack(os.pread(self.file, ENTRY.size, whole - ENTRY.size))[:-1])
        if whole < size:
            os.ftruncate(self.file, whole)
            say(f'{self.name}: {size - whole} bytes behind the last whole entry were cut off')
        self.size = whole

    def add(self, moment, packet):
        """Adds an entry by one write. What a full disk took of it is cut off again."""
        with file_faults(self.name):
            written = os.write(self.file, ENTRY.pack(*moment, packet))
            if written < ENTRY.size:
                os.ftruncate(self.file, self.size)
                raise OSError(errno.ENOSPC, f'the disk took {written} of {ENTRY.size} bytes')
            self.size += written
            self.last = moment
            if time.monotonic() - self.synced >= SYNC_SECONDS:
                self.sync()

    def sync(self):
        """Waits until the disk has all entries."""
        os.fsync(self.file)
        self.synced = time.monotonic()


class Line:
    """A line to a console over TCP."""

    def __init__(self, host, port):
        with link_faults():
            self.socket = socket.create_connection((host, port), CALL_SECONDS)
            if self.socket.getsockname() == self.socket.getpeername():
                raise ConnectionRefusedError  # a system may connect a call to itself where nobody listens
            self.socket.setsockopt(socket.IPPROTO_TCP, socket.TCP_NODELAY, 1)

    def __enter__(self):
        return self

    def __exit__(self, *_):
        with suppress(Trouble):
            self.say(LF)  # any byte ends the packets
        self.socket.close()

    def say(self, message):
        """Says all of a message."""
        with link_faults():
            self.socket.settimeout(SAY_SECONDS)
            self.socket.sendall(message)

    def hear(self, seconds):
        """What comes next, or nothing if so many seconds pass."""
        with link_faults():
            self.socket.settimeout(max(seconds, LEAST_SECONDS))
            try:
                piece = self.socket.recv(PIECE_BYTES)
            except TimeoutError:
                return b''
            if not piece:
                raise ConnectionResetError
            return piece


class Span:
    """The seconds of a run, which Control-C ends early."""

    def __init__(self, seconds):
        self.end = time.monotonic() + seconds
        for number in (signal.SIGINT, signal.SIGTERM):
            signal.signal(number, self.stop)

    def stop(self, *_):
        """Ends it now."""
        self.end = time.monotonic()

    def left(self, until):
        """The seconds until a moment, or until its end if that comes first."""
        return min(until, self.end) - time.monotonic()

    def is_over(self):
        """Whether it has ended."""
        return self.left(self.end) <= 0


class Console:
    """A console that is asked for packets within a span, and what was heard of it last."""

    def __init__(self, line, span):
        self.line, self.span = line, span
        self.heard = b''
        self.damaged = 0

    def hear(self, until):
        """Hears on for a quiet wait, or until a moment."""
        self.heard += self.line.hear(min(self.span.left(until), QUIET_SECONDS))

    def answers(self, message, wanted):
        """Says a message; tells whether it is answered so."""
        self.heard = b''
        self.line.say(message)
        until = time.monotonic() + ANSWER_SECONDS
        while wanted not in self.heard and self.span.left(until) > 0:
            self.hear(until)
        _, answer, self.heard = self.heard.partition(wanted)
        return answer == wanted

    def next_packet(self):
        """Takes the next packet out of what was heard: nothing if it is damaged, and None if it is not there yet."""
        start = self.heard.find(MARK)
        if start < 0:
            self.heard = self.heard[1 - len(MARK):]  # the mark may have begun
            return None
        packet = self.heard[start:start + PACKET_BYTES]
        if len(packet) < PACKET_BYTES:
            return None
        is_whole = is_packet(packet)
        self.heard = self.heard[start + (PACKET_BYTES if is_whole else len(MARK)):]
        return packet if is_whole else b''

    def packets(self):
        """Wakes the console and asks for packets. Gives them as they come, until all did or none comes for some seconds."""
        if not (self.answers(LF, AWAKE) and self.answers(ASK % PACKETS, ACK)):
            return
        seen, until = 0, time.monotonic() + PACKET_SECONDS
        while seen < PACKETS and self.span.left(until) > 0:
            packet = self.next_packet()
            if packet is None:
                self.hear(until)
                continue
            seen += 1
            self.damaged += packet == b''
            if packet:
                yield packet
                until = time.monotonic() + PACKET_SECONDS
        if seen < PACKETS and MARK in self.heard and not self.span.is_over():
            self.damaged += 1  # its end did not come


class Taking:
    """A run: the packets that were taken into a file, and those that were passed over."""

    def __init__(self, console, file):
        self.console, self.file = console, file
        self.taken = 0
        self.passed = Counter()

    def take(self, packet):
        """Adds a packet that was heard now, or passes over it."""
        moment = this_moment()
        reason = reason_against(moment, self.file.last)
        if reason is None:
            self.file.add(moment, packet)
            self.taken += 1
            return
        self.passed[reason] += 1
        last = f', the last entry is of {self.file.last}' if self.file.last else ''
        say(f'packet of {moment} passed over: {reason}{last}')

    def take_all(self, span):
        """Asks for packets and takes them until the span is over."""
        tries = 0
        while not span.is_over():
            if tries == TRIES:
                raise Trouble(SILENT, 'the console does not answer')
            tries += 1
            for packet in self.console.packets():
                self.take(packet)
                tries = 0

    def summary(self):
        """How many packets were taken, and how many were passed over and why."""
        passed = self.passed + Counter({DAMAGED: self.console.damaged})  # without those that did not come
        why = ', '.join(f'{reason} {count}' for reason, count in passed.items())
        return f'packets taken {self.taken}, passed over {passed.total()}' + (f' ({why})' if why else '')


def run(place, seconds, name):
    """Takes the packets of the console at a place for so many seconds into the file of a name."""
    with PacketFile(name) as file, Line(*place) as line:
        span = Span(seconds)
        taking = Taking(Console(line, span), file)
        try:
            taking.take_all(span)
        finally:
            print(taking.summary(), flush=True)


class Words(argparse.ArgumentParser):
    """The words of the command line, which end with the usage if they are out of form."""

    def error(self, message):
        self.exit(USAGE, f'{__doc__}\npackets: {message}\n')


def place_of(address):
    """The host and the port of an address, if it is one."""
    match = ADDRESS.fullmatch(address or '')
    return (match[1].strip('[]'), int(match[2])) if match and int(match[2]) <= MOST_PORT else None


def take_zone(station):
    """Has this process live by the zone of a station's console."""
    if station.zone:
        os.environ['TZ'] = station.keys['TZ']
        time.tzset()


def chosen_words():
    """The place of the console, the seconds and the name of the file, by the command line."""
    words = Words(prog='packets', usage=argparse.SUPPRESS)
    words.add_argument('names', nargs='*')
    stations.add_station_option(words)
    chosen = words.parse_intermixed_args()
    try:
        station = stations.station_of(chosen)
    except stations.StationFault as fault:
        words.error(fault)
    if station:
        take_zone(station)
        chosen.names.insert(0, station.address)
    place = place_of(chosen.names[0]) if len(chosen.names) == 3 else None
    if not place or not SECONDS.fullmatch(chosen.names[1]) or int(chosen.names[1]) == 0:
        words.error('an address, some seconds and a file are wanted')
    return place, int(chosen.names[1]), chosen.names[2]


def main():
    """Runs the words of the command line; gives the status."""
    place, seconds, name = chosen_words()
    try:
        run(place, seconds, name)
    except Trouble as trouble:
        say(trouble)
        return trouble.status
    except KeyboardInterrupt:
        pass  # before the console answered the call
    return DONE


if __name__ == '__main__':
    sys.exit(main())
