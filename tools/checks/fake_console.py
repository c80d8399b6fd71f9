#!/usr/bin/python3
"""Answers at a port of this machine as a console whose clock, memory and records are chosen, to try the tools on.

    tools/checks/fake_console.py [--host HOST] [--kind N] [--clock STAMP] [--byte PLACE=VALUE ..] [--run STAMP COUNT ..] [--mood MOOD] PORT

It answers one caller after another until it is ended. PLACE and VALUE are hexadecimal, STAMP is YYYY-MM-DD HH:MM. The
clock shows this machine's time if no other is chosen, and goes on. Each run is COUNT records, a period apart; stamps of
a run may lie before those of the run before, as of a clock that was set back. A console that is `asleep` answers
nothing. One that is `sending` sends a live packet every two seconds, and one that is `flooding` sends without a pause.
"""
import argparse
import binascii
import socket
import struct
from datetime import datetime, timedelta

ACK, NO, BAD_FRAME, CANCEL = b'\x06', b'\x21', b'\x18', b'\x1b'
WAKE_ANSWER = b'\n\r'
MEMORY_BYTES = 4096
SUMMER_BY_HAND, PERIOD_PLACE = 0x12, 0x2D
RECORD_BYTES, RECORDS_OF_PAGE = 52, 5
PACKET_SECONDS, PACKET_BYTES = 2, 99
PACKET_MARK, PACKET_END, PACKET_END_PLACE = b'LOO', b'\n\r', 95
FLOOD_BYTES = 65_536
STAMP_BYTES, TIME_BYTES, CHECK_BYTES = 4, 6, 2


def sealed(body):
    """The bytes with their check behind them."""
    return body + struct.pack('>H', binascii.crc_hqx(body, 0))


def words_of(stamp):
    """The date word and the time word of a stamp."""
    return stamp.day + 32 * stamp.month + 512 * (stamp.year - 2000), 100 * stamp.hour + stamp.minute


def record(stamp):
    """An archive record of revision B with 65.0 F outside."""
    body = bytearray(b'\xff' * RECORD_BYTES)
    struct.pack_into('<HHhhhHHHHHh', body, 0, *words_of(stamp), 650, 650, 650, 0, 0, 30_000, 0x7FFF, 100, 680)
    body[25] = body[29] = body[42] = 0  # gust, evapotranspiration, revision
    return bytes(body)


def pages_of(records):
    """The pages of a dump of these records."""
    pages = []
    for first in range(0, len(records), RECORDS_OF_PAGE):
        slots = b''.join(records[first:first + RECORDS_OF_PAGE]).ljust(RECORD_BYTES * RECORDS_OF_PAGE, b'\xff')
        pages.append(sealed(bytes([len(pages) % 256]) + slots + bytes(4)))
    return pages


def live_packet():
    """A packet of which all values are zero."""
    body = bytearray(PACKET_BYTES - CHECK_BYTES)
    body[:len(PACKET_MARK)] = PACKET_MARK
    body[PACKET_END_PLACE:] = PACKET_END
    return sealed(bytes(body))


class Console:
    """A console with its clock, memory and records."""

    def __init__(self, chosen):
        self.kind, self.mood = chosen.kind, chosen.mood
        self.ahead = chosen.clock - datetime.now() if chosen.clock else timedelta()
        self.memory = bytearray(MEMORY_BYTES)
        self.memory[SUMMER_BY_HAND], self.memory[PERIOD_PLACE] = 1, 5
        for place, value in chosen.byte:
            self.memory[place] = value
        period = timedelta(minutes=self.memory[PERIOD_PLACE])
        self.stamps = [first + count * period for first, many in chosen.run for count in range(many)]

    def shown(self):
        """What its clock shows."""
        return datetime.now() + self.ahead

    def show(self, stamp):
        """Sets its clock."""
        self.ahead = stamp - datetime.now()

    def newer(self, after):
        """The records with words above these."""
        return [record(stamp) for stamp in self.stamps if words_of(stamp) > after]

    def serve(self, caller):
        """Answers a caller until it is gone."""
        if self.mood == 'flooding':
            caller.sendall(bytes(FLOOD_BYTES))
        caller.settimeout(PACKET_SECONDS if self.mood == 'sending' else None)
        line = b''
        while True:
            try:
                heard = caller.recv(1)
            except TimeoutError:
                caller.sendall(bytes(PACKET_BYTES))
                continue
            if not heard:
                return
            line += heard
            if line.endswith(b'\n') and not self.mood:
                self.answer(caller, line[:-1])
                line = b''

    def answer(self, caller, line):
        """Answers a command line."""
        word, *numbers = line.split(b' ')
        if not line:
            caller.sendall(WAKE_ANSWER)
        elif word == b'WRD\x12\x4d':
            caller.sendall(ACK + bytes([self.kind]))
        elif word == b'GETTIME':
            now = self.shown()
            caller.sendall(ACK + sealed(bytes([now.second, now.minute, now.hour, now.day, now.month, now.year - 1900])))
        elif word == b'SETTIME':
            self.set_clock(caller)
        elif word == b'EEBRD':
            place, count = (int(number, 16) for number in numbers)
            caller.sendall(ACK + sealed(bytes(self.memory[place:place + count])))
        elif word == b'DMPAFT':
            self.dump(caller)
        elif word == b'LOOP':
            self.send_packets(caller, int(numbers[0]))
        else:
            caller.sendall(NO)

    def send_packets(self, caller, count):
        """Sends so many packets, until the caller sends a byte."""
        caller.sendall(ACK)
        caller.settimeout(PACKET_SECONDS)
        for _ in range(count):
            try:
                caller.recv(1)
                break
            except TimeoutError:
                caller.sendall(live_packet())
        caller.settimeout(None)

    def frame(self, caller, size):
        """Takes a frame of so many bytes with a good check, or else nothing."""
        caller.sendall(ACK)
        heard = caller.recv(size + CHECK_BYTES, socket.MSG_WAITALL)
        good = heard == sealed(heard[:size])
        caller.sendall(ACK if good else BAD_FRAME)
        return heard[:size] if good else None

    def set_clock(self, caller):
        """Takes the time that the caller says."""
        frame = self.frame(caller, TIME_BYTES)
        if frame:
            second, minute, hour, day, month, year = frame
            self.show(datetime(1900 + year, month, day, hour, minute, second))

    def dump(self, caller):
        """Sends the records that are later than the stamp that the caller says."""
        frame = self.frame(caller, STAMP_BYTES)
        if frame is None:
            return
        after = struct.unpack('<HH', frame)
        pages = pages_of(self.newer(after))
        caller.sendall(sealed(struct.pack('<HH', len(pages), 0)))
        for page in [*pages, None]:
            heard = caller.recv(1)
            if heard != ACK or page is None:
                return
            caller.sendall(page)


def stamp_named(text):
    """The stamp of a text."""
    return datetime.strptime(text, '%Y-%m-%d %H:%M')


def byte_named(text):
    """A place of the memory and the byte that stands there."""
    place, value = text.split('=')
    return int(place, 16), int(value, 16)


class Run(argparse.Action):
    """Takes the first stamp of a run and its number of records."""

    def __call__(self, parser, chosen, values, option=None):
        chosen.run = [*chosen.run, (stamp_named(values[0]), int(values[1]))]


def main():
    words = argparse.ArgumentParser(prog='fake_console', description='Answers as a console of an odd kind.')
    words.add_argument('port', type=int)
    words.add_argument('--host', default='127.0.0.1')
    words.add_argument('--kind', type=int, default=16)
    words.add_argument('--clock', type=stamp_named)
    words.add_argument('--byte', type=byte_named, action='append', default=[])
    words.add_argument('--run', nargs=2, action=Run, default=[])
    words.add_argument('--mood', choices=['asleep', 'sending', 'flooding'])
    chosen = words.parse_args()
    console = Console(chosen)
    with socket.create_server((chosen.host, chosen.port)) as door:
        while True:
            caller, _ = door.accept()
            with caller:
                try:
                    console.serve(caller)
                except ConnectionError:
                    pass


if __name__ == '__main__':
    main()
