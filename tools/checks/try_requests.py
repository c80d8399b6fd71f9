#!/usr/bin/env python3
"""Compares what a built program says to requests over loopback with what a plain model of it says.

    tools/checks/try_requests.py PROGRAM [CASES [SEED]]

Each of so many cases, 60 if no number is given, has a random archive, and random requests that are sent in random pieces.
Other cases try a caller who reads byte by byte, a line that does not end, and an archive to which rows are added meanwhile.
A case that fails while the machine runs others is tried again. Each case that differs is named. The last line is 'N passed,
M failed', and the status is 1 if any failed. The same cases come of the same seed.
"""
import os
import random
import socket
import sys
import time
from pathlib import Path

sys.dont_write_bytecode = True  # nothing is left beside the scripts

import rooms  # first: the imports below are of other rooms too
from held_port import held_port
from model.archive import CLOSED_GATE, THIS_VERSION, head_slot, sealed_batch, slots_to_add
from model.random_archives import random_rows
from model.serve import LONGEST_REQUEST, answers
from model.stamps import archive_day, date_of
from trying import MOST_TEXT, SLEEPER, Differs, Ended, hold, try_case

CASES = 60
SEED = "1"
TURNS = 1_000_000  # so the caller leaves first
MOST_ROWS = 40
MOST_REQUESTS = 12
MOST_PIECE = 300  # bytes
TO_BEGIN = 10  # seconds within which the program listens
TO_ANSWER = 5  # seconds
ROOM = 65_536  # bytes that are received at once
LONG_LINE = 10_000_000  # bytes
MOST_HELD = 16_384  # KB of memory
BETWEEN_BYTES = 0.001  # seconds
ALL_ROWS = b"rows 1999-12-31 2127-12-31\n"
NOTHING_MORE = 0.05  # seconds in which no other byte may come
ODD_LINES = (b"", b"count ", b"Count", b"last\r", b"rows", b"rows 2024-07-01", b"day 2024-7-1", b"day  2024-07-01", b"end",
             b"\xff\xfe", b"count\x00", b"day 2024-02-30", b"rows 1999-12-30 2024-07-01")
LEFT = Ended(6, "link fault\n")


def archive_of(rows):
    """The bytes of an archive to which these rows were added one by one."""
    batches = [sealed_batch(slots_to_add(rows[:number], [row])) for number, row in enumerate(rows)]
    return head_slot(THIS_VERSION) + b"".join(batches) + CLOSED_GATE


def random_day(chance, rows):
    """The text of a day near the rows."""
    days = [archive_day(row.stamp) for row in rows] or [9_000]
    return str(date_of(max(0, chance.choice(days) + chance.choice((0, 0, 0, 1, -1)))))


def random_line(chance, rows):
    """A request, or something like one."""
    choice = chance.random()
    if choice < 0.15:
        return chance.choice(ODD_LINES)
    if choice < 0.25:
        return b"x" * chance.choice((LONGEST_REQUEST - 1, LONGEST_REQUEST, LONGEST_REQUEST + 1, 10 * LONGEST_REQUEST))
    if choice < 0.55:
        return chance.choice((b"count", b"last"))
    days = [random_day(chance, rows) for _ in range(2)]
    return (f"day {days[0]}" if choice < 0.75 else f"rows {days[0]} {days[1]}").encode()


def random_pieces(chance, data):
    """The data in pieces, of which some may go out together."""
    while data:
        size = chance.choice((1, 2, 7, chance.randint(1, MOST_PIECE), MOST_PIECE))
        yield data[:size]
        data = data[size:]


def call(port):
    """A line to the program, once it waits for a call."""
    began = SLEEPER.now()
    while True:
        try:
            return socket.create_connection(("127.0.0.1", port), timeout=TO_ANSWER)
        except ConnectionRefusedError:
            if began.is_over(TO_BEGIN):
                raise Differs("nobody waits for a call") from None
            time.sleep(0.01)


def received(line, size):
    """So many bytes, and what comes right behind them."""
    data = b""
    try:
        while len(data) < size:
            piece = line.recv(ROOM)
            if not piece:
                return data
            data += piece
    except TimeoutError:
        return data
    line.settimeout(NOTHING_MORE)
    try:
        return data + line.recv(ROOM)
    except TimeoutError:
        return data


def ask(program, rows, talk):
    """Serves an archive of these rows to a caller, who leaves at the end."""
    program.write("a", archive_of(rows))
    with held_port() as port, program.start(f"serve a 127.0.0.1:{port} {TURNS}") as run:
        with call(port) as line:
            talk(line, run)
        hold("the end", run.end(), LEFT)


def random_requests(chance, program):
    """Random requests in random pieces."""
    rows = random_rows(chance, MOST_ROWS)
    lines = [random_line(chance, rows) + b"\n" for _ in range(chance.randint(1, MOST_REQUESTS))]
    heard = b"".join(lines) + chance.choice((b"", b"count", b"las"))
    wanted = answers(rows, heard)

    def talk(line, _):
        for piece in random_pieces(chance, heard):
            line.sendall(piece)
        hold(f"said to {heard!r}", received(line, len(wanted)), wanted)

    ask(program, rows, talk)


def request_byte_by_byte(chance, program):
    """Each byte of a request goes out by itself, and each byte of its answer is read by itself."""
    rows = random_rows(chance, MOST_ROWS)
    heard = ALL_ROWS + b"count\n"
    wanted = answers(rows, heard)

    def talk(line, _):
        line.setsockopt(socket.IPPROTO_TCP, socket.TCP_NODELAY, 1)
        for byte in heard:
            line.sendall(bytes([byte]))
            time.sleep(BETWEEN_BYTES)
        hold("read byte by byte", b"".join(line.recv(1) for _ in wanted), wanted)

    ask(program, rows, talk)


def line_without_end(chance, program):
    """Of a line of ten megabytes a few bytes are held, and it is answered as it ends."""
    rows = random_rows(chance, MOST_ROWS)
    long_line = b"x" * LONG_LINE + b"\n"
    wanted = answers(rows, long_line + b"count\n")

    def talk(line, run):
        line.sendall(long_line + b"count\n")
        hold("said to a long line", received(line, len(wanted)), wanted)
        status = Path(f"/proc/{run.process.pid}/status").read_text(encoding="ascii")
        held = int(status.split("VmHWM:")[1].split()[0])
        if held > MOST_HELD:
            raise Differs(f"{held} KB are held")

    ask(program, rows, talk)


def rows_added_meanwhile(chance, program):
    """The answers are those of the rows that were there as the archive was opened."""
    rows = random_rows(chance, MOST_ROWS)
    most = len(rows) // 2
    wanted = answers(rows[:most], ALL_ROWS)

    def talk(line, _):
        line.sendall(b"count\n")
        hold("before", received(line, len(f"count {most}\n")), f"count {most}\n".encode())
        with (program.folder / "a").open("r+b") as file:
            file.seek(-len(CLOSED_GATE), os.SEEK_END)
            file.write(archive_of(rows)[file.tell():])
        line.settimeout(TO_ANSWER)
        line.sendall(ALL_ROWS)
        hold("behind", received(line, len(wanted)), wanted)

    ask(program, rows[:most], talk)


def numbered(case, seed, number):
    """A case with what is random in the one of this number."""
    return lambda program: case(random.Random(f"{seed} {number}"), program)


def main(words):
    """Tries all cases; gives the status."""
    path = str(Path(words[0]).resolve())
    cases = int(words[1]) if len(words) > 1 else CASES
    seed = words[2] if len(words) > 2 else SEED
    failed = 0
    tried = [request_byte_by_byte, line_without_end, rows_added_meanwhile, *[random_requests] * cases]
    for number, case in enumerate(tried):
        reason = try_case(path, numbered(case, seed, number))
        if reason is not None:
            failed += 1
            print(f"{case.__name__} {number} failed: {reason!r:.{MOST_TEXT}}", file=sys.stderr)
    print(f"{len(tried) - failed} passed, {failed} failed")
    return 1 if failed else 0


if __name__ == "__main__":
    if not 2 <= len(sys.argv) <= 4:
        sys.exit(__doc__)
    sys.exit(main(sys.argv[1:]))
