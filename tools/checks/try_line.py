#!/usr/bin/env python3
"""Tries the line of a built program over loopback: how long it waits, whom it calls and where it serves.

    tools/checks/try_line.py PROGRAM

The cases run side by side, each with a peer of its own, in some 30 seconds. Times are held within a quarter, or longer by
what the machine spent on others; many waits together may be shorter by a tenth alone. A case that misses a time is tried
again. A case that cannot be run here is named with the reason. The last line is 'N passed, M failed', and the status is 1 if
any failed.
"""
import re
import signal
import socket
import sys
import time
from contextlib import ExitStack, contextmanager
from pathlib import Path
from struct import Struct
from subprocess import Popen
from threading import Thread

sys.dont_write_bytecode = True  # nothing is left beside the scripts

import rooms  # first: the imports below are of other rooms too
from held_port import held_port
from model.archive import CLOSED_GATE, THIS_VERSION, head_slot, sealed_batch, slots_to_add
from model.records import FIELDS
from model.rows import Row
from trying import LONGEST, SLEEPER, Differs, Ended, Missed, Moment, hold, hold_seconds, need, try_all

HERE, ALSO_HERE, HERE_TOO = "127.0.0.1", "127.0.0.2", "127.0.0.3"
ONLY_PORT = 40_000  # of a network that has no other
QUIET_WAIT = 0.4  # seconds
SOONER = 0.1  # the part of many waits by which they may be shorter, since the check may see the first byte late
TO_CALL = 10  # seconds for all addresses of a name: each has half of what is left
TO_TAKE = 10  # seconds in which some of a message has to be taken
TO_BEGIN = 10  # seconds within which the program listens
BETWEEN_LOOKS = 0.05
WITHIN_A_WAIT, WITHIN_A_MESSAGE = 0.1, 1  # seconds between one signal and the next

LF, ACK, NAK, ESC, END = b"\n", b"\x06", b"\x15", b"\x1b", b""
AWAKE = b"\n\r"
ALL_RECORDS = bytes(6)  # a stamp of zeros, whose check is zero too
HEADER_BYTES = 7
# What is said to a console that never answers, each piece behind so many quiet waits.
CALLS_TO_WAKE = [(6, LF), (3, LF), (3, LF)]
SILENT_TASK = [*CALLS_TO_WAKE, (3, END)]
SILENT_ROUND = 3 * [*CALLS_TO_WAKE, (3, ESC)] + [(0, END)]

TASK = "task {} kind"
ASLEEP = Ended(4, "task asleep\n")
GAVE_UP = Ended(4, "attempt 1 asleep\nattempt 2 asleep\nattempt 3 asleep\n"
                   "round gaveup attempts 3 pages 0 skipped 0 acked 0 rows 0\ngave up\n")
LINK_FAULT = Ended(6, "link fault\n")

FEW_TURNS, MANY_TURNS = 5, 1000000
MESSAGES = 8
ROWS_OF_MESSAGES = 5
MOST_ALONE = 0.75  # the part of them that comes in segments of their own
SEGMENTS_IN = slice(152, 156)  # the place of tcpi_data_segs_in in Linux's tcp_info
SO_TIMESTAMPNS = 35  # of Linux: each message comes with the time at which the system had it
STAMP = Struct("=qq")  # seconds and nanoseconds
NANOSECONDS = 1e9
SMALL_BUFFER, SMALL_SEGMENT = 2048, 500
MANY_PAGES = 3000  # more than the system keeps for a caller who takes none
CALLS_FOR_A_PART = 150  # to wake: behind so many replies Linux was seen to take a part of a page that had waited
LISTENS, IS_CONNECTED = "0A", "01"  # states in /proc/net/tcp

ROWS = 1000
FIRST_STAMP, PERIOD = 12_000_000, 5  # minutes from 2000-01-01, and minutes
ALL_ROWS = b"rows 1999-12-31 2127-12-31\n"
ANSWERS = 250  # to so many requests, of some 40 bytes a row: more than twice what Linux keeps for a line
FEW_ROWS = 300  # of an answer whose messages are counted
LEAST_MESSAGE = 4096  # bytes of it that are said together, but for its last ones
END_OF_ROWS = b"\nend\n"
TO_SERVE = 25  # seconds of a case: more than twice as long as a message has if nothing of it is taken
PAUSE = 0.1  # seconds between two takings
# What a caller takes a second, and the buffer and the segments that its system has for the line: with small ones the system says
# often that some was taken. A third of what Linux keeps for such a line takes longer than a message has.
SLOW, SLOW_BUFFER = 5000, 8192
SLOWER = 400  # with the smallest ones: a message of 8 kB takes 20 seconds
SHAPED_LINE = "tbf rate 400kbit burst 3000 latency 200ms"
LEAST_OVER_IT = 300_000  # bytes that come over that line within a case, in which it carries some 1,250,000


def listener(host=HERE, port=0, **options):
    """A socket that waits for the program's call, at a port of its own or at one that is held."""
    waiting = socket.create_server((host, port), **options)
    waiting.setsockopt(socket.SOL_SOCKET, SO_TIMESTAMPNS, 1)
    waiting.settimeout(LONGEST)
    return waiting


def call(host, port):
    """A line to who listens there."""
    return socket.create_connection((host, port), LONGEST)


def word_for(waiting):
    """The word by which the program calls there."""
    return f"{HERE}:{waiting.getsockname()[1]}"


@contextmanager
def calling(program, words):
    """A run that calls a peer, and the peer's end of the line."""
    with listener() as peer, program.start(words.format(word_for(peer))) as run:
        line, _ = peer.accept()
        with line:
            line.settimeout(LONGEST)
            yield run, line


@contextmanager
def listening(program, words, host=HERE, under=()):
    """A run that waits for a caller, and its port."""
    with held_port() as port, program.start(words.format(f"{host}:{port}"), under=under) as run:
        while not listens(run.process.pid, port):
            if run.process.poll() is not None or run.began.is_over(TO_BEGIN):
                raise Missed(f"it does not listen at {host}:{port}")
            time.sleep(BETWEEN_LOOKS)
        yield run, port


@contextmanager
def serving(program, turns, host=HERE):
    """A console that listens, and its port."""
    program.write("settings", "period = 5\n")
    program.write("schedule", "run 2024-07-01 00:05 288 outTemp=650\n")
    with listening(program, f"console settings schedule {{}} {turns}", host) as (run, port):
        yield run, port


def sockets(process, port, state):
    """The sockets in this state at a port where that process runs, as rows of words."""
    try:
        text = Path(f"/proc/{process}/net/tcp").read_text(encoding="ascii")
    except OSError:
        return []  # the process has ended
    rows = [row.split() for row in text.splitlines()[1:]]
    return [row for row in rows if row[1].endswith(f":{port:04X}") and row[3] == state]


def listens(process, port):
    """Whether somebody listens at a port where that process runs. It is not called, since the program takes one caller."""
    return sockets(process, port, LISTENS) != []


def is_taken(host, port):
    """Whether a call is taken there."""
    try:
        call(host, port).close()
    except ConnectionRefusedError:
        return False
    return True


def hear(line, count):
    """The next bytes of a line, so many."""
    heard = b""
    while len(heard) < count:
        piece = line.recv(count - len(heard))
        if not piece:
            raise Differs(f"the line ended behind {heard!r}")
        heard += piece
    return heard


def next_piece(line):
    """What comes next over a line, and the moment at which the system had it, however late it is read here."""
    asked = SLEEPER.now()
    piece, notes, _, _ = line.recvmsg(SMALL_BUFFER, socket.CMSG_SPACE(STAMP.size))
    stamps = [STAMP.unpack(data) for _, kind, data in notes if kind == SO_TIMESTAMPNS]
    seconds_ago = time.time() - stamps[0][0] - stamps[0][1] / NANOSECONDS if stamps else 0
    return piece, Moment(time.monotonic() - seconds_ago, asked.late)


def hold_talk(line, began, wanted):
    """Holds what comes over a line since a moment, and the waits before each piece and altogether."""
    before = began
    for waits, piece in wanted:
        said, ended = next_piece(line)
        hold("it said", said, piece)
        hold_seconds(f"the waits before {piece}", before, waits * QUIET_WAIT, ended=ended)
        before = ended
    hold_seconds("all waits", began, sum(waits for waits, _ in wanted) * QUIET_WAIT, SOONER, before)


def stop_and_continue(process):
    """Stops a process by a signal, and lets it go on by another."""
    process.send_signal(signal.SIGSTOP)
    process.send_signal(signal.SIGCONT)


def disturb(process, pause):
    """Stops a process and lets it go on, again and again until it has ended, with so many seconds in between."""
    while process.poll() is None:
        stop_and_continue(process)
        time.sleep(pause)


@contextmanager
def disturbed(run, pause):
    """Disturbs a run until its end."""
    disturber = Thread(target=disturb, args=[run.process, pause])
    disturber.start()
    yield
    disturber.join()


def task_at_a_silent_console(program):
    """A task waits as often and as long as it has to."""
    with calling(program, TASK) as (run, line):
        hold_talk(line, run.began, SILENT_TASK)
        hold("the task", run.end(), ASLEEP)


def round_at_a_silent_console(program):
    """So does a round."""
    program.write("settings", "period = 5\n")
    with calling(program, "station settings archive {}") as (run, line):
        hold_talk(line, run.began, SILENT_ROUND)
        hold("the round", run.end(), GAVE_UP)


def task_that_is_disturbed(program):
    """A process that is stopped and goes on waits as long, no less and no more."""
    with calling(program, TASK) as (run, line), disturbed(run, WITHIN_A_WAIT):
        hold_talk(line, run.began, SILENT_TASK)
        hold("the task", run.end(), ASLEEP)


def console_that_hangs_up(program):
    """The end of the line is a fault, and no quiet wait."""
    with calling(program, TASK) as (run, line):
        line.close()
        began = SLEEPER.now()
        hold("the task", run.end(), LINK_FAULT)
        hold_seconds("its end", began, 0)


def call_that_is_not_answered(program):
    """A call ends by itself: the queue of those who call there is full."""
    with listener(backlog=0) as peer, call(*peer.getsockname()):
        with program.start(TASK.format(word_for(peer))) as run:
            hold("the task", run.end(), LINK_FAULT)
            hold_seconds("the call", run.began, TO_CALL / 2)


def call_where_nobody_listens(program):
    """No other address is called in its place."""
    need("strace", "-o", "/dev/null", "true")
    under = ["strace", "-f", "-o", "trace", "-e", "trace=connect"]
    with held_port() as port:
        hold("the task", program.run(TASK.format(f"{HERE}:{port}"), under=under), LINK_FAULT)
    called = re.findall(rb'sin6?_port=htons\((\d+)\).*?"([^"]*)"', program.read("trace"))
    hold("it called", called, [(str(port).encode(), HERE.encode())])


def with_a_name(program, *hosts):
    """The command under which these addresses have the name `console`."""
    program.write("hosts", "".join(f"{host} console\n" for host in hosts))
    naming = f'mount --bind {program.folder}/hosts /etc/hosts && exec "$@"'
    under = ["unshare", "-rm", "sh", "-c", naming, "sh"]
    need(*under, "true")
    return under


def call_by_a_name(program):
    """Each address of a name is called until one answers, be it the first or the last."""
    under = with_a_name(program, HERE, ALSO_HERE)
    for host in (HERE, ALSO_HERE):
        with held_port() as port, listener(host, port) as peer, program.start(TASK.format(f"console:{port}"), under=under) as run:
            peer.accept()[0].close()
            hold("the task", run.end(), LINK_FAULT)


def call_by_a_name_that_is_not_answered(program):
    """Each address of a name has half of the time that is left."""
    hosts = HERE, ALSO_HERE, HERE_TOO
    under = with_a_name(program, *hosts)
    with held_port() as port, ExitStack() as queues:
        for host in hosts:
            queues.enter_context(listener(host, port, backlog=0))
            queues.enter_context(call(host, port))
        with program.start(TASK.format(f"console:{port}"), under=under) as run:
            hold("the task", run.end(), LINK_FAULT)
            hold_seconds("the calls", run.began, TO_CALL * (1 - 0.5 ** len(hosts)))


def with_one_port():
    """The command under which a process finds just this port free for a call, on a network of its own."""
    alone = 'ip link set lo up && echo "$0 $0" >/proc/sys/net/ipv4/ip_local_port_range && exec "$@"'
    under = ["unshare", "-rn", "sh", "-c", alone, str(ONLY_PORT)]
    need("ip", "-V")
    need(*under, "true")
    return under


def call_to_itself(program):
    """A call that the system connects to itself, since it leaves the caller no other port, is no line."""
    hold("the task", program.run(TASK.format(f"{HERE}:{ONLY_PORT}"), under=with_one_port()), LINK_FAULT)


def turns_of_a_console(program):
    """A console's turn without a byte is one quiet wait."""
    with serving(program, FEW_TURNS) as (run, port), call(HERE, port):
        began = SLEEPER.now()
        hold("the console", run.end(), Ended(0, "served 0 0\n"))
        hold_seconds("its turns", began, FEW_TURNS * QUIET_WAIT)


def caller_elsewhere(program):
    """A console serves one caller, at its own address alone."""
    with serving(program, MANY_TURNS, ALSO_HERE) as (run, port):
        hold("a call elsewhere is taken", is_taken(HERE, port), False)
        with call(ALSO_HERE, port) as line:
            line.sendall(LF)
            hold("it said", hear(line, len(AWAKE)), AWAKE)
            hold("a second call is taken", is_taken(ALSO_HERE, port), False)
        hold("the console", run.end(), LINK_FAULT)


def segments_in(line):
    """How many segments with data came over a line."""
    return int.from_bytes(line.getsockopt(socket.IPPROTO_TCP, socket.TCP_INFO, SEGMENTS_IN.stop)[SEGMENTS_IN], sys.byteorder)


def messages_in_a_row(program):
    """A message is sent at once, and does not wait for the next one until the one before it is confirmed."""
    with serving(program, MANY_TURNS) as (_, port), call(HERE, port) as line:
        for _ in range(ROWS_OF_MESSAGES):
            line.setsockopt(socket.IPPROTO_TCP, socket.TCP_QUICKACK, 0)
            line.sendall(MESSAGES * LF)
            hear(line, MESSAGES * len(AWAKE))
        segments = segments_in(line)
    if segments < ROWS_OF_MESSAGES * MESSAGES * MOST_ALONE:
        raise Differs(f"{ROWS_OF_MESSAGES * MESSAGES} messages came in {segments} segments")


@contextmanager
def untaken_message(program, calls):
    """A console that answers so many calls to wake, and then says more pages than the system keeps, which nobody takes."""
    with serving(program, MANY_TURNS) as (run, port), socket.socket() as line:
        line.settimeout(LONGEST)
        line.setsockopt(socket.SOL_SOCKET, socket.SO_RCVBUF, SMALL_BUFFER)
        line.setsockopt(socket.IPPROTO_TCP, socket.TCP_MAXSEG, SMALL_SEGMENT)
        line.connect((HERE, port))
        for said, count in ((calls * LF, calls * len(AWAKE)), (b"DMPAFT\n", len(ACK)), (ALL_RECORDS, HEADER_BYTES)):
            line.sendall(said)
            hear(line, count)
        line.sendall(ACK + MANY_PAGES * NAK)
        yield run, port


def hold_untaken(run, port):
    """Holds how a console ends that cannot say its message, and when: so long after the system took the last part of it."""
    queued, rose = 0, SLEEPER.now()
    while run.process.poll() is None and not rose.is_over(LONGEST):
        before, queued = queued, sum(int(row[4].split(":")[0], 16) for row in sockets(run.process.pid, port, IS_CONNECTED))
        rose = SLEEPER.now() if queued > before else rose
        time.sleep(BETWEEN_LOOKS)
    hold_seconds("the message", rose, TO_TAKE)
    hold("the console", run.end(), LINK_FAULT)


def message_that_is_not_taken(program):
    """A message ends by itself, and waits as long again if the system takes another part of it."""
    with untaken_message(program, CALLS_FOR_A_PART) as (run, port):
        hold_untaken(run, port)


def message_that_is_disturbed(program):
    """A process that is stopped and goes on waits as long for a message to be taken, no less and no more."""
    with untaken_message(program, 1) as (run, port), disturbed(run, WITHIN_A_MESSAGE):
        hold_untaken(run, port)


def archive_of_rows(count):
    """An archive with so many rows of one field, each in a batch of its own."""
    rows, batches = [], []
    for number in range(count):
        row = Row(FIRST_STAMP + PERIOD * number, PERIOD, (number, *[None] * (len(FIELDS) - 1)))
        batches.append(sealed_batch(slots_to_add(rows, [row])))
        rows.append(row)
    return head_slot(THIS_VERSION) + b"".join(batches) + CLOSED_GATE


def answer_in_few_messages(program):
    """The lines of an answer are said many together, and not line by line or byte by byte."""
    need("strace", "-o", "/dev/null", "true")
    program.write("archive", archive_of_rows(FEW_ROWS))
    under = ["strace", "-f", "-o", "trace", "-e", "trace=write,writev,sendto,sendmsg"]
    with listening(program, f"serve archive {{}} {MANY_TURNS}", under=under) as (run, port), call(HERE, port) as line:
        line.sendall(ALL_ROWS)
        said = b""
        while not said.endswith(END_OF_ROWS):
            said += hear(line, 1)
        line.close()
        hold("the service", run.end(), LINK_FAULT)
    messages = [int(size) for size in re.findall(rb" = (\d+)$", program.read("trace"), re.MULTILINE)]
    most = len(said) // LEAST_MESSAGE + 3  # the last lines, `end`, and what is printed
    if len(messages) > most or sum(messages) < len(said):
        raise Differs(f"{len(said)} bytes were said in {len(messages)} messages, in place of {most} at most")


@contextmanager
def asked(program, buffer, segment=None):
    """A service that was asked for more than the system keeps, and a line with such a buffer, of which nothing is taken yet."""
    program.write("archive", archive_of_rows(ROWS))
    with listening(program, f"serve archive {{}} {MANY_TURNS}") as (run, port), socket.socket() as line:
        line.settimeout(LONGEST)
        line.setsockopt(socket.SOL_SOCKET, socket.SO_RCVBUF, buffer)
        if segment:
            line.setsockopt(socket.IPPROTO_TCP, socket.TCP_MAXSEG, segment)
        line.connect((HERE, port))
        line.sendall(ANSWERS * ALL_ROWS)
        yield run, line


def hold_served(run, line, speed):
    """Holds that a caller who takes so many bytes a second is served for some time."""
    began = SLEEPER.now()
    taken = 0
    while began.seconds() < TO_SERVE:
        due = int(speed * began.seconds()) - taken
        taken += len(line.recv(due)) if due > 0 else 0
        if run.process.poll() is not None:
            raise Differs(f"{run.end()} after {began.seconds():.1f} s and {taken} bytes")
        time.sleep(PAUSE)


def caller_who_takes_slowly(program):
    """Who takes 5 kB a second is served on, though the queue of the line has a third of its room again only after minutes."""
    with asked(program, SLOW_BUFFER) as (run, line):
        hold_served(run, line, SLOW)


def message_that_is_taken_slowly(program):
    """A message may take longer than 10 seconds, as long as some of it is taken."""
    with asked(program, SMALL_BUFFER, SMALL_SEGMENT) as (run, line):
        hold_served(run, line, SLOWER)


def caller_over_a_slow_line(program):
    """Who is at the end of a slow line is served on, as fast as the line is."""
    shaped = f'ip link set lo mtu 1500 up && tc qdisc add dev lo root {SHAPED_LINE} && exec "$@"'
    under = ["unshare", "-rn", "sh", "-c", shaped, "sh"]
    for command in (["ip", "-V"], ["tc", "-V"], ["nsenter", "-V"], [*under, "true"]):
        need(*command)
    program.write("archive", archive_of_rows(ROWS))
    program.write("requests", ANSWERS * ALL_ROWS)
    with listening(program, f"serve archive {{}} {MANY_TURNS}", under=under) as (run, port):
        taking = f"exec 3<>/dev/tcp/{HERE}/{port} && cat requests >&3 && exec cat <&3 >taken"
        inside = ["nsenter", "--preserve-credentials", "-U", "-n", "-t", str(run.process.pid), "bash", "-c", taking]
        with Popen(inside, cwd=program.folder) as caller:
            time.sleep(TO_SERVE)
            ended = run.process.poll()
            caller.kill()
        hold("the service has ended", ended, None)
        hold("as much came as the line takes", len(program.read("taken")) > LEAST_OVER_IT, True)


CASES = (task_at_a_silent_console, round_at_a_silent_console, task_that_is_disturbed, console_that_hangs_up,
         call_that_is_not_answered, call_where_nobody_listens, call_by_a_name, call_by_a_name_that_is_not_answered,
         call_to_itself, turns_of_a_console, caller_elsewhere, messages_in_a_row, message_that_is_not_taken,
         message_that_is_disturbed, answer_in_few_messages, caller_who_takes_slowly, message_that_is_taken_slowly,
         caller_over_a_slow_line)

if __name__ == "__main__":
    sys.exit(try_all(sys.argv, __doc__, CASES, len(CASES)))
