#!/usr/bin/env python3
"""Tries which packets packets.py takes, over a built program's modelled console, and over consoles of its own whose lines do harm.

    tools/checks/try_packets.py PROGRAM

The cases run side by side in some 25 seconds, each with a console and a file of its own. Each file is held byte by byte: it
has whole entries, with just the packets that were sent whole. Their moments rise, and are those at which they were heard.
A case that misses a time is tried again, and so is one that fails while the machine runs others; limits are longer then. A case
that cannot be run here is named with the reason. The last line is 'N passed, M failed', and the status is 1 if any failed.
"""
import re
import signal
import sys
import time
from datetime import datetime, timezone

sys.dont_write_bytecode = True  # nothing is left beside the scripts

from model.pages import sealed
from packet_console import (ENTRY_BYTES, FEW, FILE, HOUR, LINK_FAULT, MOMENT, NOBODY, NONE_PASSED, SILENT, TO_WRITE, USAGE, VALUE_BYTES,
                            changed, entry_of, hold_refused, packet_of, rest_of, second_of, start, taking)
from try_line import ACK, END, HERE, LF, MANY_TURNS, ONLY_PORT, hear, hold_talk, next_piece, serving, with_one_port
from trying import SLEEPER, Ended, Missed, await_that, hold, hold_seconds, try_all

SLOTS_OF_SERVED = 288  # of the console that `serving` serves, which its packets tell
MODELLED = sealed(b"LOO" + bytes(2) + SLOTS_OF_SERVED.to_bytes(2, "little") + bytes(VALUE_BYTES - 2) + b"\n\r")
WAITS_FOR_AN_ANSWER = 3  # of 0.4 seconds
TRIES = 3
BAD_WORDS = ([], [NOBODY], [NOBODY, "5"], [NOBODY, "5", FILE, FILE], [HERE, "5", FILE], [f"{HERE}:", "5", FILE],
             [":1", "5", FILE], [f"{HERE}:one", "5", FILE], [f"{HERE}:65536", "5", FILE], [NOBODY, "0", FILE],
             [NOBODY, "-1", FILE], [NOBODY, "1.5", FILE], [NOBODY, "12345678901", FILE], [NOBODY, "", FILE])
ZONES = {"AAA5BBB,M3.2.0,M11.1.0": -5, "AAA-10BBB,M10.1.0,M4.1.0/3": 10}  # in one of these it is summer
IN_1970 = """import runpy, sys, time
time.time = lambda: 0
del sys.argv[0]
sys.path[0] = sys.argv[0].rpartition('/')[0]
runpy.run_path(sys.argv[0], run_name='__main__')"""


def modelled_console(program):
    """The packets of the program's modelled console are taken until the seconds are over."""
    with serving(program, MANY_TURNS) as (_, port):
        began = time.time()
        with start(program, [f"{HERE}:{port}", str(FEW + 1), FILE]) as run:
            ended = run.end()
            hold_seconds("the run", run.began, FEW + 1)
    data = program.read(FILE)
    entries = [data[at:at + ENTRY_BYTES] for at in range(0, len(data), ENTRY_BYTES)]
    if len(entries) < 2:
        raise Missed(f"{len(entries)} packets came")
    hold("the packets", [entry[MOMENT.size:] for entry in entries], [MODELLED] * len(entries))
    seconds = [second_of(entry) for entry in entries]
    hold("the moments rise", seconds, sorted(set(seconds)))
    hold("they are of the run", int(began) < seconds[0] and seconds[-1] <= time.time(), True)
    hold("the run", ended, Ended(0, f"packets taken {len(entries)}, {NONE_PASSED}\n"))


def line_that_harms_packets(program):
    """A line loses, adds and changes bytes: the packets that are whole are taken, and no others."""
    lost, damaged, longer = packet_of(2), packet_of(5), packet_of(8)
    odd = packet_of(11, values=b"\n\r\x06LOO\x06\n\r")
    with taking(program) as console:
        console.agree()
        console.give(packet_of(1))
        console.say(lost[:40] + lost[45:])
        console.give(packet_of(3))
        console.give(packet_of(4), b"\0LO", b"LOO\n\r", packet_of(4))
        console.await_second()
        console.say(changed(damaged, 60), changed(damaged, 98))
        console.say(packet_of(6, kind=1), packet_of(7, end=b"\r\n"))
        console.say(longer[:50] + b"LO" + longer[50:], packet_of(9)[2:])
        console.give(packet_of(10), packet_of(10)[:2], packet_of(10)[2:70], packet_of(10)[70:])
        console.give(odd)
        console.stop("passed over 7 (damaged 7)")


def packets_within_a_second(program):
    """Of packets within one second the first is taken, and the others are named."""
    with taking(program) as console:
        console.agree()
        console.give(packet_of(1), packet_of(1) + packet_of(2))
        await_that("nothing is named", console.errors, TO_WRITE)
        console.give(packet_of(3))
        at = datetime.fromtimestamp(int(console.sent[0].earliest), timezone.utc)
        moment = f"{at:%Y-%m-%d %H:%M:%S}"
        console.stop("passed over 1 (same second 1)",
                     f"packet of {moment} passed over: same second, the last entry is of {moment}\n")


def clock_that_went_back(program):
    """A packet before the last entry of the file is passed over, and named."""
    with taking(program, entry_of(packet_of(0), time.time() + HOUR)) as console:
        console.agree()
        console.say(packet_of(1))
        await_that("nothing is named", console.errors, TO_WRITE)
        errors = console.errors()
        hold("why", re.sub("[0-9]+", "N", errors), "packet of N-N-N N:N:N passed over: clock went back, "
                                                   "the last entry is of N-N-N N:N:N\n")
        console.stop("passed over 1 (clock went back 1)", errors)


def clock_of_another_century(program):
    """A packet by a clock whose year no entry can have is passed over, and named."""
    with taking(program, under=[sys.executable, "-c", IN_1970]) as console:
        console.agree()
        console.say(packet_of(1))
        await_that("nothing is named", console.errors, TO_WRITE)
        console.stop("passed over 1 (clock out of range 1)",
                     "packet of 1970-01-01 00:00:00 passed over: clock out of range\n")


def clock_of_another_zone(program):
    """Moments are those of a clock that keeps no summer time."""
    for zone, hours in ZONES.items():
        with taking(program, zone=zone) as console:
            console.ahead = HOUR * hours
            console.agree()
            console.give(packet_of(1))
            console.stop()


def silent_console(program):
    """A console that never answers is called three times."""
    with taking(program) as console:
        said, began = next_piece(console.line)
        hold("it said", said, LF)
        hold_talk(console.line, began, [*[(WAITS_FOR_AN_ANSWER, LF)] * TRIES, (0, END)])
        console.hold_end(SILENT, NONE_PASSED, "the console does not answer\n")


def console_without_packets(program):
    """One that agrees and sends nothing is asked three times."""
    with taking(program) as console:
        for _ in range(TRIES):
            console.agree()
        hold("it said at its end", rest_of(console.line), LF)
        console.hold_end(SILENT, NONE_PASSED, "the console does not answer\n")


def packets_that_stop(program):
    """If no more packets come the console is woken and asked again."""
    with taking(program) as console:
        console.agree()
        console.give(packet_of(1))
        console.say(packet_of(2)[:50])
        console.agree()
        console.give(packet_of(3))
        console.stop("passed over 1 (damaged 1)")


def answers_that_are_lost(program):
    """A console whose answers are lost is woken and asked again."""
    with taking(program) as console:
        hold("it said", hear(console.line, len(LF)), LF)
        console.wake()
        console.hear_asking()
        console.wake()
        console.hear_asking()
        console.say(ACK + packet_of(1)[:50])
        console.give(packet_of(1), packet_of(1)[50:])
        console.stop()


def console_that_still_sends(program):
    """A console that sends packets since an earlier run is asked anew, and the rest of a packet is passed over."""
    with taking(program) as console:
        console.say(packet_of(1)[20:])
        hold("it said", hear(console.line, len(LF)), LF)
        console.hear_asking()
        console.line.sendall(ACK)
        console.give(packet_of(2))
        console.stop()


def all_packets_of_an_asking(program):
    """Once as many packets came as were asked for, more are asked for at once."""
    with taking(program) as console:
        count = console.agree()
        packets = [packet_of(number) for number in range(count)]
        for _ in range(TRIES):
            console.give(packets[0], b"".join(packets))
            began = SLEEPER.now()
            console.agree()
            hold_seconds("the next asking", began, 0)
            if len(program.read(FILE)) > ENTRY_BYTES * len(console.sent):
                raise Missed("the packets came in more than one second")
        console.give(packet_of(count))
        passed = TRIES * (count - 1)
        console.stop(f"passed over {passed} (same second {passed})", console.errors())


def line_that_ends(program):
    """If the line ends, what was taken stays."""
    with taking(program) as console:
        console.agree()
        console.give(packet_of(1))
        console.say(packet_of(2)[:50])
        console.line.close()
        console.hold_end(LINK_FAULT, NONE_PASSED, "link fault\n")


def call_where_nobody_listens(program):
    """A call that is not answered is a link fault."""
    hold_refused(program, [NOBODY, "5", FILE], LINK_FAULT, "link fault\n")


def call_to_itself(program):
    """A call that the system connects to itself is a link fault too."""
    hold_refused(program, [f"{HERE}:{ONLY_PORT}", "5", FILE], LINK_FAULT, "link fault\n", under=with_one_port())


def seconds_that_pass(program):
    """A run ends by itself, also within a packet."""
    with taking(program, seconds=FEW) as console:
        console.agree()
        console.give(packet_of(1))
        console.say(packet_of(2)[:50])
        hold("it said at its end", rest_of(console.line), LF)
        hold_seconds("the run", console.began, FEW)
        console.hold_end(0, NONE_PASSED, "")


def run_that_is_stopped(program):
    """A run is ended by a signal as by its seconds, whatever it waits for."""
    for number in (signal.SIGINT, signal.SIGTERM):
        with taking(program) as console:
            console.wake()
            console.hear_asking()
            console.stop(number=number)
        with taking(program) as console:
            console.agree()
            console.give(packet_of(1))
            console.say(packet_of(2)[:50])
            console.stop(number=number)


def words_out_of_form(program):
    """Words that are out of form show how they have to be, and make no file."""
    for words in BAD_WORDS:
        hold_refused(program, words, USAGE, ".*jofitrana-packets ADDRESS SECONDS FILE\n.*")
    hold("a file is made", (program.folder / FILE).exists(), False)


CASES = (modelled_console, line_that_harms_packets, packets_within_a_second, clock_that_went_back, clock_of_another_century,
         clock_of_another_zone, silent_console, console_without_packets, packets_that_stop, answers_that_are_lost,
         console_that_still_sends, all_packets_of_an_asking, line_that_ends, call_where_nobody_listens, call_to_itself,
         seconds_that_pass, run_that_is_stopped, words_out_of_form)

if __name__ == "__main__":
    sys.exit(try_all(sys.argv, __doc__, CASES, len(CASES)))
