#!/usr/bin/env python3
"""Tries what packets.py does with its file: parts of entries, runs that are killed, waits for the disk, a full disk, and files
that are none of packets.

    tools/checks/try_packet_file.py PROGRAM

The cases run side by side as those of try_packets.py, each with a console and a file of its own. A case that cannot be run here
is named with the reason: some take strace. The last line is 'N passed, M failed', and the status is 1 if any failed.
"""
import os
import re
import resource
import signal
import sys
import time

sys.dont_write_bytecode = True  # nothing is left beside the scripts

from packet_console import (ENTRY_BYTES, FEW, FILE, FILE_FAULT, LONG, NOBODY, NONE_PASSED, Sent, changed, entry_of, hold_refused, packet_of,
                            some_entries, taking, tracing)
from trying import Ended, hold, try_all

NO_FILES = {".": "Is a directory", "none/at/all": "No such file or directory", "": "No such file or directory",
            "pipe": "is no plain file", "/dev/null": "is no plain file"}
PARTS = (1, 5, 7, 60, 103)  # bytes of an entry
# A clock that is so many seconds ahead for each entry that was written, so that a minute passes sooner.
SECONDS_OF_AN_ENTRY, ENTRIES_OF_A_MINUTE = 21, 3
IN_HASTE = f"""import os, runpy, sys, time
write, clock, ahead = os.write, time.monotonic, 0
def write_and_wait(*words):
    global ahead
    ahead += {SECONDS_OF_AN_ENTRY}
    return write(*words)
os.write, time.monotonic = write_and_wait, lambda: clock() + ahead
del sys.argv[0]
sys.path[0] = sys.argv[0].rpartition('/')[0]
runpy.run_path(sys.argv[0], run_name='__main__')"""
SYNCS = "fsync,fdatasync"
ROOM = 1024  # bytes of a file that may not grow further, which are no whole entries


def part_of_an_entry(program):
    """A part of an entry at the end of the file is cut off, and the run goes on behind the last whole one."""
    last = entry_of(packet_of(9), time.time())
    behinds = [(some_entries(2), last[:part]) for part in PARTS] + [(b"", last[:part]) for part in PARTS]
    behinds += [(some_entries(1), bytes(ENTRY_BYTES) + last[:60]), (some_entries(1), changed(last, 70))]
    for before, behind in behinds:
        with taking(program, before, behind) as console:
            console.agree()
            console.give(packet_of(10))
            console.stop(errors=f"{FILE}: {len(behind)} bytes behind the last whole entry were cut off\n")


def take_one_more(program):
    """A next run adds its entry behind the last whole one of the file."""
    with taking(program, program.read(FILE)) as console:
        console.agree()
        console.give(packet_of(3))
        console.stop()


def run_that_is_killed(program):
    """A run that is killed within a packet leaves whole entries, and the next run goes on behind them."""
    with taking(program, some_entries(1)) as console:
        console.agree()
        console.give(packet_of(1))
        console.say(packet_of(2)[:50])
        console.run.process.kill()
        hold("the run", console.run.end(), Ended(-signal.SIGKILL, ""))
        console.hold_file()
    take_one_more(program)


def run_that_is_killed_at_a_write(program):
    """A run that is killed as it writes an entry has written all of it or nothing."""
    with taking(program, under=tracing(program, "trace=write", "inject=write:signal=SIGKILL:when=2")) as console:
        console.agree()
        console.give(packet_of(1))
        console.await_second()
        earliest = time.time()
        console.say(packet_of(2))
        console.run.end()
        if len(program.read(FILE)) > ENTRY_BYTES:
            console.sent.append(Sent(packet_of(2), earliest, time.time()))
        console.hold_file()
    take_one_more(program)


def writes_of_a_run(program):
    """Each entry is one write, and the end waits for the disk."""
    calls = "trace=write,writev,pwrite64,pwritev,ftruncate,fsync,fdatasync"
    with taking(program, seconds=FEW, under=tracing(program, calls)) as console:
        console.agree()
        console.give(packet_of(1))
        console.give(packet_of(2))
        console.hold_end(0, NONE_PASSED, "")
    trace = program.read("trace").decode(errors="replace")
    hold("it asked", re.findall(r"^\d+ +(\w+)\(.*\) += (-?\d+)", trace, re.MULTILINE),
         [("write", str(ENTRY_BYTES))] * 2 + [("fsync", "0")])


def in_haste(program, *options):
    """The command under which a minute passes with a few entries, and the calls on the file are traced."""
    return [*tracing(program, *options), sys.executable, "-c", IN_HASTE]


def sync_of_each_minute(program):
    """Once a minute has passed since the disk had all entries, it is waited for again."""
    count = 2 * ENTRIES_OF_A_MINUTE
    under = in_haste(program, f"trace=write,{SYNCS}")
    with taking(program, seconds=count * SECONDS_OF_AN_ENTRY, under=under) as console:
        console.agree()
        for number in range(count):
            console.give(packet_of(number))
        console.hold_end(0, NONE_PASSED, "")
    calls = re.findall(r"^\d+ +(write|f\w*sync)\(.*\) += (-?\d+)", program.read("trace").decode(errors="replace"), re.MULTILINE)
    minute = [str(ENTRY_BYTES)] * ENTRIES_OF_A_MINUTE + ["0"]
    hold("the entries between the syncs", [answer for _, answer in calls], [*minute, *minute, "0"])


def sync_that_fails(program):
    """A disk that fails at a sync ends the run, be it within or at its end."""
    fails = f"inject={SYNCS}:error=EIO:when=1"
    error = f"{FILE}: Input/output error\n"
    with taking(program, seconds=LONG * LONG, under=in_haste(program, fails)) as console:
        console.agree()
        for number in range(ENTRIES_OF_A_MINUTE):
            console.give(packet_of(number))
        ended = console.run.end()
        hold("the run whose sync failed", (ended.status, console.errors()), (FILE_FAULT, error))
        console.hold_file()
    with taking(program, seconds=FEW, under=tracing(program, fails)) as console:
        console.agree()
        console.give(packet_of(1))
        console.hold_end(FILE_FAULT, NONE_PASSED, error)


def file_that_is_full(program):
    """An entry that the disk takes in part is cut off again, and the cause is named."""
    def bound():
        """Bounds the file."""
        resource.setrlimit(resource.RLIMIT_FSIZE, (ROOM, ROOM))

    with taking(program, some_entries(ROOM // ENTRY_BYTES), preexec_fn=bound) as console:
        console.agree()
        console.say(packet_of(1))
        console.hold_end(FILE_FAULT, NONE_PASSED, f"{FILE}: the disk took {ROOM % ENTRY_BYTES} of {ENTRY_BYTES} bytes\n")


def file_that_is_refused(program):
    """What is no file of packets is neither changed nor taken, and nobody is called."""
    others = {"settings": b"period = 5\n", "archive": b"DVARCH02" + bytes(169), "short": b"period",
              "harmed": some_entries(70)[:ENTRY_BYTES + 3] + some_entries(70)[ENTRY_BYTES:]}
    for name, data in others.items():
        program.write(name, data)
        hold_refused(program, [NOBODY, "5", name], FILE_FAULT, f"{name} .* was not changed\n")
        hold(f"the file {name}", program.read(name), data)
    os.mkfifo(program.folder / "pipe")
    for name, cause in NO_FILES.items():
        hold_refused(program, [NOBODY, "5", name], FILE_FAULT, f"{re.escape(name)}:? {cause}\n")
    with taking(program) as console:
        console.agree()
        hold_refused(program, [NOBODY, "5", FILE], FILE_FAULT, f"{FILE} is open in another run\n")
        console.give(packet_of(1))
        console.stop()


CASES = (part_of_an_entry, run_that_is_killed, run_that_is_killed_at_a_write, writes_of_a_run, sync_of_each_minute,
         sync_that_fails, file_that_is_full, file_that_is_refused)

if __name__ == "__main__":
    sys.exit(try_all(sys.argv, __doc__, CASES, len(CASES)))
