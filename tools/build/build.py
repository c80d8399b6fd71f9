#!/usr/bin/env python3
"""Runs a command once the program stands as its sources have it. What is not built yet is proved and built first.

    tools/build/build.py COMMAND WORDS..

Crates are proved side by side, each once those below it stand. Lines on standard error report how far it is, and
`out/logs` has what the toolchain said. Status 70: the program does not stand. Otherwise the status is the command's.
"""
import concurrent.futures
import contextlib
import errno
import fcntl
import hashlib
import os
import shutil
import signal
import sys
import time
from pathlib import Path

sys.dont_write_bytecode = True  # nothing is left beside the scripts
import build_plan
import build_rooms
import build_runs
import crate_list

# What a first build takes, as measured on a quiet machine and on a busy one.
FIRST_MINUTES = '60 to 100'  # of processors; 20 to 50 by the clock on four of them
FIRST_MEMORY = 4  # GB at most for one proof
FIRST_DISK = 7  # GB

MB, GB = 1_000_000, 1_000_000_000
LEAST_DISK = GB  # below which a disk counts as full
TELL_EVERY = 120  # seconds
LAST_LINES = 20  # of a log
FAILED = 70
SIGNALS = (signal.SIGINT, signal.SIGTERM, signal.SIGHUP)
TOP = str(Path(__file__).resolve().parents[2])
PROGRAM = f'{TOP}/crates/{crate_list.PROGRAM}/out/{crate_list.PROGRAM}'
BUILT = f'{TOP}/out/built'  # the sum of what the program was built from
LOGS = f'{TOP}/out/logs'


class Fault(Exception):
    """Why the program does not stand."""


def say(text):
    """Prints a line for the user."""
    print(f'station: {text}', file=sys.stderr, flush=True)


def sum_of(folder, crates):
    """A sum of all that the program is built from. The crates stand in the folder."""
    toolchain = shutil.which('rt')
    if toolchain is None:
        raise Fault('the toolchain is missing: there is no command rt')
    kit = os.stat(toolchain)
    total = hashlib.sha256(f'{kit.st_size} {kit.st_mtime_ns}\n'.encode())
    total.update(''.join(crate.line for crate in crates.values()).encode())
    files = {file.replace(folder, ''): file for name in crates for file in crate_list.files_of(f'{folder}/{name}')}
    for name, path in {'HANDLES': f'{TOP}/HANDLES', **files}.items():
        with open(path, 'rb') as file:
            total.update(f'{name} {hashlib.sha256(file.read()).hexdigest()}\n'.encode())
    return total.hexdigest()


def stands():
    """Whether the program stands as its sources have it."""
    now = sum_of(f'{TOP}/crates', crate_list.needed(TOP))
    if not os.access(PROGRAM, os.X_OK) or not os.path.isfile(BUILT):
        return False
    with open(BUILT, encoding='ascii') as file:
        return file.read().strip() == now


def free_disk():
    """The bytes of disk that are free."""
    return shutil.disk_usage(TOP).free


def full_disk(said=''):
    """What to say of a disk that is full, by what is free or by what was said; nothing of another."""
    if free_disk() >= LEAST_DISK and os.strerror(errno.ENOSPC) not in said:
        return ''
    return f'the disk is full, with {free_disk() // MB} MB left: make room on it, and run this again'


def failure(name):
    """Why a crate does not stand: the last lines of its log."""
    with open(f'{LOGS}/{name}.log', encoding='utf-8', errors='replace') as file:
        said = file.read()
    lines = [f'{name} is not proved and built. Its log {file.name} ends:', *said.splitlines()[-LAST_LINES:]]
    return '\n'.join(lines + [f'station: {full_disk(said)}'] * bool(full_disk(said)))


def prove(name, processes, rooms, runs):
    """Proves and builds a crate in a room of its own, and returns whether it stands."""
    is_program = name == crate_list.PROGRAM
    try:
        folder = rooms.enter(name)
        made = f'{folder}/out/{name}'
        if is_program:
            build_rooms.remove(made)
        words = ['rt', 'run' if is_program else 'lib', '--jobs', str(processes)]
        with open(f'{LOGS}/{name}.log', 'wb') as log:
            status = runs.run(words, folder, log, rooms.temporary)
        # (rt runs the program too, without words, and ends with its status)
        return os.access(made, os.X_OK) if is_program else status == 0
    finally:
        rooms.leave(name)


def build_all(plan, rooms, runs):
    """Proves and builds each crate once those below it stand, and reports how far it is."""
    running, ended, began = {}, [], time.monotonic()
    with concurrent.futures.ThreadPoolExecutor(plan.processors) as pool:
        try:
            while plan.left or running:
                for begun in iter(plan.begin, None):
                    running[pool.submit(prove, *begun, rooms, runs)] = begun[0]
                report(plan, ended, time.monotonic() - began)
                done = concurrent.futures.wait(running, TELL_EVERY, concurrent.futures.FIRST_COMPLETED).done
                ended = [running.pop(it) for it in done if it.result()]
                for name in ended:
                    plan.end(name)
                if len(ended) < len(done):
                    raise Fault(failure(next(name for it, name in running.items() if it in done)))
        except BaseException:
            runs.stop()
            raise


def report(plan, ended, seconds):
    """Prints what was proved last, and what is being proved."""
    parts = [f'{", ".join(ended)} proved'] * bool(ended) + [f'proving {", ".join(plan.running)}']
    say(f'{int(seconds) // 60} min, {len(plan.standing)} of {len(plan.crates)} crates: {"; ".join(parts)}')


def build(lock):
    """Proves and builds the program, and all that it stands on, from the sources as they stand now."""
    say(f'proves and builds the program first; from nothing that takes {FIRST_MINUTES} minutes of processor time, up to'
        f' {FIRST_MEMORY} GB of memory for each proof and {FIRST_DISK} GB of disk ({build_plan.free_memory() // GB} GB and'
        f' {free_disk() // GB} GB are free)')
    if full_disk():
        raise Fault(full_disk())
    crates, runs, began = crate_list.needed(TOP), build_runs.Runs(lock), time.monotonic()
    rooms = build_rooms.Rooms(TOP, crates, runs.check, say)
    try:
        rooms.open()
        now, tasks = sum_of(rooms.sources, crates), build_plan.tasks_of(crates, rooms.sources)
        build_all(build_plan.Plan(crates, tasks, len(os.sched_getaffinity(0)), build_plan.free_memory()), rooms, runs)
    finally:
        with contextlib.suppress(build_runs.Stopped):
            rooms.close()
    with open(BUILT, 'w', encoding='ascii') as file:
        print(now, file=file)
    say(f'the program is proved and built, after {int(time.monotonic() - began) // 60} min')


@contextlib.contextmanager
def turn():
    """Waits until no other run builds here, and gives the lock that has others wait."""
    os.makedirs(LOGS, exist_ok=True)
    with open(f'{TOP}/out/lock', 'w', encoding='ascii') as lock:
        if not build_rooms.is_taken(lock, fcntl.LOCK_EX):
            say('another ./station proves and builds the program: waiting for it')
            fcntl.flock(lock, fcntl.LOCK_EX)
        yield lock.fileno()


def stop(number, _):
    """Ends the run at a signal; later ones wait until what was built is kept."""
    for it in SIGNALS:
        signal.signal(it, signal.SIG_IGN)
    raise build_runs.Stopped(number)


def main(command):
    for it in SIGNALS:
        if signal.getsignal(it) != signal.SIG_IGN:
            signal.signal(it, stop)
    try:
        if not stands():
            with turn() as lock:
                if not stands():
                    build(lock)
    except build_runs.Stopped as stopped:
        say('stopped; what was built is kept, and the next run goes on from there')
        return 128 + stopped.args[0]
    except Fault as fault:
        say(fault)
        return FAILED
    except OSError as error:
        say(full_disk(str(error)) or error)
        return FAILED
    for it in (signal.SIGPIPE, signal.SIGXFSZ):
        signal.signal(it, signal.SIG_DFL)  # Python ignores them, and a command would inherit that
    os.execv(command[0], command)


if __name__ == '__main__':
    sys.exit(main(sys.argv[1:]))
