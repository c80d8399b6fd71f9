#!/usr/bin/python3
"""Tries again.py: a modelled console and an archive, over the built program, for callers one after another and at once.

    tools/checks/try_again.py PROGRAM

The last line is 'N passed, M failed', and the status is 1 if any failed.
"""
import os
import signal
import socket
import subprocess
import sys
import time
from concurrent.futures import ThreadPoolExecutor
from contextlib import contextmanager
from pathlib import Path

sys.dont_write_bytecode = True  # nothing is left beside the scripts

from trying import LONGEST, NAP, SLEEPER, Differs, hold, try_all

TOOLS = Path(__file__).resolve().parent.parent
SCHEDULE = 'run 2024-07-01 00:05 7 outTemp=650\nround\n'
ROUND = 'round ok attempts 1 pages 2 skipped 0 acked 7 rows 7\n'
CALLERS = 12
ANSWER_SECONDS = 5
PACKET_BYTES = 99
GOOD, SETTINGS_FAULT, LINK_FAULT, USAGE = 0, 2, 6, 2
PORTS = 5  # that are tried, since somebody else may take one meanwhile


def listens(port):
    """Whether somebody listens at a port of this machine."""
    return f':{port:04X} 00000000:0000 0A' in Path('/proc/net/tcp').read_text(encoding='ascii')


def free_port():
    """A port that nobody has."""
    with socket.socket() as door:
        door.bind(('127.0.0.1', 0))
        return door.getsockname()[1]


def words_of(program, *words):
    """The words of the tool."""
    return [TOOLS / 'product/again.py', '--program', program.path, *words]


def begun(program, *words):
    """The tool, serving, and its address."""
    for _ in range(PORTS):
        port, began = free_port(), SLEEPER.now()
        process = subprocess.Popen(words_of(program, *words, f'127.0.0.1:{port}'), cwd=program.folder, stderr=subprocess.PIPE,
                                   text=True, start_new_session=True)
        while process.poll() is None and not began.is_over(LONGEST):
            if listens(port):
                return process, f'127.0.0.1:{port}'
            time.sleep(NAP)
        os.killpg(process.pid, signal.SIGKILL)
        process.communicate()
    raise Differs('it does not serve')


@contextmanager
def again(program, *words):
    """The address at which the tool serves. It has to end well at Control-C, with all runs of the program."""
    process, address = begun(program, *words)
    try:
        yield address
        process.send_signal(signal.SIGINT)
        hold('its end', (process.wait(LONGEST), process.stderr.read()), (GOOD, ''))
        began = SLEEPER.now()
        while runs_of(process.pid):
            if began.is_over(LONGEST):
                raise Differs(f'a run of the program is left: {runs_of(process.pid)}')
            time.sleep(NAP)
    finally:
        try:
            os.killpg(process.pid, signal.SIGKILL)
        except ProcessLookupError:
            pass
        process.communicate()


def runs_of(group):
    """The processes of a group that still run."""
    found = subprocess.run(['ps', '-o', 'pid=,stat=,args=', '-g', str(group)], capture_output=True, text=True, check=False).stdout
    return [line for line in found.splitlines() if line and ' Z' not in line]


def write_console(program):
    """Writes settings and a schedule."""
    program.write('roof.toml', 'period = 5\n')
    program.write('some.schedule', SCHEDULE)
    return 'console', 'roof.toml', 'some.schedule'


def console_for_setup(program):
    """Setup, which calls again and again, meets the console each time; tasks and rounds behind it do so too."""
    with again(program, *write_console(program)) as address:
        ran = subprocess.run([TOOLS / 'product/setup.py', '--program', program.path, '--settings', 'etc', '--archives', 'var', 'roof', address],
                             cwd=program.folder, stdin=subprocess.DEVNULL, capture_output=True, text=True, check=False)
        hold(f'setup: {ran.stdout}', 'of kind 16.' in ran.stdout and 'Written: etc/roof.env' in ran.stdout, True)
        for number in range(3):
            hold(f'task {number}', program.run(f'task {address} time'), (GOOD, 'time 2024-01-01 00:00:00\n'))
        for name in ('one', 'two'):
            hold(f'a round of {name}', program.run(f'station roof.toml {name}.archive {address}'), (GOOD, ROUND))


def console_for_a_class(program):
    """Many callers at once have a console each."""
    with again(program, *write_console(program)) as address, ThreadPoolExecutor(CALLERS) as pool:
        rounds = [pool.submit(program.run, f'station roof.toml {number}.archive {address}') for number in range(CALLERS)]
        for number, ended in enumerate(rounds):
            hold(f'the round of caller {number}', ended.result(), (GOOD, ROUND))


def heard(line, size):
    """So many bytes of a line, or those that come within some seconds."""
    data = b''
    line.settimeout(ANSWER_SECONDS)
    try:
        while len(data) < size and (piece := line.recv(size - len(data))):
            data += piece
    except TimeoutError:
        pass
    return data


def console_for_other_programs(program):
    """A client that wakes the console, asks its time and takes packets, as WeeWX does, is answered; and so is the next."""
    with again(program, *write_console(program)) as address:
        host, port = address.split(':')
        for number in range(2):
            with socket.create_connection((host, int(port))) as line:
                line.sendall(b'\n')
                hold(f'client {number} wakes it', heard(line, 2), b'\n\r')
                line.sendall(b'GETTIME\n')
                hold('the time', heard(line, 9)[:7], bytes([6, 0, 0, 0, 1, 1, 124]))
                line.sendall(b'LOOP 2\n')
                packets = heard(line, 1 + 2 * PACKET_BYTES)
                hold('two packets', (packets[:4], len(packets)), (b'\x06LOO', 1 + 2 * PACKET_BYTES))


def archive_for_many(program):
    """Callers have the rows of the archive at their call, also those that a round adds meanwhile."""
    files = write_console(program)
    with again(program, *files) as console:
        program.write('early.schedule', SCHEDULE.replace(' 7 ', ' 3 '))
        with again(program, 'console', 'roof.toml', 'early.schedule') as early:
            hold('a first round', program.run(f'station roof.toml roof.archive {early}').status, GOOD)
        with again(program, 'serve', 'roof.archive') as address:
            hold('its count', asked(address, b'count\n'), b'count 3\n')
            hold('a second round', program.run(f'station roof.toml roof.archive {console}').status, GOOD)
            with ThreadPoolExecutor(CALLERS) as pool:
                hold('its count then', set(pool.map(lambda _: asked(address, b'count\n'), range(CALLERS))), {b'count 7\n'})


def asked(address, request):
    """The first line of the answer to a request."""
    host, port = address.split(':')
    with socket.create_connection((host, int(port)), LONGEST) as line:
        line.sendall(request)
        line.shutdown(socket.SHUT_WR)
        return line.makefile('rb').readline()


def ended(program, *words):
    """A run of the tool that has to end by itself."""
    return subprocess.run(words_of(program, *words), cwd=program.folder, capture_output=True, text=True, timeout=2 * LONGEST, check=False)


def files_that_are_refused(program):
    """Files that the program refuses end the tool with the program's line and status, and so does an address that is taken."""
    write_console(program)
    program.write('wrong.toml', 'period = 7\n')
    trials = ((['console', 'wrong.toml', 'some.schedule', '127.0.0.1:1'], SETTINGS_FAULT, 'again: settings bad period\n'),
              (['console', 'roof.toml', 'nothing', '127.0.0.1:1'], 8, 'again: read fault\n'),
              (['serve', 'nothing', '127.0.0.1:1'], 7, 'again: disk fault\n'))
    for words, status, line in trials:
        ran = ended(program, *words)
        hold(' '.join(words), (ran.returncode, ran.stdout, ran.stderr), (status, '', line))
    with socket.create_server(('127.0.0.1', 0)) as taken:
        address = '127.0.0.1:%d' % taken.getsockname()[1]
        ran = ended(program, 'console', 'roof.toml', 'some.schedule', address)
        hold('an address that is taken', (ran.returncode, ran.stderr), (LINK_FAULT, f'again: {address}: Address already in use\n'))
    for words in (['console', 'roof.toml', 'some.schedule'], ['serve', 'a', 'nowhere'], ['task', 'a:1'], []):
        hold(' '.join(words), ended(program, *words).returncode, USAGE)


CASES = (console_for_setup, console_for_a_class, console_for_other_programs, archive_for_many, files_that_are_refused)

if __name__ == '__main__':
    sys.exit(try_all(sys.argv, __doc__, CASES, len(CASES)))
