#!/usr/bin/python3
"""Runs the commands of README's 'Use it' in their order, each as it stands there, over a modelled console. Behind them come those of
USING that name a station, and those that bring a station to a new computer.

    tools/checks/try_use_it.py PROGRAM

They run in a root over this machine's, in which the program is installed, and in a network of its own. There `sudo` runs its words,
and `systemctl` runs the units' commands. Just long times are made short. The last line is 'N passed, M failed', and the status is 1
if any failed. It takes root with `unshare` and `ip`, and some two minutes.
"""
import os
import re
import shlex
import shutil
import signal
import socket
import subprocess
import sys
import tempfile
import time
from contextlib import contextmanager
from datetime import datetime, timedelta
from pathlib import Path

sys.dont_write_bytecode = True  # nothing is left beside the scripts

from trying import LONGEST, SLEEPER, Differs, hold, leave_out

TOOLS = Path(__file__).resolve().parent.parent
HOST, PORT = '192.168.1.20', 22222  # of the console, in README
JULY_ROWS, DAY_ROWS = 100, 288
PERIOD = timedelta(minutes=5)
OWN = 'OWN_ROOT'  # of the environment: whether mounts and a network of its own are there
LINK_FAULT = 6
PATH = '/noting:/usr/local/sbin:/usr/local/bin:/usr/sbin:/usr/bin:/sbin:/bin'
NAP = 0.05
SHORTER = {' 86400 ': ' 5 '}  # seconds of live packets
OF_A_STATION = re.compile(r'(sudo )?jofitrana-\w+ .*--station ')
LEAST_OF_USING = 6
OBSERVER = '/home/observer'  # whose folder it is
LEAVE = '(the computer is left)'

SUDO = '#!/bin/sh\nexec "$@"\n'
SYSTEMCTL = f"""\
#!/bin/sh
echo "$*" >>/noted
case $* in
    'start jofitrana@'*) unit=${{2#jofitrana@}} && exec {TOOLS}/checks/run_unit.py /usr/lib/systemd/system/jofitrana@.service "${{unit%.service}}" ;;
esac
"""

# What a command has to print. A command without an entry has to end well.
PRINTED = {
    'sudo jofitrana-setup': r'It keeps a record every 5 minutes\..*Written: /etc/jofitrana/roof\.toml.*Now make the first round',
    'sudo systemctl start': r'round ok attempts 1 pages \d+ skipped 0 acked 388 rows 388',
    'jofitrana task': r'time \d{4}-\d\d-\d\d',
    'jofitrana-packets': r'packets taken [1-9]\d*, passed over 0',
    'jofitrana copy': 'copied 388',
    'jofitrana report': r'day 2024-07-01 outTemp min 650 at 2024-07-01 00:05 max 650',
    'jofitrana climate': r'climate 2024-07 days 1 mean 6500 high 650',
    'jofitrana-check': r'JOFITRANA \w+ - last row ',
    'jofitrana-salvage --station': r'saved\.archive has its first 388 rows',
    'jofitrana-salvage --until': r'kept\.archive has its first 100 rows',
    'jofitrana replay': r'end rows 2584 days 10',
    'jofitrana fleet': r'1 end rows .*2 end rows ',
    'jofitrana make': r'made 5000 records 85 rounds',
    'jofitrana soft': r'row \d{4}-\d\d-\d\d ',
    'jofitrana import': 'imported 12 passed 0 rows 12',
}
STATUSES = {'jofitrana-check': (0, 1, 2)}  # the modelled console has no weather between 2024 and this day, and it stands still


def commands_in(text):
    """The commands of a text, which are indented there."""
    lines = [re.split(r'\s+# ', line)[0].strip() for line in text.splitlines() if line.startswith('    ')]
    return [line for line in lines if line and not line.startswith('# ')]


def commands():
    """The commands of README's 'Use it', and behind them those of USING that name a station."""
    readme, using = ((TOOLS.parent / name).read_text(encoding='utf-8') for name in ('README.md', 'docs/USING.md'))
    of_stations = [line for line in commands_in(using) if OF_A_STATION.match(line)]
    hold(f'{len(of_stations)} commands of USING are enough', len(of_stations) >= LEAST_OF_USING, True)
    moving = commands_in(using.split('### A new computer\n')[1].split('\n### ')[0])
    first = next(place for place, line in enumerate(moving) if line.startswith('sudo install'))
    return [*commands_in(readme.split('## Use it\n')[1].split('\n## ')[0]), f'cd {OBSERVER}', *of_stations,
            *moving[:first], LEAVE, *moving[first:], 'sudo systemctl start jofitrana@roof']


def leave(root):
    """Takes the station's settings to the observer's folder, and all else of it away, as on a new computer."""
    for file in (root / 'etc/jofitrana').glob('roof.*'):
        shutil.copy(file, root / OBSERVER[1:])
    for gone in ('etc/jofitrana', 'var/lib/jofitrana'):
        shutil.rmtree(root / gone)


def make_root(folder, program):
    """Lays a root over this machine's, with the program installed."""
    root, over = folder / 'root', folder / 'over'
    for made in (root, over):
        made.mkdir()
    run('mount', '-t', 'tmpfs', 'none', over)
    for part in ('upper', 'work'):
        (over / part).mkdir()
    run('mount', '-t', 'overlay', 'none', '-o', f'lowerdir=/,upperdir={over}/upper,workdir={over}/work', root)
    run('mount', '--rbind', '/proc', root / 'proc')
    run('mount', '--rbind', '/dev', root / 'dev')
    for gone in ('etc/jofitrana', 'var/lib/jofitrana', 'var/cache/jofitrana', 'var/lib/weewx', OBSERVER[1:]):
        shutil.rmtree(root / gone, ignore_errors=True)
    (root / 'noting').mkdir()
    for name, text in (('sudo', SUDO), ('systemctl', SYSTEMCTL)):
        (root / 'noting' / name).write_text(text)
        (root / 'noting' / name).chmod(0o755)
    (root / OBSERVER[1:]).mkdir(parents=True)
    (root / 'var/lib/weewx').symlink_to(OBSERVER)  # where the database of README's commands stands
    run(TOOLS / 'build/install.sh', 'install', '--prefix', root / 'usr', '--program', program)
    subprocess.run(['chroot', root, 'useradd', '--system', '--no-create-home', 'jofitrana'], capture_output=True, check=False)
    return root


def run(*words):
    """Runs a command that has to end well."""
    subprocess.run(words, check=True, stdout=subprocess.DEVNULL)


def words_of(root, command, folder):
    """The words that run a command of the shell in the root, in a folder."""
    return ['chroot', root, 'env', f'PATH={PATH}', f'HOME={OBSERVER}', 'TZ=UTC', 'bash', '-c', f'cd {folder} && {command}']


def is_there(place):
    """Whether somebody listens at a port of this machine. It does not call there, since a console takes one caller."""
    listening = f':{place[1]:04X} 00000000:0000 0A'
    return listening in Path('/proc/net/tcp').read_text(encoding='ascii')


@contextmanager
def started(words, place):
    """A command that serves at a place, until it is ended."""
    with subprocess.Popen(words, stdout=subprocess.PIPE, stderr=subprocess.STDOUT, text=True, start_new_session=True) as process:
        try:
            began = SLEEPER.now()
            while not is_there(place):
                if process.poll() is not None or began.is_over(LONGEST):
                    raise Differs(f'it does not serve at {place}')
                time.sleep(NAP)
            yield process
        finally:
            if process.poll() is None:
                os.killpg(process.pid, signal.SIGKILL)


def try_service(root, command, folder):
    """Tries a command that answers calls: an archive over the network, or a modelled console."""
    host, port = re.search(r'([\d.]+):(\d+)', command).groups()
    with started(words_of(root, 'exec ' + command, folder), (host, int(port))) as process:
        if ' serve ' in command:
            with socket.create_connection((host, int(port))) as line:
                line.sendall(b'count\n')
                hold('its answer', line.makefile('rb').readline(), b'count 388\n')
            process.wait(LONGEST)
            hold('its status', process.returncode, LINK_FAULT)
            return
        for _ in range(2):
            hold('its kind', printed_by(root, f'jofitrana task {host}:{port} kind', folder), (0, 'kind 16\n'))
        os.killpg(process.pid, signal.SIGINT)
        hold('its status', process.wait(LONGEST), 0)


def printed_by(root, command, folder):
    """The status of a command, and what it prints."""
    ran = subprocess.run(words_of(root, command, folder), stdout=subprocess.PIPE, stderr=subprocess.STDOUT, text=True, check=False)
    return ran.returncode, ran.stdout


def try_command(root, command, folder):
    """Tries a command as it stands, but for a long time."""
    if re.search(r' serve |-again ', command):
        try_service(root, command, folder)
        return
    for long, short in SHORTER.items():
        command = command.replace(long, short)
    status, printed = printed_by(root, command, folder)
    name = ' '.join(shlex.split(command)[:3 if command.startswith('sudo systemctl') else 2])
    key = next((key for key in PRINTED if command.startswith(key)), name)
    if status not in STATUSES.get(key, (0,)):
        raise Differs(f'status {status}: {printed[-400:]}')
    if not re.search(PRINTED.get(key, ''), printed, re.DOTALL):
        raise Differs(f'it printed {printed[-400:]!r}, in place of {PRINTED[key]!r}')


def console_words():
    """The words of a modelled console with a hundred records of July 2024, and those of the last day."""
    last = datetime.now().replace(second=0, microsecond=0)
    last -= timedelta(minutes=last.minute % 5)
    first = last - (DAY_ROWS - 1) * PERIOD
    return [TOOLS / 'checks/fake_console.py', '--host', HOST, '--run', '2024-07-01 00:05', str(JULY_ROWS),
            '--run', f'{first:%Y-%m-%d %H:%M}', str(DAY_ROWS), str(PORT)]


def try_all(root):
    """Tries all commands; gives how many passed and failed."""
    passed = failed = 0
    folder = OBSERVER
    for command in commands():
        if command == LEAVE:
            leave(root)
            continue
        if command.startswith('cd '):
            folder = command.removeprefix('cd ')
            continue
        try:
            try_command(root, command, folder)
            passed += 1
        except Exception as reason:  # whatever it is, the other commands go on
            failed += 1
            print(f'{command}: {reason}', file=sys.stderr)
    return passed, failed


def has_room():
    """Whether mounts and a network of its own can be had."""
    script = f'ip link set lo up && ip address add {HOST}/32 dev lo && f=$(mktemp -d) && mount -t tmpfs none "$f"; s=$?; umount "$f"; exit $s'
    return (os.geteuid() == 0 and all(map(shutil.which, ('unshare', 'ip', 'mount')))
            and subprocess.run(['unshare', '-m', '-n', 'sh', '-c', script], capture_output=True, check=False).returncode == 0)


def main(words):
    """Tries the commands of README; gives the status."""
    if len(words) != 2:
        sys.exit(__doc__)
    if OWN not in os.environ:
        if not has_room():
            leave_out("mounts and a network of its own are refused: README's 'Use it' was not tried")
            return 0
        os.environ[OWN] = 'yes'
        os.execvp('unshare', ['unshare', '-m', '-n', *words])
    run('ip', 'link', 'set', 'lo', 'up')
    run('ip', 'address', 'add', f'{HOST}/32', 'dev', 'lo')
    os.environ['TZ'] = 'UTC'
    time.tzset()
    folder = Path(tempfile.mkdtemp())
    try:
        root = make_root(folder, Path(words[1]).resolve())
        with started(console_words(), (HOST, PORT)):
            passed, failed = try_all(root)
    finally:
        for mount in ('root', 'over'):
            subprocess.run(['umount', '-Rl', folder / mount], check=False)
        shutil.rmtree(folder, ignore_errors=True)
    print(f'{passed} passed, {failed} failed')
    return 1 if failed else 0


if __name__ == '__main__':
    sys.exit(main(sys.argv))
