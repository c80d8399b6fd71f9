"""A console on a serial line of this machine: socat serves its adapter at a port, for setup and then by a unit."""
import errno
import os
import re
import shutil
import socket
import subprocess
import time
from contextlib import contextmanager
from pathlib import Path

import stations

HOST, FIRST_PORT = '127.0.0.1', 22222
BY_ID = '/dev/serial/by-id'
LINE = 'b19200,rawer,cs8,parenb=0,cstopb=0,clocal=1'  # 19,200 baud, 8 data bits, no parity, one stop bit, no handshake
SEPARATORS = re.compile(r'[:,!\s\\"\']')  # which socat and the unit read otherwise
BEGIN_SECONDS, GLANCE_SECONDS = 5, 0.05
UNIT = 'jofitrana-line@{}.service'


class NoLine(Exception):
    """Why an adapter cannot be served, in one line."""


def is_device(word):
    """Whether a word of setup names an adapter and no address."""
    return word.startswith('/')


def lasting_name(device):
    """The name of an adapter that stays the same in another socket, if there is one."""
    folder = Path(BY_ID)
    links = sorted(folder.iterdir()) if folder.is_dir() else []
    return next((str(link) for link in links if os.path.realpath(link) == os.path.realpath(device)), device)


def checked(device):
    """The name of an adapter that is there."""
    if not Path(device).is_char_device():
        raise NoLine(f'{device} is no serial adapter. Those of this machine: ls {BY_ID}')
    name = lasting_name(device)
    if SEPARATORS.search(name):
        raise NoLine(f'{name} has a colon, a comma or a blank in its name: take its name in {BY_ID}')
    return name


def address_of(name, device, folder):
    """The address at which an adapter is served: the station's own, or the next that nobody has."""
    taken = set()
    for file in Path(folder).glob('*.env'):
        try:
            other = stations.read_station(file.stem, folder)
        except stations.StationFault:
            continue
        if other.name == name and other.device == device and other.address:
            return other.address
        taken.add(other.address)
    addresses = (f'{HOST}:{port}' for port in range(FIRST_PORT, 1 << 16))
    return next(address for address in addresses if address not in taken and not is_served(address))


def is_served(address):
    """Whether a port is taken already."""
    host, port = address.rsplit(':', 1)
    with socket.socket() as door:
        door.setsockopt(socket.SOL_SOCKET, socket.SO_REUSEADDR, 1)
        try:
            door.bind((host, int(port)))
        except OSError as fault:
            return fault.errno == errno.EADDRINUSE
    return False


def command_of(device, address):
    """The command that serves an adapter, one caller at a time."""
    host, port = address.rsplit(':', 1)
    return ['socat', f'TCP-LISTEN:{port},bind={host},reuseaddr,fork,max-children=1', f'FILE:{device},{LINE}']


@contextmanager
def served(device, address):
    """Serves an adapter at an address, unless its unit does."""
    if is_served(address):
        yield
        return
    if shutil.which('socat') is None:
        raise NoLine('socat is missing; on Debian: apt install socat')
    with subprocess.Popen(command_of(device, address)) as line:
        try:
            end = time.monotonic() + BEGIN_SECONDS
            while not is_served(address) and line.poll() is None and time.monotonic() < end:
                time.sleep(GLANCE_SECONDS)
            yield
        finally:
            line.terminate()


def start_unit(name, report):
    """Has the system serve the adapter of a station from now on."""
    words = ['systemctl', 'enable', '--now', UNIT.format(name)]
    try:
        status = subprocess.run(words, check=False, stdout=subprocess.DEVNULL, stderr=subprocess.DEVNULL).returncode
    except OSError:
        status = None
    if status == 0:
        report.found(f'Its line is served from now on, by {UNIT.format(name)}.')
    else:
        report.trouble(f'Its line is not served yet. Run: sudo {" ".join(words)}')
