"""A server of PostgreSQL of one's own, which listens at a socket in a folder, for trials and measures."""
import glob
import os
import pwd
import shutil
import subprocess
from pathlib import Path

SERVERS = '/usr/lib/postgresql/*/bin'
USERS = ('postgres', 'nobody')  # of these one runs the server if root tries it, since it does not run as root
USER = 'trial'  # of its databases
TICKS = os.sysconf('SC_CLK_TCK')  # of the processor in a second
PARENT, OWN_TICKS, WITH_ENDED = 1, slice(11, 13), slice(11, 15)  # of /proc/PID/stat behind the name: those who ended count too


class NoServer(Exception):
    """Why there is no server."""


def newest():
    """The folder with the commands of the newest PostgreSQL of this machine, if there is one."""
    return next(reversed(sorted(glob.glob(SERVERS))), None)


def counted(process):
    """The numbers of a process behind its name."""
    return Path(f'/proc/{process}/stat').read_text(encoding='utf-8', errors='replace').rpartition(') ')[2].split()


class Server:
    """A server in a folder of its own. It is given options such as `fsync=off`."""

    def __init__(self, commands, folder, options):
        self.commands, self.folder = commands, folder
        self.user = None
        if os.geteuid() == 0:
            known = {user.pw_name for user in pwd.getpwall()}
            self.user = next(name for name in USERS if name in known)
            shutil.chown(folder, self.user)
        self.run('initdb', '-A', 'trust', '-U', USER, '-E', 'UTF8', '--locale=C', '-N', '-D', f'{folder}/data')
        given = ' '.join(f'-c {option}' for option in ("listen_addresses=''", *options))
        self.run('pg_ctl', '-w', '-D', f'{folder}/data', '-l', f'{folder}/log', '-o', f'-k {folder} {given}', 'start')

    def run(self, command, *words):
        """Runs a command of the server as its user."""
        ran = subprocess.run([f'{self.commands}/{command}', *words], user=self.user, cwd=self.folder,
                             stdout=subprocess.DEVNULL, check=False)
        if ran.returncode:
            raise NoServer(f'{command}: status {ran.returncode}')

    def place(self, name):
        """A database of this server, as libpq takes it."""
        return f'host={self.folder} user={USER} dbname={name}'

    def processor_seconds(self):
        """What its processes have taken of the processor so far, with those that have ended."""
        first = Path(f'{self.folder}/data/postmaster.pid').read_text(encoding='ascii').split()[0]
        ticks = sum(map(int, counted(first)[WITH_ENDED]))
        for process in os.listdir('/proc'):
            try:
                numbers = counted(process) if process.isdigit() else None
            except OSError:
                continue  # it has just ended
            if numbers and numbers[PARENT] == first:
                ticks += sum(map(int, numbers[OWN_TICKS]))
        return ticks / TICKS

    def stop(self):
        """Ends it."""
        self.run('pg_ctl', '-w', '-m', 'immediate', '-D', f'{self.folder}/data', 'stop')
