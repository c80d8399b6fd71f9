#!/usr/bin/python3
"""Runs the command of a unit of systemd as it stands in the unit, for tools/checks/try_package.sh.

    tools/checks/run_unit.py UNIT INSTANCE

It makes the unit's folders, and reads its environment. It runs ExecCondition and then ExecStart with specifiers and variables
replaced, as the unit's user and with the unit's mask. It has to be run by root.
The status is that of the command; 0 if the condition leaves it out, which is printed; 250 if the unit cannot be run so.
"""
import os
import pwd
import re
import shlex
import subprocess
import sys
from pathlib import Path

PATH = '/usr/local/sbin:/usr/local/bin:/usr/sbin:/usr/bin:/sbin:/bin'
CACHE, STATE = '/var/cache', '/var/lib'
FOLDERS = {'StateDirectory': STATE, 'CacheDirectory': CACHE}
MASK, FOLDER_MODE = '0022', '0755'
LEFT_OUT = range(1, 255)  # statuses of a condition
FAULT = 250


class Unit:
    """The lines of a unit, with specifiers replaced."""

    def __init__(self, name, instance):
        self.specifiers = {'%i': instance, '%C': CACHE, '%S': STATE, '%%': '%'}
        text = Path(name).read_text(encoding='utf-8').replace('\\\n', ' ')
        self.lines = [line.split('=', 1) for line in text.splitlines() if re.match('[A-Za-z]+=', line)]

    def all(self, key):
        """The values of a key."""
        return [re.sub('%.', lambda found: self.specifiers[found[0]], value) for name, value in self.lines if name == key]

    def last(self, key, default):
        """The last value of a key, or else a default."""
        return (self.all(key) or [default])[-1]

    def environment(self):
        """The environment of the unit's commands."""
        found = {'PATH': PATH}
        pairs = self.all('Environment')
        for name in self.all('EnvironmentFile'):
            pairs += [line for line in Path(name).read_text(encoding='utf-8').splitlines() if re.match('[A-Za-z_]+=', line)]
        for pair in pairs:
            key, value = pair.split('=', 1)
            found[key] = ' '.join(shlex.split(value))
        return found


def words_of(command, environment):
    """The words of a command line: a variable that is a word by itself is split into words."""
    words = []
    for word in shlex.split(command):
        variable = re.fullmatch(r'\$([A-Za-z_]+)', word)
        if variable:
            words += environment.get(variable[1], '').split()
            continue
        word = re.sub(r'\$\{([A-Za-z_]+)\}', lambda found: environment.get(found[1], ''), word)
        words.append(word.replace('$$', '$'))
    return words


def user_options(unit):
    """How a process is begun as the unit's user; as root if it names none."""
    options = {'umask': int(unit.last('UMask', MASK), 8), 'cwd': '/'}
    name = unit.last('User', '')
    if name:
        user = pwd.getpwnam(name)
        options.update(user=user.pw_uid, group=user.pw_gid, extra_groups=[])
    return options


def make_folders(unit, options):
    """Makes the folders of the unit, of its user."""
    for key, above in FOLDERS.items():
        for name in unit.all(key):
            folder = Path(above, name)
            folder.mkdir(exist_ok=True)
            folder.chmod(int(unit.last(f'{key}Mode', FOLDER_MODE), 8))
            if 'user' in options:
                os.chown(folder, options['user'], options['group'])


def run(unit):
    """Runs the unit; gives the status."""
    environment, options = unit.environment(), user_options(unit)
    make_folders(unit, options)
    for command in unit.all('ExecCondition'):
        if subprocess.run(words_of(command, environment), env=environment, check=False, **options).returncode in LEFT_OUT:
            print('left out by its condition')
            return 0
    command, = unit.all('ExecStart')
    return subprocess.run(words_of(command, environment), env=environment, check=False, **options).returncode


def main():
    try:
        sys.exit(run(Unit(*sys.argv[1:])))
    except (OSError, KeyError, ValueError) as fault:
        print(f'run_unit: {fault!r}', file=sys.stderr)
        sys.exit(FAULT)


if __name__ == '__main__':
    main()
