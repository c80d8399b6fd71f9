"""The copies of the tree in which crates are proved side by side.

In one folder a proof locks the crates below its own, and a second proof waits. So each crate is proved in a room, which
is a copy of what the crate is built from. What is built goes back to the crate's own folder, and from there by hard links
into the rooms of the crates above. A room that a killed run left is emptied by the next run.
"""
import contextlib
import fcntl
import os
import shutil
import time

import crate_list

LOOK_AGAIN = 0.2  # seconds between two looks at a lock
NOT_READ = shutil.ignore_patterns('out', 'must-fail')  # by a proof
LIBRARY = 'out/rlib'  # that the toolchain builds of a crate


class Rooms:
    """The rooms of one run. The crates are those that it builds by their names, and `check` raises once it is stopped."""

    def __init__(self, top, crates, check, say):
        self.top, self.crates, self.check, self.say = top, crates, check, say
        # The gate refuses a second crates.txt anywhere but below .git, also one that a killed run left.
        is_clone = os.path.isdir(f'{top}/.git')
        self.base = f'{top}/.git/station_build' if is_clone else f'{top}/out/station_build'
        self.sources = f'{self.base}/sources'
        self.rooms = f'{self.base}/rooms'
        self.temporary = f'{self.base}/temporary'

    def open(self):
        """Copies the crates' files as they stand now, so that a change meanwhile is for the next run."""
        self.close()
        for folder in (self.rooms, self.temporary):
            os.makedirs(folder)
        for name in self.crates:
            shutil.copytree(f'{self.top}/crates/{name}', f'{self.sources}/{name}', ignore=NOT_READ)

    def close(self):
        """Empties each room that is left, and removes all."""
        with contextlib.suppress(FileNotFoundError):
            for name in os.listdir(self.rooms):
                self.leave(name)
        shutil.rmtree(self.base, ignore_errors=True)

    def enter(self, name):
        """Makes the room of a crate, with what was built of it before and the libraries below, and returns its folder there."""
        room = f'{self.rooms}/{name}'
        below = crate_list.all_below(self.crates, name)
        for part in (*below, name):
            shutil.copytree(f'{self.sources}/{part}', f'{room}/crates/{part}', copy_function=os.link)
        with open(f'{room}/crates.txt', 'w', encoding='utf-8') as lines:
            lines.writelines(f'{self.crates[part].line}\n' for part in (*below, name))
        shutil.copy(f'{self.top}/HANDLES', room)
        for part in below:
            library = f'crates/{part}/{LIBRARY}'
            with self.held(part, fcntl.LOCK_SH):
                shutil.copytree(f'{self.top}/{library}', f'{room}/{library}', copy_function=os.link)
        with self.held(name, fcntl.LOCK_EX):
            move_built(f'{self.top}/crates/{name}', f'{room}/crates/{name}')
        return f'{room}/crates/{name}'

    def leave(self, name):
        """Moves what a crate's room holds of it to the crate's own folder, and removes the room."""
        room, home = f'{self.rooms}/{name}', f'{self.top}/crates/{name}'
        if os.path.isdir(home):
            with self.held(name, fcntl.LOCK_EX):
                move_built(f'{room}/crates/{name}', home)
        shutil.rmtree(room, ignore_errors=True)

    @contextlib.contextmanager
    def held(self, name, kind):
        """Keeps other runs of the toolchain out of a crate's folder, by the lock that they take too."""
        folder = os.open(f'{self.top}/crates/{name}', os.O_RDONLY)
        try:
            is_told = False
            while not is_taken(folder, kind):
                if not is_told:
                    self.say(f'{name} is in use by another run of rt: waiting for it')
                is_told = True
                self.check()
                time.sleep(LOOK_AGAIN)
            yield
        finally:
            os.close(folder)


def is_taken(folder, kind):
    """Takes a lock, or returns that another has it."""
    try:
        fcntl.flock(folder, kind | fcntl.LOCK_NB)
    except BlockingIOError:
        return False
    return True


def move_built(one, other):
    """Moves what was built of a crate from one folder to another, in the place of what is there."""
    with contextlib.suppress(FileNotFoundError):
        for name in os.listdir(f'{one}/out'):
            to = f'{other}/out/{name}'
            remove(to)
            os.makedirs(f'{other}/out', exist_ok=True)
            os.rename(f'{one}/out/{name}', to)


def remove(path):
    """Removes a file, or a folder with all in it."""
    if os.path.isdir(path):
        shutil.rmtree(path)
    elif os.path.lexists(path):
        os.remove(path)
