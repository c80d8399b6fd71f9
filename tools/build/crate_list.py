"""The crates that the program stands on, as crates.txt lists them, and their files."""
import os
import re
from typing import NamedTuple

PROGRAM = 'station_program'
ROW = re.compile(r'([a-z]\w*)[^:#]*:([^#]*)')
PARTS = ('src', 'specs', 'proofs')


class Crate(NamedTuple):
    """A crate: its line of the list, and the crates that the line names. What the list lacks is the toolchain's."""
    name: str
    line: str
    uses: tuple


def needed(top):
    """The crates that the program stands on by their names, each after those below it, and the program last."""
    listed, found = {}, {}
    with open(f'{top}/crates.txt', encoding='utf-8') as lines:
        for line in lines:
            row = ROW.match(line)
            if row:
                listed[row[1]] = Crate(row[1], line.strip(), tuple(row[2].split()))

    def visit(name):
        if name in listed and name not in found:
            for used in listed[name].uses:
                visit(used)
            found[name] = listed[name]._replace(uses=tuple(used for used in listed[name].uses if used in listed))

    visit(PROGRAM)
    return found


def all_below(crates, name):
    """The names of all crates below one."""
    below = set(crates[name].uses)
    return below.union(*(all_below(crates, used) for used in below))


def files_of(folder):
    """The files that a crate is proved and built from, in order."""
    found = []
    for part in PARTS:
        for at, _, names in os.walk(f'{folder}/{part}'):
            found += [f'{at}/{name}' for name in names if name.endswith(('.rt', '.antt'))]
    return sorted(found)


def lines_of(folder, ending):
    """How many lines the crate's files with that ending have."""
    total = 0
    for name in files_of(folder):
        if name.endswith(ending):
            with open(name, 'rb') as file:
                total += file.read().count(b'\n')
    return total
