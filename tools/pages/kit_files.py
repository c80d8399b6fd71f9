"""The definitions of the ported crates that the toolchain brings, such as `toml`: they stand in its folder, which is called KIT here.

Its standard library, whose words are those of the logic, is not read.
"""
import shutil
from functools import cache
from pathlib import Path

import spec_files

STANDARD = ('std', 'core', 'std_alloc', 'std_heap')
CALLED = Path('KIT/rattle')


@cache
def kit():
    """The folder of all crates of the toolchain, beside the command `rt`."""
    command = shutil.which('rt')
    if not command:
        raise SystemExit('the toolchain (rt) is missing: what the definitions cite of it cannot be counted')
    return Path(command).resolve().parent.parent / 'rattle'


def folder_of(crate):
    """The folder of a crate: one of this repository, or a ported one of the toolchain."""
    own = spec_files.TOP / 'crates' / crate
    return own if own.is_dir() or crate in STANDARD else kit() / crate


def shown(path):
    """A path as a page names it: below the top of this repository, or below the toolchain's folder."""
    top = spec_files.TOP
    return path.relative_to(top) if path.is_relative_to(top) else CALLED / path.relative_to(kit())


def is_kit(crate):
    """Whether a crate is one of the toolchain."""
    return not (spec_files.TOP / 'crates' / crate).is_dir()


def cited_crates(files):
    """The crates of whose definitions these files bring some in, but for the standard library."""
    return {name.crate for file in files.values() for name in file.imports.values()} - set(STANDARD)


def with_ported(files):
    """These files of definitions, and those of each ported crate from which they, or ported ones, bring some in."""
    found, known = dict(files), {crate for crate, _ in files}
    while missing := sorted(crate for crate in cited_crates(found) - known if folder_of(crate).is_dir()):
        for crate in missing:
            found.update(spec_files.read_crate(crate, folder_of(crate)))
        known.update(missing)
    return found
