"""How much there is to read of some definitions, and of those of the toolchain's ported crates beside them."""
from typing import NamedTuple

import kit_files


class Counts(NamedTuple):
    """How many definitions there are, in how many files, crates and lines with comments; and types and constants of the code."""
    definitions: int
    files: int
    crates: int
    lines: int
    types: int
    type_lines: int


def counts_of(reached):
    """The counts of what is reached."""
    definitions, types = reached.definitions, reached.types.values()
    return Counts(len(definitions), len({(name.crate, name.module) for name in definitions}),
                  len({name.crate for name in definitions}), sum(one.size for one in definitions.values()),
                  len(types), sum(item.size for item in types))


def _only(reached, wanted):
    return reached._replace(
        definitions={name: one for name, one in reached.definitions.items() if wanted(name.crate)},
        types={key: item for key, item in reached.types.items() if wanted(item.crate)})


def of_repository(reached):
    """What of it stands in this repository."""
    return _only(reached, lambda crate: not kit_files.is_kit(crate))


def of_kit(reached):
    """What of it stands in ported crates of the toolchain."""
    return _only(reached, kit_files.is_kit)


def joined(several):
    """All that is reached by one or another."""
    first, *others = several
    whole = first._replace(definitions=dict(first.definitions), types=dict(first.types), toolchain=set(first.toolchain))
    for other in others:
        whole.definitions.update({name: one for name, one in other.definitions.items() if name not in whole.definitions
                                  or one.size > whole.definitions[name].size})
        whole.types.update(other.types)
        whole.toolchain.update(other.toolchain)
    return whole


def amount(counts):
    """The counts in words."""
    return (f'{counts.definitions:,} definitions in {counts.lines:,} lines, and {counts.types:,} types and constants of '
            f'the code in {counts.type_lines:,} lines')
