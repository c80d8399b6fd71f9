#!/usr/bin/env python3
"""Writes docs/DEFINITIONS.md: what the contracts speak of, from the comments of the definitions.

    tools/pages/definitions.py            writes the page
    tools/pages/definitions.py --check    writes nothing; the status is 1 if the page is not what would be written

A name that two definitions have is printed, and the status is 1 then. What no comment says, such as the sources, stands in
tools/pages/definitions/sources.md by crates.
"""
import re
import sys
import textwrap
from collections import defaultdict

sys.dont_write_bytecode = True  # nothing is left beside the scripts

import public_contracts
import spec_files

PAGE = spec_files.TOP / 'docs/DEFINITIONS.md'
SOURCES = spec_files.TOP / 'tools/pages/definitions/sources.md'
WIDTH = 120
TESTS = '_tests'
FIELD = re.compile(r'^  pub (\w+) :', re.M)
OF_MANY = ('◌>>=◌',)  # `do` reads it by this name


def sources():
    """What stands first on the page, and what is said of each crate."""
    opening, *parts = re.split(r'^## (\w+)\n', SOURCES.read_text(encoding='utf-8'), flags=re.M)
    return opening.strip(), {crate: text.strip() for crate, text in zip(parts[::2], parts[1::2])}


def about(crate):
    """The first comment of a crate."""
    text = (spec_files.TOP / 'crates' / crate / 'src/lib.rt').read_text(encoding='utf-8')
    lines = [line.removeprefix('//!').strip() for line in text.split('\n') if line.startswith('//!')]
    return '\n'.join(lines)


def shown(definition):
    """What a definition without a comment says by itself: the names of its fields, its one equation, or its type."""
    if definition.kind == 'record':
        return ', '.join(f'`{name}`' for name in FIELD.findall(definition.text))
    if len(definition.lines) == 2:
        return f'`{definition.lines[1]}`'
    return f'`{definition.lines[0].partition(" : ")[2]}`'


def entry(definition):
    """The entry of a definition: its comment, or else what it says by itself."""
    words = spec_files.plain(definition.comment) or shown(definition)
    return textwrap.fill(f'- `{definition.name.word.strip("◌")}`: {words}', WIDTH, subsequent_indent='  ',
                         break_long_words=False, break_on_hyphens=False)


def file_part(file, cited):
    """The entries of a file, in its order."""
    path = file.path.relative_to(spec_files.TOP)
    entries = [entry(one) for one in file.definitions.values() if one.name in cited]
    return f'[{file.module}](../{path}). {file.heading}\n\n' + '\n'.join(entries) + '\n'


def shared(files):
    """The names that several definitions have, each with the crates in which they stand."""
    crates = defaultdict(list)
    for file in files.values():
        for word in file.definitions:
            crates[word].append(file.crate)
    return {word: found for word, found in crates.items() if len(found) > 1 and word not in OF_MANY}


def page(files):
    """The text of the page."""
    crates = [crate for crate in spec_files.crates_in_order() if not crate.endswith(TESTS)]
    cited = set().union(*(public_contracts.cited_by(crate, files) for crate in crates))
    opening, said = sources()
    parts = [opening + '\n']
    for crate in crates:
        own = [file for file in files.values() if file.crate == crate
               and any(one.name in cited for one in file.definitions.values())]
        if own:
            parts += [f'## {crate}\n', about(crate) + '\n', said.pop(crate) + '\n' if crate in said else '']
            parts += [file_part(file, cited) for file in own]
    if said:
        raise SystemExit(f'{SOURCES}: no contract cites a definition of {", ".join(said)}')
    return '\n'.join(filter(None, parts))


def main(words):
    if words not in ([], ['--check']):
        print(__doc__.split('\n\n')[1], file=sys.stderr)
        return 2
    files = spec_files.read_specs()
    text, several = page(files), shared(files)
    for word, crates in several.items():
        print(f'{word} stands in {" and ".join(crates)}: give each definition a name with its subject')
    if not words:
        PAGE.write_text(text, encoding='utf-8')
    elif PAGE.read_text(encoding='utf-8') != text:
        print('docs/DEFINITIONS.md is not what tools/pages/definitions.py makes: run it, and read what changed')
        return 1
    return 1 if several else 0


if __name__ == '__main__':
    sys.exit(main(sys.argv[1:]))
