"""The types and constants in crates/NAME/src that definitions speak of, with what stands for each in a proof."""
import re
from functools import cache
from pathlib import Path
from typing import NamedTuple

import kit_files
import spec_files

ITEM = r'^((?:[ \t]*(?:///|//|#\[)[^\n]*\n)*)((?:pub(?:\([a-z]+\))? )?(?:%s) %s\b)'
MODEL = re.compile(r'^impl(?:<[^\n]*>)? Model for (\w+)[^\n]*\{\n.*?^\}', re.M | re.S)
INVERSE = re.compile(r'\n(?: *\n)? *ghost inverse(?:_ok)? = .*?\} *\};', re.S)  # how a value goes back into its bytes
USE = re.compile(r'^(?:pub )?use (\w+)::([\w:]*?)(?:\{([^}]*)\}|(\w+));', re.M)
WORD = re.compile(r'\b[A-Z]\w*')
KINDS = 'struct|enum|const'
CONSTANTS = 'TheConstants'
COMMENT = re.compile(r'//[^\n]*')
BRINGS_IN = re.compile(r'^ *(?:ghost )?use .*;$', re.M)
NAME = re.compile(r"[A-Za-z_][\w'-]*")


class RustItem(NamedTuple):
    """A type or a constant of the code: its crate, its file, its name and its lines."""
    crate: str
    path: Path
    word: str
    lines: tuple

    @property
    def size(self):
        """How many lines it has, empty ones aside."""
        return sum(1 for line in self.lines if line.strip())

    @property
    def text(self):
        """Its lines."""
        return '\n'.join(self.lines)

    @property
    def words(self):
        """The names that it has, but for comments and for what it brings in."""
        return dict.fromkeys(NAME.findall(BRINGS_IN.sub('', COMMENT.sub('', self.text))))


@cache
def _text(path):
    return path.read_text(encoding='utf-8')


@cache
def _sources(crate):
    return sorted((kit_files.folder_of(crate) / 'src').rglob('*.rt'))


def _body_end(text, start):
    """Where the item ends that begins here: behind its braces, or at its semicolon."""
    depth = 0
    for place in range(start, len(text)):
        if text[place] in '{([':
            depth += 1
        elif text[place] in '})]':
            depth -= 1
            if depth == 0 and text[place] == '}':
                return place + 1
        elif text[place] == ';' and depth == 0:
            return place + 1
    return len(text)


def _is_idle(line, words):
    """Whether a line brings in names, and none of these words."""
    names = spec_files.imports_of(line) if BRINGS_IN.match(line) else {}
    return bool(names) and not any(name in words or name.startswith('◌') for name in names)


def item_in(crate, path, word):
    """The type or constant of this name in a file, with what stands for it in a proof, or None."""
    text = _text(path)
    found = re.search(ITEM % (KINDS, word), text, re.M)
    if not found:
        return None
    lines = text[found.start():_body_end(text, found.start(2))].split('\n')
    for model in MODEL.finditer(text):
        if model[1] == word:
            lines += [''] + INVERSE.sub('', model[0]).split('\n')
    words = RustItem(crate, path, word, tuple(lines)).words
    return RustItem(crate, path, word, tuple(line for line in lines if not _is_idle(line, words)))


def declared(crate, module, word):
    """The item that a module named `declared.` means, or None if the crate is not this repository's."""
    parts = module.split('.')[1:]
    if not parts or not _sources(crate):
        return None
    owner = next((number for number, part in enumerate(parts) if part[0].isupper()), None)
    name = word if owner is None or parts[owner] == CONSTANTS else parts[owner]
    folder = kit_files.folder_of(crate) / 'src'
    path = folder.joinpath(*parts[:owner]).with_suffix('.rt')
    return item_in(crate, path, name) if path.is_file() and name else None


def _brought_in(crate, text):
    """The crate and the module of each type that a file brings in; a module inside its own crate is not told."""
    found = {}
    for first, between, several, one in USE.findall(text):
        owner = crate if first in ('crate', 'self', 'super') or not _sources(first) else first
        if first == 'std':
            continue
        for word in (several or one).split(','):
            found[word.split(' as ')[-1].strip().split('::')[-1]] = owner
    return found


@cache
def _somewhere(crate, word):
    """The type of this name of a crate, wherever it stands."""
    return next(filter(None, (item_in(crate, path, word) for path in _sources(crate))), None)


def fields_of(item):
    """The types and constants of this repository that a type's own lines name."""
    text = _text(item.path)
    owners = _brought_in(item.crate, text)
    for word in sorted(set(WORD.findall(COMMENT.sub('', item.text))) - {item.word}):
        found = item_in(item.crate, item.path, word) or (_somewhere(owners[word], word) if word in owners else None)
        if found:
            yield found


def imports_of(item):
    """What the file of a type brings in from specs."""
    return spec_files.imports_of(_text(item.path))
