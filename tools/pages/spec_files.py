"""The definitions in crates/NAME/specs, file by file: each with its comment and its lines."""
import re
from pathlib import Path
from typing import NamedTuple

TOP = Path(__file__).resolve().parents[2]
IMPORT = re.compile(r'^\s*(?:ghost |unfoldable )?(?:pub )?use Rattle\.(\w+)\.specs\.([\w.]+?)'
                    r'(?:\.\{([^}]*)\}| as (\w+))?\s*;?$', re.M)
DECLARED = re.compile(r'^(?:(?:abbrev|unfoldable|pub) )*(?:(record|data) )?(\S+)')
NAMED = re.compile(r'^(?:abbrev|unfoldable|pub|record|data) |^[^\s:]+ : ')
MODIFIER = re.compile(r'^infix[lr]? ')
BLOCK = re.compile(r'^(?:(?:abbrev |unfoldable )?mutual|module .* where)$')
INSIDE = '  '
USE = re.compile(r'(?:(?:unfoldable )?pub )?use ')
CONSTRUCTOR = re.compile(r'^  ([A-Za-z_][\w-]*) :', re.M)
CRATE_ROW = re.compile(r'([a-z]\w*):')


class Name(NamedTuple):
    """A name of a crate's module; of the module itself where `word` is None."""
    crate: str
    module: str
    word: str


class Definition(NamedTuple):
    """A definition: where it stands, its kind, and its lines with the comment before it."""
    name: Name
    kind: str
    comment: tuple
    lines: tuple

    @property
    def size(self):
        """How many lines it has with its comment, empty ones aside."""
        return sum(1 for line in self.comment + self.lines if line.strip())

    @property
    def text(self):
        """Its lines without the comment."""
        return '\n'.join(self.lines)

    def constructors(self):
        """The names by which values of this data type are made."""
        return CONSTRUCTOR.findall(self.text) if self.kind == 'data' else []


class SpecFile(NamedTuple):
    """A file of definitions: its first comment, what it brings in by local names, and its definitions in order."""
    crate: str
    module: str
    path: Path
    heading: str
    imports: dict
    definitions: dict

    def resolve(self, word):
        """The definition of this file that has a name, also one of its constructors, or None."""
        if word in self.definitions:
            return self.definitions[word].name
        for definition in self.definitions.values():
            if word in definition.constructors():
                return definition.name
        return None


def plain(comment):
    """A comment's words in one line."""
    return ' '.join(line.strip().removeprefix('--').strip() for line in comment).strip()


def imports_of(text):
    """What a source brings in from specs: the name that each local word means."""
    found = {}
    for crate, module, words, alias in IMPORT.findall(text):
        if alias or not words:
            found[alias or module.split('.')[-1]] = Name(crate, module, None)
        for word in filter(None, (word.strip() for word in words.split(','))):
            given, _, local = word.partition(' as ')
            found[(local or given).strip()] = Name(crate, module, given.strip())
    return found


def _outside_blocks(lines):
    """The lines without the heads of blocks: what stood in one begins its lines as any other definition does."""
    inside = False
    for line in lines:
        inside = bool(BLOCK.match(line)) or inside and (not line.strip() or line.startswith(INSIDE))
        if not BLOCK.match(line):
            yield line.removeprefix(INSIDE) if inside else line


def _pieces(lines):
    """The top-level pieces of a file: the comment before each, and its lines up to the next one."""
    comment, piece = [], None
    for line in lines:
        if USE.match(line):
            continue
        if line.startswith('--'):
            comment.append(line)
        elif line and not line[0].isspace() and (NAMED.match(line) or MODIFIER.match(line)):
            if piece:
                yield piece
            piece, comment = (tuple(comment), [line]), []
        elif piece:
            piece[1].extend(comment + [line])
            comment = []
        elif not line.strip():
            comment = []
    if piece:
        yield piece


def _definitions(crate, module, lines):
    """The definitions of a file by their names. How an operator binds is part of its definition."""
    found, before = {}, ()
    for comment, piece in _pieces(_outside_blocks(lines)):
        while piece and not piece[-1].strip():
            piece.pop()
        if MODIFIER.match(piece[0]):
            before = comment + (piece[0],)
            continue
        kind, word = DECLARED.match(piece[0]).groups()
        found[word] = Definition(Name(crate, module, word), kind or 'function', comment, before + tuple(piece))
        before = ()
    return found


def read_spec(path, crate, module):
    """One file of definitions."""
    text = path.read_text(encoding='utf-8')
    lines = text.split('\n')
    first = next(number for number, line in enumerate(lines) if not line.startswith('--'))
    return SpecFile(crate, module, path, plain(lines[:first]), imports_of(text),
                    _definitions(crate, module, lines[first:]))


def crates_in_order(top=TOP):
    """The names of all crates, each behind those below it."""
    rows = map(CRATE_ROW.match, (top / 'crates.txt').read_text(encoding='utf-8').splitlines())
    return [row[1] for row in rows if row]


def read_crate(crate, folder):
    """The files of definitions of a crate that stands in this folder."""
    specs, files = folder / 'specs', {}
    for path in sorted(specs.rglob('*.antt')):
        module = '.'.join(path.relative_to(specs).with_suffix('').parts)
        if path.name != 'Lib.antt':
            files[crate, module] = read_spec(path, crate, module)
    return files


def read_specs(top=TOP):
    """Every file of definitions, by its crate and module, in the order of the crates."""
    files = {}
    for crate in crates_in_order(top):
        files.update(read_crate(crate, top / 'crates' / crate))
    return files
