"""Which pages list what must be read, in their order: tools/pages/headline/pages.toml, and the contracts with which they begin."""
import re
import tomllib
from functools import cached_property
from pathlib import Path
from typing import NamedTuple

import rust_types
import spec_files
from reading_list import Walk
from spec_files import Name

PLAN = spec_files.TOP / 'tools/pages/headline/pages.toml'
FOLDER = spec_files.TOP / 'docs/headline'
CONTRACT = r'(?:^ *///[^\n]*\n)*^( *)pub fn %s\b.*?(?=\n\1\{$)'
COMMENT = re.compile(r'//[^\n]*')
WORD = re.compile(r"[A-Za-z_][\w'-]*")
CLAUSE = re.compile(r'^ *(?:requires|ensures) ', re.M)
CASE = re.compile(r'^(?:\w+ [^:]*=(?:$| )|  \w+ :|    (?:else )?if |    else )')

# Definitions with a case for each command, of which a page prints those of its own.
BY_COMMAND = (Name('station_top', 'Run', 'performs'), Name('station_top', 'Run', 'Promises'),
              Name('command_words', 'Command', 'command_of_words'), Name('command_words', 'Command', 'CommandLine'))


class Part(NamedTuple):
    """A part of a page: what it is about, and the definitions from which it starts; without any, those that clauses cite."""
    title: str
    about: str = ''
    roots: tuple = ()
    cases: tuple = ()


class Contract:
    """The clauses of a public function, all of them."""

    def __init__(self, path, function):
        self.path, self.function = spec_files.TOP / 'crates' / path, function
        self.crate = Path(path).parts[0]

    @cached_property
    def source(self):
        """The file in which the function stands."""
        return self.path.read_text(encoding='utf-8')

    @cached_property
    def text(self):
        """All that stands before the function's body, with the comments."""
        found = re.search(CONTRACT % self.function, self.source, re.M | re.S)
        if not found:
            raise SystemExit(f'{self.path}: there is no public function {self.function}')
        return found[0]

    @property
    def count(self):
        """How many clauses it has."""
        return len(CLAUSE.findall(self.text))

    def begin(self, walk):
        """Reaches what the clauses cite: definitions, and types of the code."""
        imports = spec_files.imports_of(self.source)
        clauses = COMMENT.sub('', self.text)
        for word in WORD.findall(clauses[CLAUSE.search(clauses).start():]):
            if word in imports:
                walk.visit(imports[word])
            elif item := rust_types.item_in(self.crate, self.path, word):
                walk.visit_type(item, None)


class Page(NamedTuple):
    """A page: its name, what it says first, the contract with which it begins, if with one, and its parts."""
    name: str
    title: str
    about: str
    subject: str
    contract: Contract | None
    parts: tuple
    most_lines: int

    @property
    def path(self):
        """Where it stands."""
        return FOLDER / f'{self.name}.md'


def narrowed_to(words):
    """A function that leaves of a definition by commands the cases of some."""
    wanted = re.compile(rf'\b(?:{"|".join(words)})(?:_in)?\b')

    def narrow(definition):
        units = []
        for line in definition.lines:
            if not units or CASE.match(line):
                units.append([line])
            else:
                units[-1].append(line)
        kept = []
        for number, unit in enumerate(units):
            opens = number == 0 or len(unit) == 1 and unit[0].endswith('=')
            if opens or wanted.search(unit[0]):
                kept += unit
            elif kept[-1].strip() != '..':
                kept.append(unit[0][:len(unit[0]) - len(unit[0].lstrip())] + '..')
        return definition._replace(lines=tuple(kept))
    return narrow


def reached_by(files, page, part):
    """All that must be read of a part, whatever stands on other pages."""
    walk = Walk(files, dict.fromkeys(BY_COMMAND, narrowed_to(part.cases)) if part.cases else {})
    for root in part.roots:
        crate, *module, word = root.split('.')
        walk.visit(Name(crate, '.'.join(module), word))
    if not part.roots and not page.contract:
        raise SystemExit(f'{PLAN}: the part "{part.title}" of {page.name} has no roots, and the page no contract')
    if not part.roots:
        page.contract.begin(walk)
    return walk.reached


def planned_pages():
    """The pages in their order."""
    contracts, pages = {}, []
    for entry in tomllib.loads(PLAN.read_text(encoding='utf-8'))['page']:
        place = entry.get('contract')
        contract = contracts.setdefault(place, Contract(*place.split())) if place else None
        parts = tuple(Part(one['title'], one.get('about', '').strip(), tuple(one.get('roots', ())), tuple(one.get('cases', ())))
                      for one in entry['part'])
        pages.append(Page(entry['name'], entry['title'], entry['about'].strip(), entry['subject'], contract, parts,
                          entry.get('most_lines', 0)))
    return pages
