"""What a reader of some definitions must read: whatever they cite, and what that cites, down to the numbers."""
import re
from typing import NamedTuple

import kit_files
import laws_of_values
import rust_types
from spec_files import Name

STRING = re.compile(r'"(?:[^"\\]|\\.)*"')
COMMENT = re.compile(r'--[^\n]*|//[^\n]*')
TOKEN = re.compile(r"[A-Za-z_][\w'-]*(?:\.[A-Za-z_][\w'-]*|\.\d+)*|[(){}\[\]]|λ|\n|[^\s\w(){}\[\]λ]+|\d+")
WORD = re.compile(r'[A-Za-z_]')
BINDER = re.compile(r"[({]\s*((?:[A-Za-z_][\w'-]*\s+)+):\s")
FIELD = re.compile(r"^\s+(?:pub )?([A-Za-z_][\w'-]*) :(?=\s|$)")
EQUATION = re.compile(r'^(?!pub |abbrev |unfoldable |record |data |infix)\S')
EQUALS = re.compile(r'(?<=\s)=(?=\s)')
OPENING, CLOSING = ('(', '{', '['), (')', '}', ']')
BIND = '>>='
CITED = {}  # what each definition cites, found once


class Reached(NamedTuple):
    """What is reached: definitions in the order in which they were met, types, and words of the toolchain's crates."""
    definitions: dict
    types: dict
    toolchain: set


def _chunks(definition):
    """The lines of a definition cut into its signature and its equations."""
    chunks = []
    for line in definition.lines:
        if EQUATION.match(line) and definition.kind == 'function' or not chunks:
            chunks.append([line])
        else:
            chunks[-1].append(line)
    return ['\n'.join(chunk) for chunk in chunks]


def _cleaned(text):
    return COMMENT.sub('', STRING.sub('""', text))


class Scope:
    """The words that are bound at a place of a text, each up to the end of the brackets around it."""

    def __init__(self, words):
        self.depth = 0
        self.bound = [(word, -1) for word in words]

    def bind(self, word):
        """From here on, within these brackets, the word means a value and no definition."""
        self.bound.append((word, self.depth))

    def has(self, word):
        """Whether the word is bound here."""
        return any(word == other for other, _ in self.bound)

    def pass_bracket(self, token):
        """Goes into brackets, or out of them."""
        self.depth += 1 if token in OPENING else -1
        self.bound = [(word, depth) for word, depth in self.bound if depth <= self.depth]


def free_words(text, bound):
    """The words of a term that neither it nor what is around it binds, in order."""
    text = _cleaned(text)
    tokens = [(found[0], found.start()) for found in TOKEN.finditer(text)]
    binders = {found.start(): found[1].split() for found in BINDER.finditer(text)}  # `(x y : T)`, by their brackets
    scope, binder = Scope(bound), ''  # the binder is a λ up to its point, or `let` up to its word
    for (token, place), (after, _) in zip(tokens, tokens[1:] + [('', 0)]):
        if token in ('λ', 'let'):
            binder = token
        elif binder and WORD.match(token):
            scope.bind(token)
            binder = binder if binder == 'λ' else ''
        elif token.startswith('.'):
            binder = ''
        elif token in OPENING + CLOSING:
            for word in binders.get(place, ()):
                scope.bind(word)
            scope.pass_bracket(token)
        elif after == '←':
            scope.bind(token)
        elif WORD.match(token) and not scope.has(token.split('.')[0]) and not (after in ('=', ':') and scope.depth):
            yield token


def is_used(sign, text):
    """Whether a text has a sign, or has `do`, which reads as one."""
    return sign in text or sign == BIND and '←' in text


class Walk:
    """Goes from definitions to those that they cite. Of some definitions a reader needs a part: `narrowed` gives it."""

    def __init__(self, files, narrowed=None):
        self.files = files
        self.narrowed = narrowed or {}
        self.reached = Reached({}, {}, set())

    def visit(self, name):
        """Reaches a name, and what it cites."""
        if name.module.startswith('declared.'):
            self.visit_type(rust_types.declared(*name), name)
            return
        owner = self.owner(name)
        if not owner or owner in self.reached.definitions:
            return
        file = self.files[owner.crate, owner.module]
        definition = file.definitions[owner.word]
        if owner in self.narrowed:
            definition = self.narrowed[owner](definition)
        if record := self.record_given(file, definition):
            definition = laws_of_values.without_laws(definition, record)
        self.reached.definitions[owner] = definition
        if definition not in CITED:
            CITED[definition] = tuple(dict.fromkeys(self.cited(file, definition)))
        for cited in CITED[definition]:
            self.visit(cited)

    def record_given(self, file, definition):
        """The record of which a definition is a value, if it is one."""
        name = self.resolved(file, laws_of_values.result_of(definition)) if definition.kind == 'function' else None
        owner = self.files.get((name.crate, name.module)) if name and name.word else None
        found = owner.definitions.get(name.word) if owner else None
        return found if found and found.kind == 'record' else None

    def owner(self, name):
        """The definition that a name means, of its module or of one that this brings in; none of the standard library."""
        file = self.files.get((name.crate, name.module))
        if name.crate in kit_files.STANDARD:
            self.reached.toolchain.add(name)
            return None
        if not file:  # the module of a data type
            module, _, word = name.module.rpartition('.')
            return self.owner(Name(name.crate, module, word)) if module else self.lost(name)
        if not name.word:
            return None
        if not file.resolve(name.word) and name.word in file.imports:
            return self.owner(file.imports[name.word])
        return file.resolve(name.word) or self.lost(name)

    def lost(self, name):
        """Fails: what a reader must read would not be whole."""
        raise SystemExit(f'{name.crate}.{name.module}: no definition of {name.word} is found there')

    def visit_type(self, item, name):
        """Reaches a type of the code, the types of its fields, and the definitions that its lines cite."""
        if not item:
            self.reached.toolchain.add(name)
            return
        key = (item.crate, item.path, item.word)
        if key in self.reached.types:
            return
        self.reached.types[key] = item
        for field in rust_types.fields_of(item):
            self.visit_type(field, None)
        imports = rust_types.imports_of(item)
        for word in item.words:
            if word in imports and not imports[word].module.startswith('declared.'):
                self.visit(imports[word])

    def cited(self, file, definition):
        """The names that a definition cites, in order."""
        for chunk in _chunks(definition):
            yield from self.of_chunk(file, definition, chunk)
        yield from self.qualified(file, definition.text)
        own = {word: one.name for word, one in file.definitions.items() if one.name != definition.name}
        for word, name in (file.imports | own).items():
            if word.startswith('◌') and is_used(word.strip('◌'), definition.text):
                yield name

    def of_chunk(self, file, definition, chunk):
        """The names that a signature or an equation cites."""
        bound, body = set(), chunk
        if definition.kind != 'function':
            bound = {found[1] for found in map(FIELD.match, chunk.split('\n')) if found}
        elif EQUATION.match(chunk) and EQUALS.search(chunk):
            left, body = EQUALS.split(chunk, maxsplit=1)
            words = [token for token in TOKEN.findall(_cleaned(left)) if WORD.match(token)]
            makers = {word: self.resolved(file, word) for word in words if self.is_constructor(file, word)}
            bound = set(words) - set(makers)
            yield from makers.values()
        for word in free_words(body, bound - {definition.name.word}):
            name = self.resolved(file, word)
            if name:
                yield name

    def qualified(self, file, text):
        """The names behind a module's own name, also where a field or a value has that name as well."""
        for word in TOKEN.findall(_cleaned(text)):
            head, _, rest = word.partition('.')
            module = file.imports.get(head)
            other = self.files.get((module.crate, module.module)) if module and not module.word else None
            if other and other.resolve(rest):
                yield module._replace(word=rest)

    def is_constructor(self, file, word):
        """Whether a word makes values of a data type, of specs or of the code. No other word of a left side cites."""
        name = self.resolved(file, word)
        if not name or name.module.startswith('declared.'):
            return bool(name) and '.TheVariants' in name.module
        owner = self.owner(name) if name.word else None
        return bool(owner) and self.files[owner.crate, owner.module].definitions[owner.word].kind == 'data'

    def resolved(self, file, word):
        """The name that a word of a file means, or None."""
        head, *rest = word.split('.')
        name = file.imports.get(word) or file.imports.get(head)
        if not name:
            return Name(file.crate, file.module, head) if file.resolve(head) else None
        if name.word is None and name.module.startswith('declared.'):
            return name._replace(word=rest[0] if rest else name.module.split('.')[-1])
        if name.word is None:
            return name._replace(word=rest[0]) if rest else None
        return name
