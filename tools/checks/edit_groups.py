"""What a wrong body changes, and which wrong bodies can be tried in one check.

Several are put into one copy of their crate if no two change one function. Then each is judged by goals of its own function,
since the prover goes on behind a function that is not proved, and proves a caller by the clauses of what it calls.
"""
import functools
import re
from pathlib import Path
from typing import NamedTuple

from applied_edits import changes, trouble

CODE, DEFINITIONS = "src", "specs"
OF_A_TRAIT = "trait"  # the owner of a trait's methods
WITH_BLOCK = ("fn", "struct", "enum", "trait", "impl")
CONSTANTS, TYPES = ("const", "static"), ("struct", "enum", "trait")

ITEM = re.compile(r"^( *)(?:pub(?:\([a-z]+\))? )?(?:(?:const|unsafe) )*"
                  r"(fn|const|static|struct|enum|trait|impl|type|use)(?!\w) *(\w*)")
BODY = re.compile(r"\s*\{\}?$|(?!\s*(ensures|requires)).*\{$")  # the line at which the clauses of a function have ended
CLAUSE = re.compile(r"(?m)^# clause: (\S+)")


class Function(NamedTuple):
    """A function: its file, the type of its impl and the trait in one word, and its name."""
    file: str
    owner: str
    name: str


class Item(NamedTuple):
    """An item of a source file: its first and last line from 0 on, its kind and name, and the owner of the impl around it."""
    first: int
    last: int
    kind: str
    name: str
    owner: str


def items(text):
    """The items of a source file in the toolchain's layout."""
    lines, found, impl = text.split("\n"), [], ("", -1)
    for first, line in enumerate(lines):
        if not (item := ITEM.match(line)):
            continue
        indent, kind, name = item.groups()
        last = last_line(lines, first, indent, kind)
        if kind in ("impl", "trait"):
            impl = (owner_of(line) if kind == "impl" else OF_A_TRAIT, last)
        found.append(Item(first, last, kind, name, impl[0] if first <= impl[1] else ""))
    return found


def last_line(lines, first, indent, kind):
    """The line at which an item ends."""
    line = lines[first]
    if re.search(r"[};]$", line) and line.count("{") == line.count("}"):
        return first
    closing = re.compile(rf"{indent}(\{{\}}|\}})" if kind in WITH_BLOCK else rf"{indent}\S.*;$|{indent}[\]}})]")
    return next((number for number in range(first + 1, len(lines)) if closing.match(lines[number])), len(lines) - 1)


def owner_of(line):
    """How the prover names the owner of an impl's methods: the words of the type but the impl's parameters, and the trait."""
    head, depth, end = re.sub(r"\s*(\{|\bwhere\b).*|^\s*(unsafe )?impl", "", line), 0, 0
    while head.startswith("<") and (depth or not end):
        depth, end = depth + (head[end] == "<") - (head[end] == ">"), end + 1
    own = set(re.findall(r"(?:^<|, *|const )([A-Z]\w*)", head[:end]))
    trait, _, of = head[end:].rpartition(" for ")
    words = re.findall(r"\w+|\[", re.sub(r"'\w+|\w+::", "", of.replace("&", "")))
    words = ["Array" if word == "[" else word for word in words if word not in own]
    return "".join([*words, re.sub(r"<.*", "", trait).strip().split("::")[-1]]).replace("_", "")


def body_of(lines, item):
    """The line at which the body of a function begins, behind its clauses."""
    return next((number for number in range(item.first, item.last + 1) if BODY.match(lines[number])), item.first)


class Sources:
    """The texts of a crate, by their paths in it: the code, which has a layout, and the definitions."""

    def __init__(self, folder):
        def texts(part, ending):
            files = Path(folder, part).rglob(f"*.{ending}")
            return {str(path.relative_to(folder)): path.read_text(encoding="utf-8") for path in files}

        self.code, self.definitions = texts(CODE, "rt"), texts(DEFINITIONS, "antt")

    def having(self, word):
        """Each item but the one of that name whose text has a word, with its file and whether a type or a clause has it."""
        pattern = re.compile(rf"\b{word}\b")
        for file, text in self.code.items():
            lines = text.split("\n") if word in text else []
            for item in items(text) if lines else []:
                rows = [number for number in range(item.first, item.last + 1) if pattern.search(lines[number])]
                if rows and item.name != word:
                    yield item, file, item.kind in TYPES or item.kind == "fn" and rows[0] < body_of(lines, item)

    def functions_with(self, word):
        """The functions whose text has a word."""
        return {Function(file, item.owner, item.name) for item, file, _ in self.having(word) if item.kind == "fn"}

    def users(self, constant, seen=()):
        """The functions whose text has a constant, or one that is made from it."""
        made = {item.name for item, _, _ in self.having(constant) if item.kind in CONSTANTS} - {*seen}
        return self.functions_with(constant).union(*(self.users(name, (*seen, constant)) for name in made))

    def is_stated(self, constant, seen=()):
        """Whether a type, a clause or a definition has a constant, or one that is made from it."""
        found = [*self.having(constant)]
        cited = re.compile(rf"TheConstants.*\b{constant}\b")
        made = {item.name for item, _, _ in found if item.kind in CONSTANTS} - {*seen}
        return any(is_stated for *_, is_stated in found) or any(map(cited.search, self.definitions.values())) or any(
            self.is_stated(name, (*seen, constant)) for name in made)


class Edit:
    """A wrong body: the texts that it makes, and what it changes.

    `functions` are those by whose goals it is judged; with none it is judged by the verdict on the whole crate. `callers` are
    those whose goals it may change besides. `is_alone` has it tried by itself. `is_stated` is of a constant that a clause or a
    definition has too, so that a law may be what refuses it.
    """

    def __init__(self, path, sources):
        self.path, self.label = path, "/".join(path.parts[-3:])
        self.folder, self.text = path.parent.parent, path.read_text(encoding="utf-8")
        self.changes, self.bad = [*changes(path)], trouble(path)
        self.clause = next(iter(CLAUSE.findall(self.text)), "")
        self.functions, self.callers, self.is_alone, self.is_stated = set(), set(), False, False
        is_of_crate = any(not file.startswith(f"{CODE}/") for file, *_ in self.changes)
        for file, old, _ in [] if self.bad or is_of_crate else self.changes:
            is_of_crate |= self.changes_contract(sources, file, old)
        if is_of_crate:
            self.functions = set()
        self.is_alone |= not self.functions

    def changes_contract(self, sources, file, old):
        """Notes what one change is in. Returns whether that is a clause, a type or a default, which any goal may refuse."""
        text = sources.code.get(file, "")
        if old not in text:
            return False  # it stands in what a change before it made
        line = text[: text.index(old)].count("\n")
        around = [item for item in items(text) if item.first <= line <= item.last and item.kind not in ("impl", "trait")]
        if not around:
            return True
        item = around[0]
        if item.kind in CONSTANTS:
            self.note_constant(sources, item.name)
            return False
        if item.kind == "fn" and item.owner != OF_A_TRAIT:
            self.functions.add(Function(file, item.owner, item.name))
            return line < body_of(text.split("\n"), item)
        return item.kind != "use"

    def note_constant(self, sources, name):
        """Notes the functions that have a constant, and their callers, which are proved by clauses."""
        users = sources.users(name)
        self.functions |= users
        self.callers |= {caller for user in users for caller in sources.functions_with(user.name)}
        self.is_stated |= sources.is_stated(name)
        self.is_alone |= self.is_stated

    def is_near(self, other):
        """Whether one of two edits changes what goals of the other one's functions are made from."""
        return bool(self.is_alone or other.is_alone or self.functions & (other.functions | other.callers)
                    or self.callers & other.functions)

    def over(self, texts):
        """These texts with the changes made, or a ValueError."""
        for file, old, new in self.changes:
            text = texts.get(file) or Path(self.folder, file).read_text(encoding="utf-8")
            if text.count(old) != 1:
                raise ValueError(f"{self.label}: {file} has {text.count(old)} times: {old.strip()}")
            texts = {**texts, file: text.replace(old, new)}
        return texts


def made_by(edits):
    """The texts with these edits in them, or None if two of them do not go together."""
    try:
        return functools.reduce(lambda texts, edit: edit.over(texts), edits, {})
    except ValueError:
        return None


def groups(edits):
    """The edits in groups of which no two change one function."""
    found = []
    for edit in edits:
        fits = (group for group in found if not any(edit.is_near(other) for other in group) and made_by([*group, edit]))
        group = next(fits, None)
        if group is None:
            found.append([edit])
        else:
            group.append(edit)
    return found
