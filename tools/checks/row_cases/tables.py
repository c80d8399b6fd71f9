"""The cases of a table. The page about tables, tools/checks/program_rows/README.md, says what may stand there."""

import itertools
import re
import shlex
import tomllib
from dataclasses import dataclass

from .byte_text import Malformed, bytes_of

NAME = re.compile(r"\{(\w+)\}")
ADDRESS = "{address}"  # stands for where the console is, which is known once the case is run
DEEPEST = 10
CASE_KEYS = {"name", "files", "bytes", "rows", "each", "then"}
RUN_KEYS = {"words", "prints", "status", "passes_over", "leaves", "line", "caller"}


@dataclass
class Run:
    """One run of the program: its words, the console's side, and what has to come of it."""
    words: list
    prints: str
    status: int
    passes_over: tuple   # lines that begin so may stand anywhere
    leaves: dict         # the bytes of each file that the run makes or changes
    steps: list | None   # what the other side of the line does, by verbs and bytes
    is_caller: bool      # whether the other side calls

    @property
    def has_console(self):
        """Whether the other side waits for a call."""
        return self.steps is not None and not self.is_caller


@dataclass
class Case:
    """Runs one after another in one folder, which begins with these files."""
    name: str
    files: dict
    runs: list


def filled(text, values):
    """The text with each {name} replaced by its value."""
    def value(found):
        if found[0] == ADDRESS:
            return ADDRESS
        if found[1] not in values:
            raise Malformed(f"no value of {found[0]}")
        return str(values[found[1]])
    for _ in range(DEEPEST):
        text, before = NAME.sub(value, text), text
        if text == before:
            return text
    raise Malformed(f"values that go in a circle: {text}")


def rows_of(entry):
    """What each row of a case fills in: the cells below their names, together with each choice that `each` has."""
    lines = [line for line in entry.get("rows", "").splitlines() if line.strip() and not line.startswith("#")]
    cells = [[cell.strip().replace("\\n", "\n") for cell in line.split("|")] for line in lines]
    if any(len(row) != len(cells[0]) for row in cells):
        raise Malformed("a row that has not as many cells as names stand above it")
    rows = [dict(zip(cells[0], row)) for row in cells[1:]] if cells else [{}]
    each = entry.get("each", {})
    choices = [dict(zip(each, choice)) for choice in itertools.product(*each.values())]
    return [row | choice for row, choice in itertools.product(rows, choices)]


def step_of(line):
    """What a line of a script has the other side do."""
    verb, _, rest = line.strip().partition(" ")
    if verb in ("hears", "says"):
        return verb, bytes_of(rest)
    if verb == "quiet":
        return verb, int(rest)
    if verb in ("closes", "uncalled") and not rest:
        return verb, None
    raise Malformed(f"no step of a line: {line}")


def run_of(entry, values):
    """A run of a case."""
    script = entry.get("line", entry.get("caller"))
    steps = None if script is None else [step_of(step) for step in filled(script, values).splitlines() if step.strip()]
    return Run(words=shlex.split(filled(entry["words"], values)),
               prints=filled(entry["prints"], values),
               status=int(filled(str(entry["status"]), values)),
               passes_over=tuple(entry.get("passes_over", ())),
               leaves={name: bytes_of(filled(text, values)) for name, text in entry.get("leaves", {}).items()},
               steps=steps, is_caller="caller" in entry)


def completed(shared, entry):
    """The entry with what all entries share, where it has nothing else."""
    own = {key: shared.get(key, {}) | value if isinstance(value, dict) else value for key, value in entry.items()}
    return shared | own


def cases_of(entry, values):
    """The cases of an entry of a table, one for each of its rows."""
    later = entry.get("then", [])
    unknown = set(entry) - CASE_KEYS - RUN_KEYS | {key for run in later for key in set(run) - RUN_KEYS}
    if unknown:
        raise Malformed(f"no key of a case: {', '.join(sorted(unknown))}")
    rows = rows_of(entry)
    for number, row in enumerate(rows, 1):
        here = values | row
        files = {name: filled(text, here).encode() for name, text in entry.get("files", {}).items()}
        files |= {name: bytes_of(filled(text, here)) for name, text in entry.get("bytes", {}).items()}
        yield Case(name=entry["name"] + (f", row {number}" if len(rows) > 1 else ""), files=files,
                   runs=[run_of(run, here) for run in (entry, *later)])


def read_table(path):
    """The cases of a file."""
    table = tomllib.loads(path.read_text())
    cases = []
    for number, entry in enumerate(table.get("case", []), 1):
        try:
            cases += cases_of(completed(table.get("shared", {}), entry), table.get("values", {}))
        except (Malformed, KeyError, TypeError, ValueError) as error:
            raise Malformed(f"{path.name}: case {number}, '{entry.get('name')}': {error!r}") from error
    for case in cases:
        case.name = f"{path.stem}: {case.name}"
    return cases
