"""What a check of the prover says of a wrong body that was in it.

It counts as refused where its own function has an open goal or an error of its own. 'It calls another, which is not proved'
alone does not count: then a wrong body below it was refused, and this one hides behind it.
"""
import re
from pathlib import Path
from typing import NamedTuple

REFUSED = "refused"
NAMES = "NAMES ONLY"  # a proof names what the edit took away, so that no contract was tried
ELSEWHERE = "REFUSED ELSEWHERE"  # but not at its own function, or not at the clause that it names
ACCEPTED = "NOT REFUSED"
BAD = "BAD EDIT"  # it cannot be made, or the toolchain cannot read it
UNSURE = "NO VERDICT"  # a limit was met, say

PROVED, NOT_PROVED, LIMIT = 0, 1, 3  # statuses of a check
MOST_TEXT = 200  # characters of what was said

GONE = re.compile(r"has no field|is not in scope|has no `|was not admitted")
UNREAD = re.compile(r"is not in scope|has no field|is no name|operand is missing|expected the end|cannot continue")
PROOF_ERROR = re.compile(r"(?:\./)?proofs/(\S+)/(?:Answers|Invariants|Proof)\.antt:\d+:\d+: error: (.*)")
ERROR = re.compile(r"(?:\./)?(\S+?):\d+:\d+: error: (?:(`[^`]*`): )?(.*)")
NOTE = re.compile(r"note: src/\S+:\d+:\d+: .*\(`([^`]+)`\)")
GOAL = re.compile(r"`([^`]+)`")
AN_ERROR = re.compile(r"error[\[:]")


class Verdict(NamedTuple):
    """What is said of a wrong body: one of the words above, and why."""
    kind: str
    why: str


class Goal(NamedTuple):
    """A goal that stayed open, and what was said of it."""
    name: str
    why: str


class Said:
    """What a check said: of each function its line, and the goals that stayed open."""

    def __init__(self, status, text):
        self.status, self.lines = status, re.sub(r"\n +", "  ", text.rstrip("\n")).split("\n")
        self.functions, self.goals = {}, {}  # goals by the path of the function, which begins behind the crate's name
        notes = []
        for line in self.lines:
            if error := PROOF_ERROR.match(line):
                goal = re.match(r"`([^`]+)`: ", error[2])
                self.note(error[1].replace("/", "::"), [Goal(goal[1] if goal else "its proof", error[2])])
            elif note := NOTE.match(line):
                notes.append(Goal(note[1], line))
            elif line.startswith("fn "):
                symbol, _, words = line.removeprefix("fn ").partition(": ")
                self.functions[symbol] = words
                unproved = GOAL.findall(words.partition("did not prove ")[2].partition(";")[0])
                goals = notes + [Goal(goal, "open") for goal in unproved]
                self.note(symbol.partition("::")[2], [] if words.startswith("proved") else goals)
                notes = []

    def note(self, path, goals):
        """Notes open goals of a function."""
        self.goals.setdefault(path, []).extend(goals)

    def goals_of(self, symbol):
        """The open goals of a function."""
        return self.goals.get(symbol.partition("::")[2], [])

    def unread(self, changed):
        """The first line on a text that the toolchain could not read, or nothing. What only makes a statement false reads well."""
        for line in self.lines:
            error = ERROR.match(line)
            if not error or error[1] not in changed and not error[1].startswith(("src/", "specs/")):
                continue
            if not error[2] or UNREAD.search(GOAL.sub("", error[3])):
                return line
        if self.functions or self.status not in (PROVED, NOT_PROVED):
            return ""
        return next(filter(AN_ERROR.search, self.lines), f"the prover names no function, and ends with status {self.status}")

    def last_error(self):
        """The last line that reports an error, or else the last line."""
        return next((line for line in reversed(self.lines) if AN_ERROR.search(line)), self.lines[-1])[:MOST_TEXT]

    def has_only_names(self):
        """Whether each error is of a proof that names what an edit took away."""
        placed = [line for line in self.lines if re.match(r"(note: )?\S+:\d+:\d+:", line)]
        told = [line for line in placed if ": error" in line or line.startswith("note: ")]
        return bool(told) and all(re.match(r"(\./)?proofs/", line) and GONE.search(line) for line in told)


def judge(edit, said):
    """What a check says of a wrong body."""
    if bad := said.unread({file for file, *_ in edit.changes}):
        return Verdict(BAD, bad[:MOST_TEXT])
    if said.status not in (PROVED, NOT_PROVED, LIMIT):
        return Verdict(UNSURE, f"the prover ended with status {said.status}")
    if said.status == PROVED:
        return Verdict(ACCEPTED, "its crate is still proved with it")
    verdict = judge_functions(edit, said) if edit.functions else None
    is_of_crate = not verdict or edit.is_stated and verdict.kind == ELSEWHERE
    return judge_crate(edit, said) if is_of_crate else verdict


def judge_crate(edit, said):
    """What the verdict on the whole crate says of an edit."""
    if said.status != NOT_PROVED:
        return Verdict(UNSURE, "the prover could not tell")
    if said.has_only_names():
        return Verdict(NAMES, next(filter(GONE.search, said.lines))[:MOST_TEXT])
    goals = [goal for symbol in said.functions for goal in said.goals_of(symbol) if not GONE.search(goal.why)]
    return judge_goals(edit, goals) or Verdict(REFUSED, "at a law")


def judge_functions(edit, said):
    """What the goals of its own functions say of an edit."""
    own = {symbol for function in edit.functions for symbol in symbols_of(function, said.functions)}
    if not own:
        return Verdict(UNSURE, "the prover names no function that it changes")
    goals = [goal for symbol in sorted(own) for goal in said.goals_of(symbol)]
    if not goals and any("could not tell" in said.functions[symbol] for symbol in own):
        return Verdict(UNSURE, "the prover could not tell")
    told = "; ".join(sorted(f"{symbol}: {said.functions[symbol]}" for symbol in own))
    return judge_goals(edit, goals) or Verdict(ELSEWHERE, told[:MOST_TEXT])


def judge_goals(edit, goals):
    """What open goals say of an edit; nothing with no open goal and no clause asked for."""
    names = sorted({goal.name for goal in goals if not GONE.search(goal.why)})
    if names and is_at(edit.clause, names):
        return Verdict(REFUSED, f"at {', '.join(names)}")
    if names or edit.clause and not goals:
        return Verdict(ELSEWHERE, f"not at the clause {edit.clause}, but at {', '.join(names) or 'no goal'}"[:MOST_TEXT])
    return Verdict(NAMES, goals[0].why[:MOST_TEXT]) if goals else None


def is_at(clause, goals):
    """Whether one of the goals is of this clause, or none is asked for."""
    return not clause or any(re.search(rf"(^|-)clause-{re.escape(clause)}(-|$)", goal) for goal in goals)


def symbols_of(function, symbols):
    """The names by which the prover lists a function and its closures. A method stands in the module of its type."""
    module = [part for part in Path(function.file).with_suffix("").parts[1:] if part not in ("lib", "main")]
    paths = {symbol: symbol.split("::")[1:] for symbol in symbols}
    if function.owner:
        pair = function.owner, function.name
        return {symbol for symbol, path in paths.items() if pair in zip((re.sub("[_+]", "", part) for part in path), path[1:])}
    whole, closure = [*module, function.name], [*module, "fn", function.name]
    return {symbol for symbol, path in paths.items() if path == whole or path[: len(closure)] == closure}
