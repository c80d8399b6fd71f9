"""The commit at which the further wrong bodies of each crate were all refused, as `tried_edits.txt` notes it, and what differs since."""
import contextlib
import subprocess
from pathlib import Path

TOP = Path(__file__).resolve().parents[2]
NOTED = TOP / "tools/checks/tried_edits.txt"
HEAD_LINE = "# The commit at which the further wrong bodies of a crate were last seen refused, each of them: try_edits.py --note.\n"
OF_THE_GATE, FURTHER = "must-fail", "more-edits"
PARTS = ("src", "specs", "proofs", OF_THE_GATE, FURTHER)  # of a crate, on which its wrong bodies rest
COMMENT = {".rt": "//", ".antt": "--"}  # what a line of a comment begins with, by the ending of a source


class Unknown(Exception):
    """What names nothing here."""


def git(*words):
    """What git prints."""
    run = subprocess.run(["git", "-C", str(TOP), *words], capture_output=True, text=True, check=False)
    if run.returncode:
        raise Unknown((run.stderr.strip().splitlines() or [f"git {words[0]} failed"])[-1])
    return run.stdout


def noted():
    """The commit that is noted of each crate."""
    lines = NOTED.read_text(encoding="utf-8").splitlines() if NOTED.is_file() else []
    return dict(line.split() for line in lines if line and not line.startswith("#"))


def crates_that_differ(names):
    """Those of these crates of which a part differs from the commit noted, or of which none is. A commit that does not stand in the
    history of this one stops the script: a clone lacks it, and to try none would pass what nobody tried."""
    commits, differing = noted(), {}
    for commit in {commits[name] for name in names if name in commits}:
        try:
            git("merge-base", "--is-ancestor", commit, "HEAD")
        except Unknown as error:
            raise Unknown(f"{NOTED.relative_to(TOP)} names commit {commit}, which is not known here or not in the history of this"
                          " one, so that nothing says what differs: fetch it (git fetch --unshallow), take its lines out, or name"
                          " the crates") from error
        differing[commit] = crates_since(commit)
    return [name for name in names if name not in commits or name in differing[commits[name]]]


def crates_since(commit):
    """The crates of which a part differs from a commit."""
    files = git("diff", "--name-only", "--no-renames", commit, "--", "crates").splitlines()
    files += git("ls-files", "--others", "--exclude-standard", "--", "crates").splitlines()
    paths = [file.split("/") for file in files if not has_same_code(commit, file)]
    return {path[1] for path in paths if len(path) > 3 and path[2] in PARTS}


def code_in(text, mark):
    """The lines of a source but for those of comments, which no verdict rests on, and for empty ones."""
    lines = (line.strip() for line in text.splitlines())
    return [line for line in lines if line and not line.startswith(mark)]


def has_same_code(commit, file):
    """Whether a source differs from that commit in lines of comments alone."""
    mark, path = COMMENT.get(Path(file).suffix), TOP / file
    if mark is None or not path.is_file():
        return False
    try:
        before = git("show", f"{commit}:{file}")
    except Unknown:  # it is new
        return False
    return code_in(before, mark) == code_in(path.read_text(encoding="utf-8"), mark)


def commit_without_changes():
    """The commit of the checkout, or nothing if a file differs from it or it is no checkout. What is noted may differ."""
    with contextlib.suppress(Unknown):
        changed = [line for line in git("status", "--porcelain").splitlines() if not line.endswith(str(NOTED.relative_to(TOP)))]
        return "" if changed else git("rev-parse", "HEAD").strip()
    return ""


def note(commit, names, standing):
    """Notes the commit of these crates, and keeps what is noted of the others that stand."""
    lines = {name: one for name, one in noted().items() if name in standing} | dict.fromkeys(names, commit)
    NOTED.write_text(HEAD_LINE + "".join(f"{name} {lines[name]}\n" for name in sorted(lines)), encoding="utf-8")
