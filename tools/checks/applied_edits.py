#!/usr/bin/env python3
"""Names each wrong body that can no longer be made, since a line that it changes is gone.

    tools/checks/applied_edits.py

A wrong body in must-fail/ or more-edits/ is a list of changes. A line `file:` names a file of the crate. Behind it each line
`old:` has a text that stands there once, and the line `new:` what takes its place. The gate fails at none that cannot be made.
The status is 0 if each can be made, else 1.
"""
import sys
from pathlib import Path

CRATES = Path(__file__).resolve().parents[2] / "crates"
FOLDERS = ("must-fail", "more-edits")
ENDING, ONLY_READ = ".edit", ".md"


def changes(edit):
    """Each change of a wrong body: the file that it names, the text to find there, and the text in its place."""
    file, old = None, None
    for line in edit.read_text(encoding="utf-8").splitlines():
        word, _, text = line.partition(": ")
        if word == "file":
            file = text.strip()
        elif word == "old":
            old = text
        elif word in ("new", "new:"):
            yield file, old, text


def trouble(edit):
    """Why a wrong body cannot be made, or nothing if it can."""
    if edit.suffix != ENDING:
        return f"its name does not end in {ENDING}, so that nothing tries it"
    texts, crate = {}, edit.parent.parent
    for file, old, new in changes(edit):
        path = crate / file
        if not path.exists():
            return f"there is no {file}"
        text = texts.get(file) or path.read_text(encoding="utf-8")
        if text.count(old) != 1:
            return f"{file} has {text.count(old)} times: {old.strip()}"
        texts[file] = text.replace(old, new)
    return None if texts else "it changes nothing"


def main():
    edits = sorted(path for folder in FOLDERS for path in CRATES.glob(f"*/{folder}/*") if path.suffix != ONLY_READ)
    troubles = {edit: why for edit in edits if (why := trouble(edit))}
    for edit, why in troubles.items():
        print(f"{edit.relative_to(CRATES)}: {why}")
    return 1 if troubles else 0


if __name__ == "__main__":
    sys.exit(main())
