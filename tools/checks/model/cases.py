"""Cases: one run of the program, and how the model and the program answer it."""

import subprocess
from dataclasses import dataclass, field

from .commands import answer
from .outcomes import Outcome

MOST_SECONDS = 60  # for one run of the program
NO_END = Outcome(-1, b"did not end\n")


@dataclass
class Case:
    """The words of one run, and the bytes of the files that it finds, by name."""
    words: list
    files: dict = field(default_factory=dict)


def model_side(case):
    """The model's outcome, and the files afterwards."""
    files = dict(case.files)
    return answer(case.words, files), files


def program_side(program, folder, case):
    """The program's outcome, and the files that it leaves in a folder, which is emptied before."""
    for path in folder.iterdir():
        path.unlink()
    for name, data in case.files.items():
        (folder / name).write_bytes(data)
    try:
        done = subprocess.run([program, *case.words], cwd=folder, capture_output=True, check=False,
                              timeout=MOST_SECONDS)
        outcome = Outcome(done.returncode, done.stdout + done.stderr)
    except subprocess.TimeoutExpired:
        outcome = NO_END
    return outcome, {path.name: path.read_bytes() for path in folder.iterdir()}
