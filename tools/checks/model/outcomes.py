"""What a run of the program ends with."""

from dataclasses import dataclass

DONE = 0
BAD_WORDS = 1
BAD_SETTINGS = 2
BAD_SCHEDULE = 3
UNSEEN_HARM = 5
DISK_FAULT = 7
READ_FAULT = 8
ARCHIVE_FULL = 10
DAMAGED = 11
BAD_PAGE = 14
FILE_TOO_LONG = 15
OLD_ARCHIVE = 16
NOT_A_PREFIX = 17
BAD_ENTRY = 18
BAD_ROWS = 19


@dataclass(frozen=True)
class Outcome:
    """The exit status of a run and the bytes that it prints."""
    status: int
    text: bytes


def outcome(status, lines):
    """The outcome with this status and these lines."""
    return Outcome(status, "".join(line + "\n" for line in lines).encode())


class Refusal(Exception):
    """A run ends early, with this status and this line alone."""

    def __init__(self, status, line):
        super().__init__(line)
        self.outcome = outcome(status, [line])
