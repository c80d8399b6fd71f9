"""What a check finds, each with its status, and the one line that it comes to."""
from enum import IntEnum
from typing import NamedTuple


class Status(IntEnum):
    """A status of a plugin of Nagios."""
    OK = 0
    WARNING = 1
    CRITICAL = 2
    UNKNOWN = 3


class Finding(NamedTuple):
    """What was found. The same trouble has the same kind in each check, however long it lasts."""
    kind: str
    status: Status
    text: str


class Limits(NamedTuple):
    """Up to which amount something is no trouble, and up to which it is no more than a warning."""
    warning: float
    critical: float

    def beyond(self, amount):
        """The status of an amount that may be as much as a limit."""
        if amount > self.critical:
            return Status.CRITICAL
        return Status.WARNING if amount > self.warning else Status.OK

    def reached(self, amount):
        """The status of an amount that may not be as much as a limit."""
        if amount >= self.critical:
            return Status.CRITICAL
        return Status.WARNING if amount >= self.warning else Status.OK

    def times(self, factor):
        """The limits so many times as far."""
        return Limits(self.warning * factor, self.critical * factor)


class Found(NamedTuple):
    """All that a check found."""
    findings: list
    measured: str = ''  # the numbers for a chart, as plugins have them

    def status(self):
        """The worst status."""
        return max(finding.status for finding in self.findings)

    def line(self):
        """The line of the plugin."""
        text = '; '.join(finding.text for finding in self.findings)
        return f'JOFITRANA {self.status().name} - {text}' + (f' | {self.measured}' if self.measured else '')

    def troubles(self):
        """The kinds of what is no good, with their statuses."""
        return {finding.kind: finding.status for finding in self.findings if finding.status != Status.OK}


class Ended(Exception):
    """What ends a check at once: a finding."""

    def __init__(self, status, text, kind='archive'):
        super().__init__(text)
        self.found = Found([Finding(kind, status, text)])
