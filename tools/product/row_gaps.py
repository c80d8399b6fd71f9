"""Which rows lack among the rows of an archive, and whether they come as often as they claim."""
from datetime import timedelta
from itertools import groupby, pairwise
from typing import NamedTuple

from rows import Row

PERIODS = (1, 5, 10, 15, 30, 60, 120)  # minutes that a console may have between two records
ALIKE = 3  # as many spans of one length in a row are a period, and no gaps
DAY = timedelta(days=1)
MINUTE_SECONDS = 60


class Step(NamedTuple):
    """A row, the row before it, and the minutes between them."""
    before: Row
    row: Row
    minutes: int
    is_other_period: bool = False  # whether rows come here every so many minutes, which is not what they claim

    def claimed(self):
        """The minutes that the row claims."""
        return self.row.interval // timedelta(minutes=1)

    def lacking(self):
        """How many rows lack between the two."""
        return 0 if self.is_other_period else max(0, (self.minutes - self.claimed()) // self.claimed())


class Clock:
    """How a console's stamps lie in time. Without a zone they are in that of this machine."""

    def __init__(self, zone):
        self.zone = zone

    def seconds(self, stamp):
        """The seconds from 1970 to a stamp. Of a stamp that comes twice it is the first time."""
        return stamp.replace(tzinfo=self.zone, fold=0).timestamp()

    def minutes(self, before, stamp):
        """The minutes from one stamp to another."""
        return round((self.seconds(stamp) - self.seconds(before)) / MINUTE_SECONDS)


def steps_of(rows, clock):
    """The steps from each row to the next."""
    plain = [Step(before, row, clock.minutes(before.stamp, row.stamp)) for before, row in pairwise(rows)]
    steps = []
    for (minutes, claimed), alike in groupby(plain, lambda step: (step.minutes, step.claimed())):
        alike = list(alike)
        is_other = len(alike) >= ALIKE and minutes in PERIODS and claimed != minutes
        steps += [step._replace(is_other_period=is_other) for step in alike]
    return steps


def lacking_in_day(steps, clock):
    """How many rows lack in the day up to the last one. An archive that begins within that day has less of it."""
    if not steps:
        return 0
    begin = steps[-1].row.stamp - DAY
    count = 0
    for step in steps:
        if step.row.stamp > begin:
            since = max(step.before.stamp, begin)
            count += step._replace(minutes=clock.minutes(since, step.row.stamp)).lacking()
    return count


def longest_gap(steps, latest):
    """The step in which most rows lack, of those up to a moment; nothing if no row lacks."""
    gaps = [step for step in steps if step.lacking() and step.row.stamp <= latest]
    return max(gaps, key=Step.lacking, default=None)


def last_of_other_period(steps):
    """The first and the last step of the rows that come otherwise than they claim, if the last rows do."""
    if not steps or not steps[-1].is_other_period:
        return None
    same = [step for step in steps if step.is_other_period and step.minutes == steps[-1].minutes]
    return same[0], same[-1]


def last_change(steps):
    """The step in the last day at which the rows came to claim another period, if there is one."""
    changes = [step for step in steps if step.before.interval != step.row.interval
               and step.row.stamp > steps[-1].row.stamp - DAY]
    return changes[-1] if changes else None
