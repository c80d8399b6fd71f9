"""Which hour of stamps comes twice as a zone's summer time ends: an archive keeps its first time alone."""
import os
from datetime import datetime, timedelta
from typing import NamedTuple

from zones import NoZone, zone_named

LOOK_AHEAD = timedelta(days=31)
STEP_SECONDS = 900  # clocks change at a quarter of an hour


class Twice(NamedTuple):
    """The stamps that come twice: from the first to before the last."""
    begin: datetime
    end: datetime

    def text(self):
        """The stamps in words."""
        return f'{self.begin:%H:%M} to {self.end:%H:%M} of {self.begin:%Y-%m-%d}'


def shown_at(seconds, zone):
    """What a clock of a zone shows so many seconds after 1970."""
    return datetime.fromtimestamp(seconds, zone).replace(tzinfo=None, fold=0)


def next_twice(zone, now, ahead=LOOK_AHEAD):
    """The next stamps that come twice in a zone, if they do so soon; `now` is what its clock shows."""
    begin = int(now.replace(tzinfo=zone).timestamp()) // STEP_SECONDS * STEP_SECONDS
    for seconds in range(begin, begin + int(ahead.total_seconds()), STEP_SECONDS):
        before, behind = shown_at(seconds, zone), shown_at(seconds + STEP_SECONDS, zone)
        if behind <= before:
            return Twice(behind, before + timedelta(seconds=STEP_SECONDS))
    return None


def zone_of_machine():
    """The zone of TZ; None without it, or if it is no zone."""
    try:
        return zone_named(os.environ['TZ']) if os.environ.get('TZ') else None
    except NoZone:
        return None
