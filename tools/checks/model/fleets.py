"""Stations that take turns, as they are drawn behind a seed."""

from .draws import Draws
from .outcomes import DONE, UNSEEN_HARM, Outcome, outcome
from .run import Run

MOST_STATIONS = 8
MOST_SEED = 2 ** 31 - 1


def drawn_turns(seed, counts):
    """The station of each turn, from 0, where each takes as many turns as are counted of it."""
    draws, left = Draws(seed), [*counts]
    while any(left):
        going_on = [station for station, count in enumerate(left) if count]
        station = going_on[draws.draw() % len(going_on)]
        left[station] -= 1
        yield station


def fleet_outcome(seed, settings, schedules):
    """What a fleet ends with: the lines of each turn, in the order of the turns."""
    runs = [Run(settings) for _ in schedules]
    statuses = [run.run(schedule) for run, schedule in zip(runs, schedules)]
    order = [*drawn_turns(seed, [len(run.turns) for run in runs])]
    turns = [iter(run.turns) for run in runs]
    lines = [f"{station + 1} {line}" for station in order for line in next(turns[station])]
    if UNSEEN_HARM in statuses:
        return outcome(UNSEEN_HARM, lines)
    switches = sum(one != next_one for one, next_one in zip(order, order[1:]))
    return outcome(DONE, [*lines, f"fleet stations {len(runs)} turns {len(order)} switches {switches}"])


def by_station(found):
    """The outcome with the lines of each station together if a delivery was unseen: the model does not say how many turns the
    host takes before it ends the round of such a delivery."""
    if found.status != UNSEEN_HARM:
        return found
    return Outcome(found.status, b"".join(sorted(found.text.splitlines(keepends=True), key=lambda line: line[:2])))
