"""Made schedules: records and troubles that follow from a seed, and the counts of their run."""

from .draws import Draws
from .outcomes import outcome
from .run import Run
from .schedule import read_schedule
from .settings import Settings
from .stamps import stamp_of_texts, stamp_text

FIRST_STAMP = stamp_of_texts("2024-01-01", "00:05")
LEAST_TEMPERATURE, TEMPERATURES, RAINS = -200, 1000, 3
RECORDS_OF_ROUND = 60
TROUBLES, STOP_TROUBLE, STOP_CHANGES, STOP_PICKS = 8, 7, 12, 5
DETAILS = {4: ["host 4 lost"], 5: ["reply 4 cut 100"], 6: ["reply 4 late 2 50"]}
MOST_SEED, MOST_MADE = 2 ** 31 - 1, 5000
ENDS = ("ok", "gaveup", "full", "stop")


def detail_lines(draws):
    """What one round of a made schedule meets."""
    trouble = draws.draw() % TROUBLES
    if trouble == STOP_TROUBLE:
        change = draws.draw() % STOP_CHANGES + 1
        return [f"stop {change} {draws.draw() % STOP_PICKS}"]
    return DETAILS.get(trouble, [])


def made_schedule(seed, count, period):
    """The bytes of the schedule of so many records."""
    draws, lines = Draws(seed), []
    for number in range(count):
        temperature = draws.draw() % TEMPERATURES + LEAST_TEMPERATURE
        rain = draws.draw() % RAINS
        lines.append(f"due {stamp_text(FIRST_STAMP + period * number)} outTemp={temperature} rain={rain}")
        if (number + 1) % RECORDS_OF_ROUND == 0 or number + 1 == count:
            lines += ["round"] + detail_lines(draws)
    return "".join(line + "\n" for line in lines + ["round"]).encode()


def make(seed, count):
    """The outcome of a made schedule: four lines of counts, and the status of its run."""
    settings = Settings()
    run = Run(settings)
    status = run.run(read_schedule(made_schedule(seed, count, settings.period), settings.period))
    ends = " ".join(f"{end} {run.ends.count(end)}" for end in ENDS)
    return outcome(status, [f"made {count} records {len(run.ends)} rounds", ends,
                            f"harmed {run.harmed}", run.lines[-1].removeprefix("end ")])
