"""Random schedules with settings: records, rounds and openings, whose fates are chosen while the model runs."""

from .cases import Case
from .made import MOST_SEED
from .random_fates import AttackingLine, ChoosingLine, fate_lines
from .random_line_faults import faulty_line
from .random_settings import random_settings
from .records import FIELDS, KINDS, raw_of
from .run import Run
from .schedule import MOST_LINES, MOST_MIDS, MOST_RECORDS, read_schedule
from .setting_texts import any_settings_text, settings_text
from .settings import read_settings
from .stamps import MINUTES_OF_DAY, PERIODS, stamp_of_texts, stamp_text

FIRST_DAY_OF_CASES = stamp_of_texts("2024-06-30", "00:00")
FIRST_MINUTES = (0, 5, 600, 1380, 1435, 1439)
GAPS = (1, 60, MINUTES_OF_DAY, 31 * MINUTES_OF_DAY)
TICKS = (1, 2, 3, 5, 22, 23, 25, 26, 29, 31, 32, 33, 100)
RUNS = (1, 4, 5, 6, 10, 12, 30, 64, 65, 66, 130)
RUNS_AROUND_THE_RING = (100, 1000, 2555, 2559, 2560, 2561, 2563, 3000)
RUNS_OF_A_FULL_DUMP = (1, 2, 60, 62, 63, 64, 65, 66)
FIRST_MESSAGE_TURNED = ("1F", "0C", "2B", "11", "07")  # masks of the first message's byte
COMMENTS = ("", "# a comment", "#", "#\tany \x7f byte", "##  ")
DETAILS = ("host", "reply", "stop")


class Draft:
    """A schedule as lines; the fates of each round are filled in as it runs."""

    def __init__(self, chance, period=5):
        self.chance = chance
        self.period = period
        self.settings = f"period = {period}\n".encode()
        self.lines = []
        self.first = self.stamp = FIRST_DAY_OF_CASES + chance.choice(FIRST_MINUTES)
        self.named = 0.2  # how many lines of records have values
        self.rate = chance.choice([0, 0.02, 0.1, 0.3, 0.5])
        self.unseen_rate = chance.choice([0, 0.05, 1])
        self.line = ChoosingLine

    def near_stamp(self, chance):
        """A stamp among those of the records, or somewhat earlier or later."""
        return chance.randrange(self.first - 5, self.stamp + 40)

    def values(self):
        """The words of some values, each at an edge or anywhere."""
        chance, words = self.chance, []
        if chance.random() >= self.named:
            return ""
        for member in chance.sample(FIELDS, chance.choice([1, 2, 5, len(FIELDS)])):
            _, _, lowest, highest, shift = KINDS[member.kind]
            value = chance.choice([lowest, highest, chance.randint(lowest, highest), shift, 650]) - shift
            if raw_of(member, value) is not None:
                words.append(f" {member.name}={value}")
        return "".join(words)

    def next_stamp(self, count=1):
        """The text of the next stamp that rises, with so many behind it that are left free."""
        stamp = self.stamp
        self.stamp += count * self.period
        if self.chance.random() < 0.15:
            self.stamp += self.chance.choice(GAPS + (7 * self.period,))
        return stamp_text(stamp)

    def due(self):
        """One record falls due."""
        self.lines.append(f"due {self.next_stamp()}{self.values()}")

    def run(self, count):
        """So many records fall due."""
        self.lines.append(f"run {self.next_stamp(count)} {count}{self.values()}")

    def idle(self, ticks):
        """So many quiet waits pass."""
        self.lines.append(f"idle {ticks}")

    def open(self, most_change, rate):
        """The archive is opened, at times on a disk that stops."""
        self.lines.append("open")
        if self.chance.random() < rate:
            self.lines.append(f"stop {self.chance.randint(1, most_change)} {self.pick()}")

    def round(self, mids=(), stop=None):
        """A round with records that fall due by these messages, and a stop at this change."""
        self.lines.append("round")
        for number in sorted(mids):
            self.lines.append(f"mid {number} {self.next_stamp()}{self.values()}")
        if stop:
            self.lines.append(f"stop {stop} {self.pick()}")

    def pick(self):
        """What a stop leaves."""
        return self.chance.choice([0, 1, 2, 3, self.chance.randrange(20), self.chance.randrange(1000),
                                   self.chance.randrange(10_000_000)])

    def mids(self, most=MOST_MIDS):
        """Numbers of messages by which records fall due."""
        chance = self.chance
        count = chance.choice([0, 0, 0, 1, 2, 5, chance.randint(0, most)])
        return [chance.choice([1, 2, 3, 4, 5, chance.randint(1, 12), chance.randint(1, 60), 9_999_999])
                for _ in range(count)]

    def stop(self, rate, *most):
        """A change at which the disk stops in a round, or None."""
        return self.chance.randint(1, self.chance.choice(most)) if self.chance.random() < rate else None

    def text(self):
        """The bytes of the schedule."""
        return ("\n".join(self.lines) + "\n").encode()

    def fill(self):
        """Runs the draft once with fates chosen on the way, and adds their lines."""
        settings = read_settings(self.settings)
        steps = read_schedule(self.text(), settings.period)
        run = Run(settings)
        run.line = self.line(run.console, self.chance, self.rate, self.unseen_rate)
        run.run(steps)
        rounds = iter([step for step in steps if step.word == "round"])
        lines = []
        for line in self.lines:
            lines.append(line)
            if line == "round":
                lines += fate_lines(self.chance, next(rounds).fates)
        self.lines = lines

    def loosen(self):
        """Moves details behind lines that follow them, and adds comments."""
        lines = self.lines
        for _ in range(3):
            at = self.chance.randrange(len(lines))
            if lines[at].startswith(DETAILS) and lines[at + 1:at + 2] and lines[at + 1][:3] in ("due", "run", "idl"):
                lines[at], lines[at + 1] = lines[at + 1], lines[at]
        for at in range(len(lines) - 1, -1, -1):
            if self.chance.random() < 0.05:
                lines.insert(at, self.chance.choice(COMMENTS))


def add_steps(draft):
    """One to eight things that happen."""
    chance = draft.chance
    for _ in range(chance.randint(1, 8)):
        what = chance.randrange(10)
        if what < 2:
            for _ in range(chance.randint(1, 8)):
                draft.due()
        elif what < 4:
            draft.run(chance.choice(RUNS))
        elif what == 4:
            draft.idle(chance.choice(TICKS))
        elif what == 5:
            draft.open(5, 0.6)
        else:
            draft.round(draft.mids(), draft.stop(0.35, 16, 60))


def mixed(chance):
    """Any steps, with any period."""
    draft = Draft(chance, chance.choice((5,) + PERIODS))
    add_steps(draft)
    draft.fill()
    draft.loosen()
    return draft


def stopped(chance):
    """Many openings and rounds with stops, few fates."""
    draft = Draft(chance, chance.choice([5, 60, 120]))
    draft.rate, draft.named = chance.choice([0, 0, 0.03]), 0.05
    for _ in range(chance.randint(2, 16)):
        if chance.random() < 0.5:
            draft.run(chance.choice([1, 3, 5, 7, 20, 60]))
        if chance.random() < 0.3:
            draft.open(4, 0.7)
        else:
            draft.round(draft.mids(8), draft.stop(1, 8, 50))
    draft.fill()
    return draft


def full_dump(chance):
    """As many records held in a dump as it takes, or a few more or fewer, and a host that shows it."""
    draft = Draft(chance)
    draft.line = AttackingLine
    draft.rate, draft.unseen_rate = chance.choice([0, 0.2, 0.5]), 0
    draft.run(chance.choice([6, 10, 11, 40]))
    message = chance.choice([3, 4, 4, 5])
    count = chance.choice([0, MOST_MIDS - 2, MOST_MIDS - 1, MOST_MIDS])
    mids = [chance.randint(message, message + 1) for _ in range(count)]
    draft.round(mids, draft.stop(0.7, 5, 12))
    draft.run(chance.choice(RUNS_OF_A_FULL_DUMP))
    if chance.random() < 0.3:
        draft.idle(chance.choice([1, 3, 20, 26]))
    draft.round([chance.randint(1, 2) for _ in range(chance.choice([0, 0, 1, 2, MOST_MIDS - 1, MOST_MIDS]))])
    draft.round()
    draft.fill()
    second = [at for at, line in enumerate(draft.lines) if line == "round"][1]
    if chance.random() < 0.6 and not any(line.startswith("host 1 ") for line in draft.lines[second:]):
        draft.lines.insert(second + 1, f"host 1 flip 0 {chance.choice(FIRST_MESSAGE_TURNED)}")
    return draft


def attacked(chance):
    """Rounds that meet a console still in a dump, with pages that look like other replies."""
    draft = Draft(chance)
    draft.line = AttackingLine
    draft.rate, draft.unseen_rate = chance.choice([0.3, 0.6, 0.9]), chance.choice([0, 0, 0.2])
    # This temperature reads as the answer to a waking line.
    draft.lines.append(f"run {draft.next_stamp(10)} {chance.choice([5, 10])} outTemp=3338")
    for _ in range(chance.randint(1, 6)):
        what = chance.randrange(4)
        if what == 0:
            draft.run(chance.choice([1, 5, 11, 60, 64, 65]))
        elif what == 1:
            draft.idle(chance.choice([1, 2, 3, 8, 14, 20, 23, 26, 32]))
        else:
            draft.round(draft.mids(), draft.stop(0.4, 9))
    draft.round(draft.mids(10))
    draft.fill()
    return draft


def around_the_ring(chance):
    """More records than the ring holds."""
    draft = Draft(chance, chance.choice([1, 5, 5, 60, 120]))
    draft.rate, draft.named = chance.choice([0, 0.002, 0.01, 0.05]), 0.3
    for _ in range(chance.randint(1, 3)):
        draft.run(chance.choice(RUNS_AROUND_THE_RING + (chance.randint(1, 4500),)))
        if chance.random() < 0.8:
            draft.round(draft.mids(), draft.stop(0.5, 40, 2100))
    draft.round()
    draft.fill()
    return draft


def corrected_rows(chance):
    """Corrections, limits, changes from a stamp on, and few rows allowed."""
    draft = Draft(chance, chance.choice(PERIODS))
    draft.named, draft.rate = 0.9, chance.choice([0, 0.05])
    for _ in range(chance.randint(1, 5)):
        for _ in range(chance.randint(1, 8)):
            draft.due()
        if chance.random() < 0.3:
            draft.run(chance.randint(1, 40))
        draft.round(draft.mids(5), draft.stop(0.3, 30))
    if chance.random() < 0.5:
        draft.settings = settings_text(chance, random_settings(chance, draft.near_stamp, draft.period))
        draft.fill()
    else:
        draft.settings = any_settings_text(chance, draft.near_stamp)
    return draft


def faulty(chance):
    """A short schedule with a line that may have a fault."""
    draft = Draft(chance)
    draft.named = 0.3
    if chance.random() < 0.7:
        draft.run(chance.randint(1, 9))
    if chance.random() < 0.7:
        draft.round(chance.sample(range(1, 9), chance.randint(0, 3)))
    if chance.random() < 0.2:
        draft.open(1, 0)
    for _ in range(chance.choice([1, 1, 1, 2])):
        draft.lines.append(faulty_line(chance, draft.stamp, draft.period))
    return draft


def changed_digit(chance):
    """A schedule with one digit changed, which may be a fault."""
    draft = mixed(chance)
    at = chance.randrange(len(draft.lines))
    line = draft.lines[at]
    digits = [place for place, letter in enumerate(line) if letter.isdigit()]
    if digits:
        place = chance.choice(digits)
        draft.lines[at] = line[:place] + chance.choice("0123456789") + line[place + 1:]
    return draft


def longest(chance):
    """A schedule near the most lines or the most records."""
    draft = Draft(chance)
    if chance.random() < 0.5:
        draft.due()
        draft.lines += [chance.choice(["", "#"])] * (MOST_LINES - 2 + chance.randint(-1, 2))
        draft.lines.append(chance.choice(["round", "", "#", "bad", "due x", "\x01"]))
        return draft
    left = MOST_RECORDS + chance.randint(-1, 1)
    while left > 0:
        count = min(left, chance.randint(3000, 9000))
        draft.run(count)
        left -= count
    draft.due()
    draft.lines.append("round")
    return draft


# How often each kind of schedule is made.
MAKERS = {mixed: 30, stopped: 15, full_dump: 20, attacked: 35, around_the_ring: 2, corrected_rows: 30, faulty: 40,
          changed_digit: 15, longest: 1}
# How often each kind is made of which a fleet has several: few are refused, since then none is run.
MAKERS_OF_FLEETS = {mixed: 30, stopped: 15, full_dump: 5, attacked: 25, corrected_rows: 5, faulty: 2, changed_digit: 2}


def random_fleet_case(chance):
    """A run of `fleet`, under the settings of one of its schedules."""
    count = chance.choice((1, 2, 2, 2, 3, 3, 3, 4, 4, 8, 9))
    makers = chance.choices(list(MAKERS_OF_FLEETS), list(MAKERS_OF_FLEETS.values()), k=count)
    drafts = [maker(chance) for maker in makers]
    names = [f"{number}.schedule" for number in range(count)]
    files = {"settings.toml": chance.choice(drafts).settings, **{name: draft.text() for name, draft in zip(names, drafts)}}
    if chance.random() < 0.03:
        del files[chance.choice(list(files))]
    seed = MOST_SEED + 1 if chance.random() < 0.03 else chance.choice((0, 1, MOST_SEED, chance.randint(0, MOST_SEED)))
    return Case(["fleet", "settings.toml", str(seed), *names], files)


def random_replay_case(chance):
    """A run of `replay`, or at times of `make`."""
    if chance.random() < 0.05:
        seed = chance.choice([chance.randint(0, MOST_SEED), chance.randrange(100)])
        return Case(["make", str(seed), str(chance.randint(1, 300))])
    draft = chance.choices(list(MAKERS), list(MAKERS.values()))[0](chance)
    text = draft.text()
    text = text[:-1] if chance.random() < 0.1 else text
    return Case(["replay", "settings.toml", "case.schedule"], {"settings.toml": draft.settings, "case.schedule": text})
