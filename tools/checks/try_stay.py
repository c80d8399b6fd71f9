#!/usr/bin/env python3
"""Tries stays of a built program: round after round over one line, to consoles that are played here.

    tools/checks/try_stay.py [--kills N] [--reports N] [--alike N] [--rounds N] [--asleep N] [--rows N] [--at-once N] \
        [--first N] [--quick N] [--only CASE ..] PROGRAM

The lines are cut, consoles sleep, fall silent, flood, or set their clocks back, and stays are killed. Behind each run the archive
has to have the first of the console's records, in order, and at least those that were acknowledged and those that a round counted.
The words choose how many stays are killed, how many reports are made beside one, how many stays are held against runs of `station`,
how many rounds the memory is looked at for, for how many rounds a console sleeps, how many rows the longer of two archives has
whose rounds are counted by instructions, how many runs of a case are made at once, the number of the first one, and by what waits
are divided in the stays that are killed or held against `station`: on a busy machine 1 is best. Left out they are few, and the
cases take a minute or two.

Waits are made shorter, which takes a C compiler. A case that cannot be run here is named with the reason: one
takes strace, and one valgrind. The last line is 'N passed, M failed', and the status is 1 if any failed.
"""
import argparse
import random
import re
import signal
import subprocess
import sys
import time
from concurrent.futures import ThreadPoolExecutor
from datetime import datetime
from pathlib import Path
from threading import Thread
from typing import NamedTuple

sys.dont_write_bytecode = True  # nothing is left beside the scripts

import trying
from fake_console import FLOOD_BYTES
from stay_console import FIRST, PERIOD, Console, Fault, Kind
from trying import LONGEST, MOST_TEXT, Differs, Ended, hold, need, try_all

TOOLS = Path(__file__).resolve().parent.parent
QUICK_WAITS = TOOLS / 'checks/quick_waits.c'
MADE_ARCHIVE = TOOLS.parent / 'bench' / 'made_archive.py'
LAST_OF_MADE = datetime(1999, 12, 31, 23, 55)  # a made archive of N rows ends N periods behind it
MOST_ROUNDS = 1_000_000
QUIET = 0.4  # seconds of a quiet wait
QUICK, QUICKER, QUICKEST = 5, 20, 50  # by which waits are divided: where what was said must not come late, and where many pass
WAKES = 9  # line feeds of a round for which nobody wakes
LATEST_KILL, LATEST_BEHIND_PAGE = 40, 0.004  # quiet waits after the start, and seconds after a page was said
FIRST_PAGES = 12  # pages of a first dump
GIVE_UPS = 12  # rounds in a row that end a stay
ROUND = re.compile(r'^round (\w+) attempts \d+ pages \d+ skipped 0 acked (\d+) rows (\d+)$', re.M)
ROW = re.compile(r'^row (\S+ \S+) 5 ', re.M)
ALL_ROWS = 'rows 1999-12-31 2127-12-31'
DONE, DEAD, CUT = 0, 4, 6
SIGNALS = signal.SIGKILL, signal.SIGTERM

RUNS_CUT, CUTS_BETWEEN = 20, (1, 2, 4)  # lines that are cut anywhere, and behind so many rounds
SILENT_WAITS = 20  # quiet waits that pass behind a round before its line is cut
ANSWERS_OF_ROUND, MOST_LATE = 25, 1.5  # answers of a round that may have a fault, and quiet waits by which one may be late
TRIES = 4  # of a run that another process may have made unlike
READS = 'read,readv,pread64,preadv,preadv2,sendfile,splice,copy_file_range'
LONGEST_BY_HAND = 1800  # seconds that one run may take if more is tried
ROUNDS_TRACED = 50
MOST_MEMORY = 4096  # KiB
SHORT_ARCHIVE = 1000  # rows
ROUNDS_COUNTED = 4
MOST_UNLIKE = 0.01  # the part by which the instructions of a round may differ


class Chosen(NamedTuple):
    """How much is tried."""
    kills: int = 20
    reports: int = 20
    alike: int = 20
    rounds: int = 100
    asleep: int = 24
    rows: int = 10_000
    at_once: int = 8
    first: int = 0
    quick: int = QUICK


HOW_MUCH = Chosen()


def stay(console, rounds, waits=1):
    """The words of a stay."""
    return f'stay settings archive {console.address} {rounds} {waits}'


def quick(program, by=QUICK):
    """Settings without a key, and an environment in which waits are shorter by that number."""
    need('cc', '--version')
    library = program.folder / 'quick.so'
    if not library.exists():
        subprocess.run(['cc', '-shared', '-fPIC', '-O1', '-o', library, QUICK_WAITS], check=True)
    program.write('settings', '')
    return {'LD_PRELOAD': str(library), 'QUICKER': str(by)}


def shown(program, archive='archive'):
    """The stamps of the rows of an archive."""
    report = program.run(f'report {archive} {ALL_ROWS}')
    hold('the status of the report', report.status, DONE)
    return ROW.findall(report.printed)


def hold_archive(program, console, printed, archive='archive'):
    """Holds that the rows are the first of the console's records, in order, and at least those that were acknowledged and those
    that a round counted."""
    if not console.idle.wait(LONGEST):
        raise Differs('the console still talks')
    rows = shown(program, archive)
    wanted = [f'{stamp:%Y-%m-%d %H:%M}' for stamp in console.stamps]
    hold('the rows', rows, wanted[:len(rows)])
    least = max([console.acknowledged, *(int(found[1]) for found in ROUND.findall(printed))])
    if len(rows) < least:
        raise Differs(f'{len(rows)} rows, and {least} were acknowledged')


def hold_rounds(ended, status, last):
    """Holds the status and the last lines; gives how the rounds ended."""
    hold('the status', ended.status, status)
    ends = [found[0] for found in ROUND.findall(ended.printed)]
    if not ended.printed.endswith(f'stayed {len(ends)}\n{last}'):
        raise Differs(f'the last lines after {len(ends)} rounds: {ended.printed[-200:]!r}')
    return ends


def many(tries, case):
    """Makes so many runs, some at once, each by its number; gives what each gives. A run that fails is named even if all are tried
    again."""
    def once(number):
        try:
            return case(number)
        except Exception as reason:
            print(f'run {number}: {reason!r:.{MOST_TEXT}}', file=sys.stderr)
            raise

    with ThreadPoolExecutor(HOW_MUCH.at_once) as pool:
        return list(pool.map(once, range(HOW_MUCH.first, HOW_MUCH.first + tries)))


def line_that_is_cut(program):
    """A line that ends within a round, or between two, ends the run with 6, and no row is lost."""
    environment = quick(program)

    def once(number):
        console = Console(more=2, cut=random.Random(number).randrange(1, 3000))
        archive = f'archive{number}'
        ended = program.run(stay(console, 20).replace(' archive ', f' {archive} '), env=environment)
        ends = hold_rounds(ended, CUT, 'link fault\n')
        hold('the rounds before the last one', set(ends[:-1]) - {'ok', 'gaveup'}, set())
        hold_archive(program, console, ended.printed, archive)

    many(RUNS_CUT, once)


def line_that_is_cut_between_rounds(program):
    """A line that ends between two rounds ends the run with 6, and the rounds so far are counted."""
    environment = quick(program)
    for rounds in CUTS_BETWEEN:
        console = Console(more=2, rounds=rounds, pause=SILENT_WAITS * QUIET / QUICK)
        ended = program.run(stay(console, 20, 2 * SILENT_WAITS), env=environment)
        hold('the rounds', hold_rounds(ended, CUT, 'link fault\n'), ['ok'] * rounds)
        hold_archive(program, console, ended.printed)
        (program.folder / 'archive').unlink()


def wait_for_moment(console, draw, with_page):
    """Waits for a random moment of a stay: some time behind its start, or just behind a page."""
    latest = LATEST_KILL * QUIET / HOW_MUCH.quick
    if with_page:
        console.came.wait(latest)
        time.sleep(draw.uniform(0, LATEST_BEHIND_PAGE))
    else:
        time.sleep(draw.uniform(0, latest))


def stay_that_is_killed(program):
    """A stay that is ended at any moment leaves the rows that were acknowledged or counted, and the next one goes on from there.
    One half are ended by SIGKILL and one half by SIGTERM; of each a half just behind a page."""
    environment = quick(program, HOW_MUCH.quick)

    def ended_at_random(number, archive, console):
        draw, with_page, by = random.Random(number), number // 2 % 2 == 0, SIGNALS[number % 2]
        console.awaited = draw.randint(1, 2 * FIRST_PAGES)
        words = stay(console, MOST_ROUNDS, 0).replace(' archive ', f' {archive} ')
        with program.start(words, env=environment) as run:
            wait_for_moment(console, draw, with_page)
            run.process.send_signal(by)
            ended = run.end()
        hold('the status', ended.status, -by)
        if (program.folder / archive).exists():
            hold_archive(program, console, ended.printed, archive)
        return console.said is not None

    def once(number):
        archive = f'archive{number}'
        with Console(records=60, more=7) as console:
            is_within = ended_at_random(number, archive, console)
        with Console(records=len(console.stamps), more=0) as console:
            for _ in range(TRIES):  # a round gives up if others ran
                ended = program.run(stay(console, 1).replace(' archive ', f' {archive} '), env=environment)
                if 'ok' in hold_rounds(ended, DONE, ''):
                    break
        hold('the rows then', len(shown(program, archive)), len(console.stamps))
        (program.folder / archive).unlink()
        return is_within

    within = many(HOW_MUCH.kills, once)
    print(f'{len(within)} stays were ended, {sum(within)} of them before they acknowledged a page that was said')


def end_by_a_signal(program):
    """SIGTERM ends a stay, and all rows that it counted stay."""
    environment = quick(program)
    console = Console()
    with program.start(stay(console, MOST_ROUNDS, 1_000_000), env=environment) as run:
        while console.dumps == 0:
            time.sleep(0.01)
        run.process.terminate()
        ended = run.end()
    hold('the status', ended.status, -signal.SIGTERM)
    hold_archive(program, console, ended.printed)


def sleeping_console(program):
    """Rounds in a row for which nobody wakes end the run with 4 if they are too many, and else the next round goes on."""
    environment = quick(program, QUICKER)
    console = Console(deaf=range(GIVE_UPS * WAKES))
    ends = hold_rounds(program.run(stay(console, 20), env=environment), DEAD, 'gave up\n')
    hold('the rounds', ends, ['gaveup'] * GIVE_UPS)
    console = Console(deaf=range((GIVE_UPS - 1) * WAKES))
    ends = hold_rounds(program.run(stay(console, GIVE_UPS), env=environment), DONE, '')
    hold('the rounds', ends, ['gaveup'] * (GIVE_UPS - 1) + ['ok'])
    hold('the rows', len(shown(program)), 12)


def console_asleep_for_a_day(program):
    """Stays that are begun again and again, as the unit begins them, take all records once a console that slept answers."""
    environment = quick(program, QUICKER)
    console = Console(more=0, deaf=range(1, 1 + HOW_MUCH.asleep * WAKES))
    statuses, printed = [], ''
    for _ in range(HOW_MUCH.asleep // GIVE_UPS):
        ended = program.run(stay(console, 20), env=environment)
        statuses.append(ended.status)
        printed += ended.printed
    hold('the statuses', statuses, [DEAD] * (HOW_MUCH.asleep // GIVE_UPS))
    hold('the rows', len(shown(program)), 12)
    for _ in range(HOW_MUCH.asleep):
        console.stamps.append(console.stamps[-1] + PERIOD)
    ends = hold_rounds(program.run(stay(console, HOW_MUCH.asleep % GIVE_UPS + 2), env=environment), DONE, '')
    hold('the last round', ends[-1], 'ok')
    hold('the rounds that gave up', printed.count('round gaveup') + ends.count('gaveup') >= HOW_MUCH.asleep, True)
    hold('the rows', len(shown(program)), 12 + HOW_MUCH.asleep)
    hold_archive(program, console, printed)


def silent_line(program):
    """Packets that are dropped for a while, with no reset of the line, cost rounds, and no row."""
    environment = quick(program, QUICKER)
    console = Console(deaf=range(2, 2 + 5 * WAKES))
    ended = program.run(stay(console, 8), env=environment)
    hold('the rounds', hold_rounds(ended, DONE, ''), ['ok', 'ok'] + ['gaveup'] * 5 + ['ok'])
    hold('the rows', len(shown(program)), 12 + 2)
    hold_archive(program, console, ended.printed)


def talking_line(program):
    """What comes between two rounds is dropped, be it much or little."""
    environment = quick(program)
    for talk in (b'\n\r', bytes(99), bytes(FLOOD_BYTES + 5000)):
        console = Console(talk=talk)
        ended = program.run(stay(console, 4, 10), env=environment)
        hold('the rounds', hold_rounds(ended, DONE, ''), ['ok'] * 4)
        hold('the rows', len(shown(program)), 12 + 3)
        hold_archive(program, console, ended.printed)
        (program.folder / 'archive').unlink()


def clock_that_goes_back(program):
    """Records whose stamps fall are not stored, and those that are later again are."""
    environment = quick(program)
    console = Console(records=12, more=0)
    falling = [stamp - 6 * PERIOD for stamp in console.stamps]
    console.grow = lambda: console.stamps.extend(falling)
    ended = program.run(stay(console, 3), env=environment)
    hold('the rounds', hold_rounds(ended, DONE, ''), ['ok'] * 3)
    hold('the rows', shown(program), [f'{FIRST + number * PERIOD:%Y-%m-%d %H:%M}' for number in range(12)])


def one_round(program):
    """A stay of one round prints the lines of `station`, and `stayed 1` behind them."""
    environment = quick(program)
    for number, faults in enumerate(({}, {2: Fault(Kind.LOST)}, {4: Fault(Kind.CHANGED, 9)})):
        printed = [program.run(words, env=environment) for words in (
            stay(Console(records=9, faults=faults), 1, 750).replace(' archive ', f' archive{number} '),
            f'station settings other{number} {Console(records=9, faults=faults).address}')]
        hold('the stay', printed[0], Ended(DONE, f'{printed[1].printed}stayed 1\n'))
        hold('the archive', program.read(f'archive{number}') == program.read(f'other{number}'), True)


def random_faults(draw, answers):
    """Faults of a line at some of so many answers."""
    def fault():
        kind = draw.choice(list(Kind))
        late = draw.uniform(0.1, MOST_LATE) * QUIET / HOW_MUCH.quick
        return Fault(kind, late if kind is Kind.LATE else draw.randrange(1 << 16))

    often = draw.choice((0, 0.03, 0.1, 0.3))
    return {number: fault() for number in range(answers) if draw.random() < often}


def lines_of_runs(runs):
    """What a stay has to print in place of runs of `station`."""
    return ''.join(run.printed for run in runs).replace('gave up\n', '') + f'stayed {len(runs)}\n'


def runs_of_station(program):
    """A stay prints the lines of as many runs of `station`, and leaves the same archive, over a line that loses, cuts, changes and
    delays answers at random. Records are made between the rounds. A time that another process took can make the two differ, so
    a difference has to come each time."""
    environment = quick(program, HOW_MUCH.quick)

    def once(number):
        draw = random.Random(number)
        rounds, chosen = draw.randint(1, 4), {'records': draw.randint(1, 60), 'more': draw.randint(0, 12)}
        chosen['faults'] = random_faults(draw, ANSWERS_OF_ROUND * rounds)
        for again in range(TRIES):
            archive, other = f'archive{number}.{again}', f'other{number}.{again}'
            with Console(**chosen) as console:
                ended = program.run(stay(console, rounds).replace(' archive ', f' {archive} '), env=environment)
            with Console(**chosen) as console:
                runs = [program.run(f'station settings {other} {console.address}', env=environment) for _ in range(rounds)]
            wanted = Ended(DONE, lines_of_runs(runs))
            if ended == wanted and program.read(archive) == program.read(other):
                return again, wanted.printed
        raise Differs(f'{ended!r}, in place of {wanted!r}')

    told = many(HOW_MUCH.alike, once)
    lines = ''.join(printed for _, printed in told)
    print(f"{len(told)} stays of {lines.count('round ')} rounds were alike to runs of station, with {lines.count('attempt ')} "
          f"failed attempts and {lines.count('round gaveup')} rounds that gave up; {sum(again > 0 for again, _ in told)} were "
          'tried again')


def reports_beside(program):
    """Reports beside a stay show the first rows, and at least those that were there as they began."""
    environment = quick(program, QUICKER)
    console = Console(more=23)
    least = grown = 0
    with program.start(stay(console, MOST_ROUNDS, 0), env=environment):
        while console.dumps == 0:
            time.sleep(0.01)
        for _ in range(HOW_MUCH.reports):
            acknowledged = console.acknowledged
            rows = shown(program)
            wanted = [f'{stamp:%Y-%m-%d %H:%M}' for stamp in console.stamps]
            hold('the rows', rows, wanted[:len(rows)])
            if len(rows) < max(least, acknowledged):
                raise Differs(f'{len(rows)} rows, and {max(least, acknowledged)} before')
            grown += least < len(rows)
            least = len(rows)
    print(f'{HOW_MUCH.reports} reports beside a stay, of which {grown} showed more rows than the one before')


def archive_that_is_read_once(program):
    """Once the console was called no byte of the archive is read."""
    need('strace', '-o', '/dev/null', 'true')
    environment = quick(program, QUICKER)
    console = Console()
    under = ['strace', '-f', '-y', '-o', 'trace', '-e', f'trace=connect,openat,mmap,{READS}']
    words = [f'-E{name}={value}' for name, value in environment.items()]
    ended = program.run(stay(console, ROUNDS_TRACED), under=[*under, *words])
    ends = hold_rounds(ended, DONE, '')
    hold('the rounds', (len(ends), set(ends) - {'gaveup'}), (ROUNDS_TRACED, {'ok'}))  # gaveup: others ran
    before, called, behind = program.read('trace').decode(errors='replace').partition('connect(')
    hold('the calls of the console', (bool(called), behind.count('connect(')), (True, 0))
    read = [line for line in behind.splitlines() if '/archive>' in line or '"archive"' in line]
    hold('what was read of the archive then', read, [])
    if 'archive' not in before:
        raise Differs('the archive was not read before')


def memory_of_many_rounds(program):
    """The memory of a stay does not grow with its rounds."""
    environment = quick(program, QUICKEST)
    rounds, console = HOW_MUCH.rounds, Console(more=0)
    with program.start(stay(console, MOST_ROUNDS, 0), env=environment) as run:
        Thread(target=run.process.stdout.read, daemon=True).start()  # what is not read stops it after a thousand rounds
        while console.dumps < rounds:
            if not console.is_alive():
                raise Differs(f'the stay ended after {console.dumps} rounds')
            time.sleep(0.01)
        peak = re.search(r'^VmHWM:\s+(\d+) kB', Path(f'/proc/{run.process.pid}/status').read_text(encoding='ascii'), re.M)
    hold(f'{peak[1]} KiB are below {MOST_MEMORY} after {rounds} rounds', int(peak[1]) < MOST_MEMORY, True)
    print(f'{peak[1]} KiB after {rounds} rounds')


def instructions(program, environment, rows, rounds):
    """How many instructions a stay of so many rounds takes over an archive of so many rows, none of them new."""
    subprocess.run([MADE_ARCHIVE, str(rows), '5', program.folder / 'archive'], check=True)
    console = Console(records=1, more=0, first=LAST_OF_MADE + rows * PERIOD)
    under = ['valgrind', '--tool=callgrind', '--callgrind-out-file=/dev/null', '--log-file=counts']
    ended = program.run(stay(console, rounds, 0), under=under, env=environment)
    hold('the rounds', hold_rounds(ended, DONE, ''), ['ok'] * rounds)
    return int(re.search(r'Collected : (\d+)', program.read('counts').decode())[1])


def instructions_of_a_round(program):
    """A round without a new row takes as many instructions over a long archive as over a short one."""
    need('valgrind', '--version')
    environment = {**quick(program), 'PATH': '/usr/bin:/bin'}
    of_round = []
    for rows in (SHORT_ARCHIVE, HOW_MUCH.rows):
        one, more = (instructions(program, environment, rows, rounds) for rounds in (1, 1 + ROUNDS_COUNTED))
        of_round.append((more - one) / ROUNDS_COUNTED)
    short, long = of_round
    hold(f'{short:.0f} instructions and {long:.0f} are alike', 0 < short and abs(long - short) <= MOST_UNLIKE * short, True)
    print(f'{short:.0f} instructions for a round over {SHORT_ARCHIVE} rows, {long:.0f} over {HOW_MUCH.rows}')


CASES = (line_that_is_cut, line_that_is_cut_between_rounds, stay_that_is_killed, end_by_a_signal, sleeping_console,
         console_asleep_for_a_day, silent_line, talking_line, clock_that_goes_back, one_round, runs_of_station, reports_beside,
         archive_that_is_read_once, memory_of_many_rounds, instructions_of_a_round)
CASES_AT_ONCE = 3


def main():
    """Tries the cases; gives the status."""
    global HOW_MUCH
    words = argparse.ArgumentParser(prog='try_stay', description='Tries stays of a built program.')
    words.add_argument('program')
    for name, number in HOW_MUCH._asdict().items():
        words.add_argument(f"--{name.replace('_', '-')}", type=int, default=number)
    words.add_argument('--only', nargs='+', metavar='CASE', choices=[case.__name__ for case in CASES])
    chosen = vars(words.parse_args())
    program, only = chosen.pop('program'), chosen.pop('only')
    HOW_MUCH = Chosen(**chosen)
    if HOW_MUCH != Chosen():
        trying.LONGEST = LONGEST_BY_HAND
    cases = [case for case in CASES if not only or case.__name__ in only]
    return try_all([sys.argv[0], program], __doc__, cases, CASES_AT_ONCE)


if __name__ == '__main__':
    sys.exit(main())
