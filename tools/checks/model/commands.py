"""The commands: words and files in, an outcome and files out."""

import re

from .archive import read_archive
from .climate import FIRST_YEAR, LAST_YEAR, climate_lines
from .copies import copy, may_be_written
from .fleets import MOST_STATIONS, fleet_outcome
from .imports import import_rows
from .made import MOST_MADE, MOST_SEED, make
from .outcomes import BAD_WORDS, DISK_FAULT, DONE, FILE_TOO_LONG, READ_FAULT, Refusal, outcome
from .packets import soft_outcome
from .pages import pages_outcome
from .reports import KINDS, report_lines
from .row_texts import rows_of_text
from .run import Run
from .schedule import read_schedule
from .settings import read_settings
from .stamps import day_of_text

LONGEST_FILE = 16_777_216  # bytes


def answer(words, files):
    """What a run with these words ends with; `files` holds bytes by name and is changed."""
    try:
        return answer_of(words[0], words[1:], files)
    except Refusal as refusal:
        return refusal.outcome


def answer_of(command, words, files):
    """What a command ends with, or its refusal."""
    if command == "replay" and len(words) == 2:
        return replay(*words, files)
    if command == "fleet" and 3 <= len(words) <= 2 + MOST_STATIONS:
        return fleet(*words[:2], words[2:], files)
    if command == "make" and len(words) == 2:
        return made(*words)
    if command == "pages" and len(words) in (1, 2):
        return pages(words, files)
    if command == "soft" and len(words) == 2:
        return soft(*words, files)
    if command == "report" and len(words) == 4:
        return report(*words, files)
    if command == "climate" and len(words) == 2:
        return climate(*words, files)
    if command == "copy" and len(words) == 2 and words[0] != words[1]:
        return copied(*words, files)
    if command == "import" and len(words) == 2 and words[0] != words[1]:
        return imported(*words, files)
    raise usage()


def usage():
    """The refusal of words that name no run."""
    return Refusal(BAD_WORDS, "usage")


def content(name, files):
    """The bytes of a file of settings, of a schedule, of pages, of packets or of row lines."""
    if name not in files:
        raise Refusal(READ_FAULT, "read fault")
    if len(files[name]) > LONGEST_FILE:
        raise Refusal(FILE_TOO_LONG, "file too long")
    return files[name]


def archive_content(name, files):
    """The bytes of an archive that has to be there."""
    if name not in files:
        raise Refusal(DISK_FAULT, "disk fault")
    return files[name]


def replay(settings_name, schedule_name, files):
    """What a replay ends with; the schedule is read once the settings are accepted."""
    settings = read_settings(content(settings_name, files))
    run = Run(settings)
    status = run.run(read_schedule(content(schedule_name, files), settings.period))
    return outcome(status, run.lines)


def fleet(settings_name, seed_text, names, files):
    """What stations that take turns end with; each schedule is read once those before it are accepted."""
    seed = decimal(seed_text, 0, MOST_SEED)
    settings = read_settings(content(settings_name, files))
    return fleet_outcome(seed, settings, [read_schedule(content(name, files), settings.period) for name in names])


def decimal(text, least, greatest):
    """A number in a range."""
    if re.fullmatch("[0-9]{1,10}", text) and least <= int(text) <= greatest:
        return int(text)
    raise usage()


def made(seed_text, count_text):
    """What a run of a made schedule ends with."""
    return make(decimal(seed_text, 0, MOST_SEED), decimal(count_text, 1, MOST_MADE))


def pages(names, files):
    """What is printed of a file of pages; settings may stand before it."""
    settings = read_settings(content(names[0], files)) if len(names) == 2 else None
    return pages_outcome(settings, content(names[-1], files))


def soft(settings_name, name, files):
    """What is printed of a file of packets, which is read once the settings are accepted."""
    settings = read_settings(content(settings_name, files))
    return soft_outcome(settings, content(name, files))


def report(name, kind, first_text, last_text, files):
    """What a report of an archive ends with."""
    first, last = day_of_text(first_text), day_of_text(last_text)
    if kind not in KINDS or first is None or last is None or first > last:
        raise usage()
    return outcome(DONE, report_lines(read_archive(archive_content(name, files)).rows, kind, first, last))


def climate(name, year_text, files):
    """What the climate table of a year ends with."""
    if not re.fullmatch("[0-9]{4}", year_text) or not FIRST_YEAR <= int(year_text) <= LAST_YEAR:
        raise usage()
    return outcome(DONE, climate_lines(read_archive(archive_content(name, files)).rows, int(year_text)))


def target_content(name, files):
    """The bytes of an archive that is to be written, and is made if it is not there."""
    image = files.get(name, b"")
    if not may_be_written(image):
        raise Refusal(DISK_FAULT, "disk fault")
    return image


def copied(old, new, files):
    """What a copy ends with."""
    source, target = archive_content(old, files), target_content(new, files)
    result, files[new] = copy(source, target)
    return result


def imported(text_name, name, files):
    """What an import ends with; the archive is opened once the text is accepted."""
    rows = rows_of_text(content(text_name, files))
    result, files[name] = import_rows(rows, target_content(name, files))
    return result
