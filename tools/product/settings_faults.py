"""Where in a file of settings the program's refusal points, in words for who wrote the file."""
import re
import tomllib
from difflib import get_close_matches

import rows as row_lines

REFUSAL = re.compile(r'settings (unknown key|bad number) (\S+) (\S+) (\d+)')
CHANGE = re.compile(r'change-(\d+)(?:-(\w+))?')
CROSSED = re.compile(r'settings crossed (\w+)(?: change (\d+))?')
FAULT_OF_CHANGE = re.compile(r'settings (bad from|change order) (\d+)')
TOP, NO_NAME = 'top', '-'
LINE_FEED = b'\n'
KNOWN = {
    TOP: ['calibration', 'change', 'limits', 'period', 'rows'],
    'change': ['calibration', 'from', 'limits'],
    'calibration': ['num', 'den', 'add'],
    'limits': ['least', 'greatest'],
}


def member(table, key):
    """A member of a table or of an array, if it has that one."""
    try:
        return table[key]
    except (KeyError, IndexError, TypeError):
        return None


def at_path(settings, path):
    """What stands at the end of a path of keys, if anything does."""
    found = settings
    for key in path:
        found = member(found, key)
    return found


def line_of(text, path):
    """The number of the line behind which the path of keys is there."""
    lines = text.splitlines(keepends=True)
    for count in range(1, len(lines) + 1):
        try:
            settings = tomllib.loads(''.join(lines[:count]))
        except tomllib.TOMLDecodeError:
            continue
        if at_path(settings, path) is not None:
            return count
    return len(lines)


def path_of(section, name, place, settings):
    """The path of keys that a section of a refusal, its field and the place of a key stand for."""
    change = CHANGE.fullmatch(section)
    path = ['change', int(change[1]), *filter(None, [change[2]])] if change else [] if section == TOP else [section]
    path += [] if name == NO_NAME else [name]
    keys = sorted(at_path(settings, path) or {}, key=str.encode)
    return [*path, keys[place]] if place < len(keys) else path


def known_at(path):
    """The keys that may stand in place of the last one of a path."""
    is_in_change = path[0] == 'change' and len(path) > 2
    table = path[2:] if is_in_change else path
    if len(table) == 1:
        return KNOWN['change' if is_in_change else TOP]
    return list(row_lines.FIELDS) if len(table) == 2 else KNOWN[table[0]]


def advice(path):
    """What a key that is not known may have been meant for."""
    known = known_at(path)
    meant = get_close_matches(path[-1].lower(), [key.lower() for key in known], 1)
    if meant:
        return f"did you mean '{next(key for key in known if key.lower() == meant[0])}'?"
    return f'known are {", ".join(known)}' if len(known) < len(row_lines.FIELDS) else 'no field has this name'


def trouble_at(settings, refusal):
    """The path of keys that a refusal means, and what is wrong there."""
    if match := REFUSAL.fullmatch(refusal):
        path = path_of(match[2], match[3], int(match[4]), settings)
        if match[1] == 'unknown key':
            return path, f"the key '{path[-1]}' is not known: {advice(path)}"
        return path, f"the value of '{path[-1]}' is none that it may have"
    if match := CROSSED.fullmatch(refusal):
        path = [*(['change', int(match[2])] if match[2] else []), 'limits', match[1]]
        return path, f"'least' of {match[1]} is above its 'greatest'"
    if match := FAULT_OF_CHANGE.fullmatch(refusal):
        wanted = 'a later stamp than the change before it' if match[1] == 'change order' else 'a stamp as "2024-07-01 00:10"'
        path = ['change', int(match[2])]
        return [*path, 'from'] if at_path(settings, [*path, 'from']) else path, f"'from' of this change is not {wanted}"
    if refusal == 'settings bad period':
        return ['period'], "'period' is none that a console can keep"
    return [], refusal


def explained(name, data, refusal):
    """The program's refusal of a file of settings with the line and the key that it means."""
    try:
        text = data.decode('utf-8-sig')
        settings = tomllib.loads(text)
    except UnicodeDecodeError as fault:
        return f'{name} line {data.count(LINE_FEED, 0, fault.start) + 1}: this is no text in UTF-8'
    except tomllib.TOMLDecodeError as fault:
        return f'{name}: {fault}'
    path, trouble = trouble_at(settings, refusal)
    return f'{name} line {line_of(text, path)}: {trouble}' if path else f'{name}: {trouble}'
