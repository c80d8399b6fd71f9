"""Which words and files the tools take for an archive, and what the program reports of one."""
import os
import subprocess

SETTINGS_ENDS = ('.toml', '.env', '.conf')
FIRST_DAY, LAST_DAY = '1999-12-31', '2127-12-31'
TEXT_BYTES = 512  # as many are looked at, of which an archive has zeros among the first nine
MISSING = 127


def is_text(name):
    """Whether a file is there and begins as text does."""
    if not os.path.isfile(name):
        return False
    with open(name, 'rb') as file:
        begin = file.read(TEXT_BYTES)
    return begin != b'' and all(byte >= 0x20 or byte in b'\t\n\r\f' for byte in begin)


def refusal_of(name):
    """Why a word is not taken for an archive, if so."""
    if name.endswith(SETTINGS_ENDS):
        return f'{name} is named as settings are, and is no archive'
    if is_text(name):
        return f'{name} holds text, and is no archive'
    return None


def run(program, *words):
    """The last line that the program prints for these words, or else what it ended with, and its status."""
    try:
        ran = subprocess.run([program, *words], stdout=subprocess.PIPE, text=True, check=False)
    except OSError:
        return f'the program is missing: {program}', MISSING
    lines = ran.stdout.splitlines() or [f'status {ran.returncode}']
    return lines[-1], ran.returncode


def rows_of(program, name):
    """How many lines the program prints of an archive's rows, the last of them, and its status."""
    words = [program, 'report', name, 'rows', FIRST_DAY, LAST_DAY]
    count, last = 0, ''
    try:
        with subprocess.Popen(words, stdout=subprocess.PIPE, text=True) as ran:
            for last in ran.stdout:
                count += 1
    except OSError:
        return 0, f'the program is missing: {program}', MISSING
    return count, last.rstrip('\n') or f'status {ran.returncode}', ran.returncode
