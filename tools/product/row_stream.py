"""The rows of one or several archives of a station as a stream, so that however many they are, few are in memory."""
import subprocess
from heapq import merge

import rows as row_lines
from joined import STAMP_END
from reports import LAST_DAY, Refused


def lines_of(program, archive, first):
    """The row lines that the program reports of an archive from a day on. It is refused at their end if they are not whole."""
    words = [program, 'report', archive, 'rows', first.isoformat(), LAST_DAY.isoformat()]
    last = ''
    try:
        with subprocess.Popen(words, stdout=subprocess.PIPE, text=True) as ran:
            for last in ran.stdout:
                if last.startswith('row ') and last.endswith('\n'):
                    yield last
    except OSError as fault:
        raise Refused(f'the program is missing: {program}') from fault
    if ran.returncode or last and not last.startswith('row '):
        raise Refused(f'{archive}: {last.rstrip() or f"status {ran.returncode}"}')
    if last and not last.endswith('\n'):
        raise Refused(f'{archive}: the report is cut: its last line has no line feed: {last[:80]}')


def counted_rows(program, archives, first):
    """The rows of the archives from a day on, in order. Of two with one stamp that of the archive is taken that comes first."""
    before = ''
    for line in merge(*(lines_of(program, archive, first) for archive in archives), key=lambda line: line[:STAMP_END]):
        if line[:STAMP_END] != before:
            before = line[:STAMP_END]
            yield row_lines.counted_row(line.removesuffix('\n'))
