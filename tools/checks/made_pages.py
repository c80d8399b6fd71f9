"""Pages that page.py makes of rows, and what is in them, for the trials of page.py. A script of the model is in the program's place."""
import functools
import subprocess
import sys
import threading
from contextlib import contextmanager
from datetime import datetime, timedelta
from html.parser import HTMLParser
from http.server import SimpleHTTPRequestHandler, ThreadingHTTPServer
from pathlib import Path

import rooms  # first: the imports below are of other rooms too
from model.records import NAMES
from model.reports import report_lines
from model.rows import Row, row_line
from model.stamps import FIRST_DAY, LAST_DAY, stamp_of_texts
from stand_in import write_archive
from trying import Differs, hold, leave_out

try:
    import page
    import page_charts
    import page_now
    import rows as row_lines
    from page_texts import Texts
    from reports import summaries
    from units import Units
    from zones import zone_named
except SystemExit as reason:  # a library is missing
    leave_out(f'{str(reason).split(";", maxsplit=1)[0]}: no page was tried')
    sys.exit(0)

TOOLS = Path(__file__).resolve().parent.parent
PERIOD = 5
ARCHIVE, FOLDER, INDEX = 'archive', 'folder', 'index.html'
GROWERS = {'radiation': 400, 'UV': 31, 'ET': 9, 'soilTemp1': 50, 'soilTemp3': 57, 'soilMoist2': 32, 'leafTemp1': 61, 'leafWet2': 3}
AWKWARD = 'Roof <b>"Bern"</b> & \'sons\' {{ 1 }} $x$'


class Seen(HTMLParser):
    """What is in a page: its elements with their attributes, its text, and the cells of its tables."""

    def __init__(self, text):
        super().__init__()
        self.elements, self.rows, self.text, self.is_cell = [], [], '', False
        self.feed(text)

    def handle_starttag(self, tag, attrs):
        self.elements.append((tag, dict(attrs)))
        if tag == 'tr':
            self.rows.append([])
        if tag in ('td', 'th'):
            self.rows[-1].append('')
            self.is_cell = True

    def handle_endtag(self, tag):
        self.is_cell = self.is_cell and tag not in ('td', 'th')

    def handle_data(self, data):
        self.text += data
        if self.is_cell:
            self.rows[-1][-1] += data

    def all(self, tag, name):
        """The values of an attribute of all elements of a tag."""
        return [attributes[name] for element, attributes in self.elements if element == tag and name in attributes]

    def row(self, *first):
        """The row of a table that begins so."""
        for row in self.rows:
            if tuple(row[:len(first)]) == first:
                return row[len(first):]
        raise Differs(f'no row of a table begins with {first}')


def row_at(stamp, **values):
    """A row of the period that ends at a stamp. A value that is `limit` was taken away."""
    limited = frozenset(NAMES.index(name) for name, value in values.items() if value == 'limit')
    numbers = [None if values.get(name) == 'limit' else values.get(name) for name in NAMES]
    return Row(stamp_of_texts(*stamp.split()), PERIOD, tuple(numbers), limited)


def rows_from(stamp, count, values_of):
    """So many rows from a stamp on, with the values of each number."""
    first = datetime.strptime(stamp, '%Y-%m-%d %H:%M')
    stamps = (first + number * timedelta(minutes=PERIOD) for number in range(count))
    return [row_at(f'{one:%Y-%m-%d %H:%M}', **values_of(number)) for number, one in enumerate(stamps)]


def worked_values(number):
    """The values of a row of two days: 60.0 F on the first day, and from then on a tenth more with each row."""
    second = max(0, number - 287)  # its number within the second day
    return {'outTemp': 600 + second, 'highOutTemp': 603 + second, 'lowOutTemp': 598 + second, 'rain': int(number % 100 == 0),
            'barometer': 30_000 - second, 'outHumidity': 50, 'windSpeed': 10, 'windGust': 20 + (number == 290), 'windDir': 4}


def worked_rows():
    """Those rows up to 05:55 of the second day. One is missing."""
    return [row for number, row in enumerate(rows_from('2024-06-30 00:05', 359, worked_values)) if number != 100]


def made(program, *words, script=TOOLS / 'checks/stand_in.py', env=None):
    """Makes a page; gives the status, and what was printed of trouble."""
    ran = subprocess.run([TOOLS / 'product/page.py', '--program', script, *words, ARCHIVE, FOLDER], cwd=program.folder,
                         capture_output=True, text=True, env=env, check=False)
    return ran.returncode, ran.stdout + ran.stderr


def seen(program, name='index.html'):
    """What is in a file of the folder."""
    return Seen((program.folder / FOLDER / name).read_text(encoding='utf-8'))


def make(program, rows, *words, has_climate=True):
    """Makes the page of some rows; gives what is in it."""
    write_archive(program.folder / ARCHIVE, rows, has_climate)
    hold('the making', made(program, *words), (0, ''))
    return seen(program)


def page_of(program, rows, *words, name='Roof', has_climate=True, language='en'):
    """The page of some rows, which is not made yet, for parts that are made alone since they take less time."""
    write_archive(program.folder / ARCHIVE, rows, has_climate)
    archive = page.Archive(TOOLS / 'checks/stand_in.py', program.folder / ARCHIVE)
    with page.Folder(program.folder / FOLDER) as folder:  # no other run has it here
        return page.Page(archive, folder, Units('--metric' in words, row_lines.Buckets(), language), name)


def make_tables(program, rows, *words, **options):
    """Makes the tables alone of some rows; gives the page and what they were made of."""
    one = page_of(program, rows, *words, **options)
    months = one.archive.months()
    texts, made = one.files_of_years((one.first_day(months), one.last_day(months)), months)
    one.folder.write(texts, [name for _, names in made.values() for name in names], made)
    return one, made


def values_read(rows):
    """Rows as they are read from their lines."""
    return [row_lines.row_of(row_line(row), row_lines.Buckets()) for row in rows]


def now_of(rows, units=None, **options):
    """What is shown of the last of some rows, as it fell due."""
    days, read = summaries(report_lines(rows, 'days', FIRST_DAY, LAST_DAY)), values_read(rows)
    seen_rows = page_now.Seen(read, days, {}, row_lines.day_of(read[0].stamp))
    return page_now.now_of(seen_rows, units or Units(False, row_lines.Buckets()), read[-1].stamp, **options)


def make_small(program, rows, **options):
    """Makes a page of some rows with one chart; gives what is in it."""
    one, made_of = make_tables(program, rows, **options)
    chart = page_charts.chart_of('Day', values_read(rows), one.units)
    one.write_files({}, [[chart], []], made_of, made=values_read(rows)[-1].stamp, now=now_of(rows, one.units))
    return seen(program)


def table(program, name):
    """The lines of a table as CSV."""
    return (program.folder / FOLDER / f'{name}.csv').read_text(encoding='utf-8').splitlines()


class Quiet(SimpleHTTPRequestHandler):
    """Serves a folder, and notes what it is asked for."""

    def __init__(self, asked, *words, **options):
        self.asked = asked
        super().__init__(*words, **options)

    def log_request(self, code='-', size='-'):
        self.asked.append((self.path, str(int(code))))

    def log_message(self, *_):
        pass


@contextmanager
def served(folder):
    """Serves a folder to this machine; gives its address, and what it was asked for, each with the status."""
    asked = []
    server = ThreadingHTTPServer(('127.0.0.1', 0), functools.partial(Quiet, asked, directory=folder))
    threading.Thread(target=server.serve_forever, daemon=True).start()
    try:
        yield f'http://127.0.0.1:{server.server_port}', asked
    finally:
        server.shutdown()
