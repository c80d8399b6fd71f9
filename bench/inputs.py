"""The files that the program is measured on, made once in a folder."""

import os
import random
import sqlite3
import subprocess
import sys
from datetime import datetime, timedelta

TOP = os.path.dirname(os.path.dirname(os.path.realpath(__file__)))
sys.path.insert(0, f'{TOP}/tools/checks')

import rooms  # first: some imports are of other rooms
import made_archive
from model.packets import ENTRY_BYTES, MEMBERS, PACKET_BYTES, entry_bytes, packet_of
from model.records import NAMES
from model.stamps import stamp_of_parts

SLOTS_OF_A_PAGE = 5
ROWS_OF_A_BATCH = 5
RECORDS_OF_A_ROUND = 100
TOLD_FIELDS = 9  # of a row line: the lines of 104,857 rows are just below 16 MiB
FIRST = datetime(2020, 1, 1)
PACKET_SECONDS = 2  # from one packet to the next, as a console sends them
SEED = 7

COLUMNS = ', '.join(f'v{field} INTEGER' for field in range(made_archive.FIELDS))
TABLE = f'CREATE TABLE archive (stamp INTEGER PRIMARY KEY, minutes INTEGER, {COLUMNS})'

# Makes nothing durable, so that no time is spent in waits for the disk.
UNSYNCED = 'int fdatasync(int file) { return 0; }\nint fsync(int file) { return 0; }\n'


def stamp_text(minutes):
    """The minute that is so many behind the first."""
    return f'{FIRST + timedelta(minutes=minutes):%Y-%m-%d %H:%M}'


def packet(number, chance):
    """A live packet of a day that grows warmer and wetter by and by."""
    data = bytearray(b'LOO' + bytes(PACKET_BYTES))
    values = {'barometer': 29_900 + number % 40, 'in_temp': 700, 'in_humidity': 45, 'out_temp': 500 + number // 200 % 300,
              'wind': chance.randrange(25), 'out_humidity': 60, 'rain_rate': 0, 'uv': 255, 'radiation': 32_767,
              'day_rain': number // 5_000, 'day_et': 0}
    for name, member in MEMBERS.items():
        place = slice(member.offset, member.offset + member.size)
        data[place] = values[name].to_bytes(member.size, 'little', signed=member.signed)
    return packet_of(bytes(data))


class Inputs:
    """The files of a folder. Each is made where it is missing, under a name that says what it holds."""

    def __init__(self, folder):
        self.folder = folder
        os.makedirs(folder, exist_ok=True)

    def made(self, name, make):
        """The path of a file, which is made by a call with the path that it has until it is whole."""
        path = f'{self.folder}/{name}'
        if not os.path.exists(path):
            make(f'{path}.part')
            os.rename(f'{path}.part', path)
        return path

    def text(self, name, text):
        """A file of this text."""
        def make(path):
            with open(path, 'w', encoding='ascii') as file:
                file.write(text())
        return self.made(name, make)

    def pages(self, count):
        """Pages of five records each."""
        def make(path):
            records = self.text(f'{count}.records', lambda: ''.join(
                f'{stamp_text(5 * n)} outTemp={n * 37 % 1500 - 300} rain={n % 3}\n' for n in range(SLOTS_OF_A_PAGE * count)))
            subprocess.run([f'{TOP}/tools/checks/make_pages.py', records, path], check=True, stdout=subprocess.DEVNULL)
        return self.made(f'{count}.pages', make)

    def archive(self, rows, batch_rows):
        """An archive of so many rows, in batches of so many."""
        return self.made(f'{rows}-by-{batch_rows}.archive', lambda path: made_archive.write(path, rows, batch_rows))

    def row_lines(self, rows):
        """The lines of so many rows, of which each has a value of the first fields."""
        values_of_day = [' '.join(f'{name}={value}' for name, value in zip(NAMES[:TOLD_FIELDS], values))
                         for values in made_archive.VALUES_OF]
        return self.text(f'{rows}.rows', lambda: ''.join(
            f'row {stamp_text(made_archive.MINUTES * n)} {made_archive.MINUTES} {values_of_day[n % len(values_of_day)]}\n'
            for n in range(rows)))

    def imported(self, program, rows, environment):
        """An archive of these rows, as the program makes it of their lines."""
        def make(path):
            subprocess.run([program, 'import', self.row_lines(rows), path], check=True, stdout=subprocess.DEVNULL,
                           env={**os.environ, **environment})
        return self.made(f'{rows}-imported.archive', make)

    def table(self, rows):
        """A table of SQLite with as many rows of a stamp, an interval and 37 values."""
        def make(path):
            base = sqlite3.connect(path)
            base.execute(TABLE)
            marks = ', '.join('?' * (2 + made_archive.FIELDS))
            base.executemany(f'INSERT INTO archive VALUES ({marks})', table_rows(rows))
            base.commit()
            base.close()
        return self.made(f'{rows}.sqlite', make)

    def additions(self, rows, journal):
        """Statements that add such rows to a new table of SQLite, five in each transaction that waits for the disk."""
        def statements():
            yield f'PRAGMA journal_mode={journal};\nPRAGMA synchronous=FULL;\n{TABLE};\n'
            for first in range(0, rows, ROWS_OF_A_BATCH):
                yield 'BEGIN;\n'
                for row in table_rows(ROWS_OF_A_BATCH, first):
                    yield f'INSERT INTO archive VALUES {row};\n'
                yield 'COMMIT;\n'
        return self.text(f'{rows}-{journal}.sql', lambda: ''.join(statements()))

    def packets(self, count):
        """Entries of live packets."""
        def make(path):
            chance = random.Random(SEED)
            first = 60 * stamp_of_parts(FIRST.year, FIRST.month, FIRST.day, 0, 0)
            with open(path, 'wb') as file:
                for number in range(count):
                    moment = divmod(first + PACKET_SECONDS * number, 60)
                    file.write(entry_bytes(*moment, packet(number, chance)))
        return self.made(f'{count}.packets', make)

    def settings(self, period):
        """Settings with this interval between records."""
        return self.text(f'{period}.toml', lambda: f'period = {period}\n')

    def schedule(self, rounds, detail=''):
        """Rounds of 100 records each, one a minute, with a line of detail in each round."""
        name = f'{rounds}-{detail.replace(" ", "-")}.schedule'
        return self.text(name, lambda: ''.join(
            f'run {stamp_text(5 + RECORDS_OF_A_ROUND * n)} {RECORDS_OF_A_ROUND} outTemp={n}\nround\n'
            + (f'{detail}\n' if detail else '') for n in range(rounds)))

    def unsynced(self):
        """A library that takes the place of the system's calls that wait for the disk."""
        def make(path):
            source = self.text('unsynced.c', lambda: UNSYNCED)
            subprocess.run(['cc', '-shared', '-fPIC', '-O2', '-o', path, source], check=True)
        return self.made('unsynced.so', make)

    def anchor(self, name):
        """A program in C of this folder, to be measured against. It is built anew."""
        path = f'{self.folder}/{name}'
        subprocess.run(['cc', '-O2', '-Wall', '-Wextra', '-o', path, f'{TOP}/bench/{name}.c'], check=True)
        return path


def table_rows(rows, first=0):
    """So many rows of a table, from a number on, with the stamps in seconds and the values of the archive."""
    begin = int((made_archive.FIRST - made_archive.EPOCH).total_seconds())
    minutes = made_archive.MINUTES
    for number in range(first, first + rows):
        yield begin + 60 * minutes * number, minutes, *made_archive.VALUES_OF[number % made_archive.ROWS_OF_A_DAY]
