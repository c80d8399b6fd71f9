"""The folder of a page, and the list of what the page's tool made in it: just that is replaced, and just that is taken away."""
import fcntl
import json
import os
import re
import time
from pathlib import Path

NOTE = '.made.json'  # the list of its own files, and what they were made of
DRAFT = '.new-'  # what the name of a file begins with until the file is whole
INDEX = 'index.html'
MODE = 0o644
OLD_SECONDS = 3600  # as long a file of an earlier page is kept, for who has that page open
YEAR = re.compile(r'\d{4}')
OLD_CHART = re.compile(r'(day|week|month|year)-[0-9a-f]{12}\.svg')  # of a page that was made before there was a list
OLD_TABLE = re.compile(r'climate-(\d{4})(-\d\d)?\.(html|csv)')


class Foreign(Exception):
    """A file that is not the page's own stands in the way."""


def files_of_old_note(folder, years):
    """The files of a page that was made before there was a list, whose note had the digests of years alone."""
    def is_own(name):
        table = OLD_TABLE.fullmatch(name)
        return name == INDEX or OLD_CHART.fullmatch(name) or table and table[1] in years
    return sorted(name for name in os.listdir(folder) if is_own(name))


def names_in_folder(names):
    """The names of a list that lead to no other folder, since a list that others have changed has nothing taken away there."""
    return [name for name in names if isinstance(name, str) and name == os.path.basename(name)]


class Folder:
    """The folder of a page. One run has it at a time."""

    def __init__(self, name, may_replace=False):
        self.path, self.may_replace = Path(name), may_replace
        self.path.mkdir(mode=0o755, parents=True, exist_ok=True)
        self.lock = os.open(self.path, os.O_RDONLY)
        fcntl.flock(self.lock, fcntl.LOCK_EX)
        self.note = self.read_note()
        self.refuse_foreign([INDEX])

    def __enter__(self):
        return self

    def __exit__(self, *_):
        os.close(self.lock)

    def read_note(self):
        """The note of what was made: its own files, and by the name of what was made, what of."""
        try:
            note = dict(json.loads((self.path / NOTE).read_text(encoding='utf-8')))
            files, made = names_in_folder(note.get('files', [])), dict(note.get('made', {}))
        except (OSError, ValueError, TypeError):
            return {'files': [], 'made': {}}
        if note and all(YEAR.fullmatch(key) for key in note):
            return {'files': files_of_old_note(self.path, note), 'made': {}}
        return {'files': files, 'made': made}

    def refuse_foreign(self, names):
        """Refuses names at which there are files that it did not make, unless it may replace them."""
        foreign = [name for name in names if name not in self.note['files'] and os.path.lexists(self.path / name)]
        if foreign and not self.may_replace:
            raise Foreign(f'{self.path / foreign[0]} is there, and was not made by this tool: choose another folder, or --replace')

    def replace(self, name, text):
        """Replaces a file as a whole."""
        draft = self.path / (DRAFT + name)
        try:
            with open(draft, 'w', encoding='utf-8') as file:
                file.write(text)
                file.flush()
                os.fchmod(file.fileno(), MODE)
            os.replace(draft, self.path / name)
        except BaseException:
            draft.unlink(missing_ok=True)
            raise

    def write_note(self, files):
        """Notes which files are its own."""
        self.note['files'] = sorted(files)
        self.replace(NOTE, json.dumps(self.note))

    def write(self, texts, kept, made):
        """Writes files, the last one last, and takes away what is its own and neither new nor kept. `made` says what of."""
        drafts = [DRAFT + name for name in (*texts, NOTE)]
        self.refuse_foreign([*texts, *drafts])
        self.note['made'] = made
        self.write_note({*self.note['files'], *texts, *drafts, NOTE})
        for name, text in texts.items():
            self.replace(name, text)
        left = {name for name in self.note['files'] if name not in {*texts, *kept, *drafts, NOTE} and self.is_left(name)}
        self.write_note({*texts, *kept, *left, *drafts, NOTE})

    def is_left(self, name):
        """Whether a file of an earlier page is left there, since it is not old yet."""
        file = self.path / name
        try:
            if time.time() - file.lstat().st_mtime <= OLD_SECONDS:
                return True
        except FileNotFoundError:
            return False
        file.unlink(missing_ok=True)
        return False

    def has(self, names):
        """Whether files are there, all of them its own."""
        return all(name in self.note['files'] and (self.path / name).exists() for name in names)
