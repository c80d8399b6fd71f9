"""The texts of a page in a language, each language in a file of its own: page/en.toml, page/de.toml."""
import os
import tomllib
from functools import cache
from pathlib import Path

FOLDER = Path(os.path.realpath(__file__)).parent / 'page'
LANGUAGES = sorted(file.stem for file in FOLDER.glob('*.toml'))
ENGLISH = 'en'
POINT = '.'


class Texts:
    """The texts of a language, by the sections of its file."""

    def __init__(self, language):
        self.language = language
        self.source = (FOLDER / f'{language}.toml').read_text(encoding='utf-8')
        self.sections = tomllib.loads(self.source)
        self.compass, self.months = self.sections['compass'], self.sections['months']

    def __getitem__(self, section):
        return self.sections[section]

    def digits(self, text):
        """The digits of a number with the decimal mark of the language."""
        return text.replace(POINT, self.sections['decimal'])

    def pointed(self, text):
        """The digits of a number of this language with a decimal point."""
        return text.replace(self.sections['decimal'], POINT)

    def day(self, day):
        """A day of a year, without the year."""
        return self.sections['day_of_month'].format(day=day.day, month=self.months[day.month - 1])

    def month(self, day):
        """The month of a day, with its year."""
        return self.sections['month_of_year'].format(month=self.months[day.month - 1], year=day.year)

    def since(self, title, day):
        """A title of what began on a day."""
        return self.sections['since'].format(title=title, day=self.day(day))

    def short_months(self, text):
        """A text with the short names of months in this language."""
        for english, own in zip(english_texts().sections['short_months'], self.sections['short_months']):
            text = text.replace(english, own)
        return text


@cache
def english_texts():
    """The texts in English."""
    return Texts(ENGLISH)
