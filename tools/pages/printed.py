"""Where each definition and each type is printed: once, on the first page that needs it."""
from typing import NamedTuple

GAP = '..'  # stands for the cases of other commands


class Place(NamedTuple):
    """A heading of a page."""
    page: str
    heading: str

    @property
    def link(self):
        """The heading as a link from another page names it."""
        kept = (letter for letter in self.heading.lower().replace(' ', '-') if letter.isalnum() or letter in '-_')
        return f'{self.page}.md#{"".join(kept)}'


class Printed:
    """What the parts so far print."""

    def __init__(self):
        self.definitions, self.types, self.lines = {}, {}, {}
        self.listed = set()  # what a page has named so far of other pages

    def has(self, name, definition):
        """Whether every line of a definition, or of those cases of it that are needed, is printed."""
        needed = {line for line in definition.lines if line.strip() != GAP}
        return needed <= self.lines.get(name, set())

    def fresh(self, reached):
        """What of it is not printed so far."""
        return reached._replace(
            definitions={name: one for name, one in reached.definitions.items() if not self.has(name, one)},
            types={key: item for key, item in reached.types.items() if key not in self.types})

    def add(self, fresh, place_of):
        """This is printed too, each definition where `place_of` says."""
        for name, one in fresh.definitions.items():
            self.definitions.setdefault(name, place_of(name.crate, one))
            self.lines.setdefault(name, set()).update(one.lines)
        for key, item in fresh.types.items():
            self.types[key] = place_of(item.crate, None)

    def elsewhere(self, reached, page):
        """The words of what is reached that other pages print, by their places, but for those that the page named before."""
        found = {}
        named = [(self.definitions.get(name), name.word) for name in reached.definitions]
        named += [(self.types.get(key), item.word) for key, item in reached.types.items()]
        for place, word in named:
            if place and place.page != page and (page, place, word) not in self.listed:
                self.listed.add((page, place, word))
                found.setdefault(place, set()).add(word)
        return {place: sorted(words) for place, words in sorted(found.items())}
