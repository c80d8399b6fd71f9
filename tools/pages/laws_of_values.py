"""A record's value without what only proves the laws of its record: a reader has these in the record's own declaration."""
import re

from printed import GAP

FIELD = re.compile(r"^  (?:pub )?([A-Za-z_][\w'-]*) :(?= )(.*)")
GIVEN = re.compile(r"^( +)([A-Za-z_][\w'-]*) = ")
OPENS = re.compile(r'(?:^|= )\s*record \{$')
ARROW = re.compile(r'→(?![^(]*\))')  # one that stands in no brackets
RELATION = re.compile(r'Type \d$')


def _types(record):
    """The fields of a record with their types, each in one line."""
    found = {}
    for line in record.lines:
        field = FIELD.match(line)
        if field:
            word = field[1]
            found[word] = field[2].strip()
        elif found and not line.strip().startswith('--'):
            found[word] += ' ' + line.strip()
    return found


def laws_of(record):
    """The fields that say something of the others: the last word of their type is a relation that the record has."""
    relations, laws = set(), set()
    for word, type_ in _types(record).items():
        said = ARROW.split(type_)[-1].split()
        if RELATION.search(type_):
            relations.add(word)
        elif said and said[0] in relations:
            laws.add(word)
    return laws


def result_of(definition):
    """The type of which a definition gives a value, as it is written, or nothing."""
    signature = next((line for line in definition.lines if ' : ' in line), '').partition(' : ')[2]
    words = ARROW.split(signature)[-1].split()
    return words[0] if words else ''


def without_laws(definition, record):
    """The definition, if it is a value of this record, without the fields that prove laws."""
    start = next((number for number, line in enumerate(definition.lines) if OPENS.search(line)), None)
    if start is None:
        return definition
    laws, kept, dropping = laws_of(record), list(definition.lines[:start + 1]), False
    indent = GIVEN.match(definition.lines[start + 1])
    for line in definition.lines[start + 1:]:
        field = GIVEN.match(line)
        if field and indent and field[1] == indent[1]:
            dropping = field[2] in laws
            if dropping and kept[-1].strip() != GAP:
                kept.append(indent[1] + GAP)
        elif len(line) - len(line.lstrip()) < len(indent[1] if indent else ''):
            dropping = False
        if not dropping:
            kept.append(line)
    return definition._replace(lines=tuple(kept))
