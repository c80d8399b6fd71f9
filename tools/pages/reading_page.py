"""The part of a page: types before what speaks of them, and each other definition before those that it cites."""
import re
import textwrap

import kit_files
import spec_files
from printed import Place
from renamed import renamed

FENCE = '```'
WIDTH = 120
SORT = re.compile(r'Type \d')
PARAMETERS = re.compile(r'[({][^:(){}]+ : ([^(){}]*)[)}]')


def is_type(definition):
    """Whether it is a type of values: data, or a record that says nothing of any value."""
    if definition.kind == 'data':
        return True
    head = definition.text.partition(' where')[0]
    return definition.kind == 'record' and all(SORT.fullmatch(sort) for sort in PARAMETERS.findall(head))


def block(language, text):
    """A block of source."""
    return f'{FENCE}{language}\n{text}\n{FENCE}\n'


def filled(text, indent=''):
    """A paragraph, or an entry of a list, in lines that are not too long."""
    return textwrap.fill(text, WIDTH, subsequent_indent=indent, break_long_words=False, break_on_hyphens=False) + '\n'


def crates_of(fresh):
    """The crates of what is printed, the lowest first."""
    found = {name.crate for name in fresh.definitions} | {item.crate for item in fresh.types.values()}
    return [crate for crate in spec_files.crates_in_order() if crate in found]


def files_of(files, fresh, crate):
    """The files of a crate that are reached, each behind those that it brings in, and else in the order of reaching."""
    modules = list(dict.fromkeys(name.module for name in fresh.definitions if name.crate == crate))
    ordered = []

    def visit(module):
        if module in ordered or (crate, module) not in files:
            return
        for name in files[crate, module].imports.values():
            if name.crate == crate and name.module != module:
                visit(name.module)
        ordered.append(module)

    for module in reversed(modules):
        visit(module)
    return [files[crate, module] for module in ordered if module in modules]


def file_part(file, definitions, up):
    """Some definitions of a file, with what its imports rename."""
    text = '\n\n'.join('\n'.join(one.comment + one.lines) for one in definitions)
    said = f'[{file.module}]({up}{kit_files.shown(file.path)}) of {file.crate}: {file.heading} {renamed(file, definitions)}'
    return filled(said.rstrip()) + '\n' + block('', text)


def code_part(fresh, crate, up):
    """The types and constants of a crate's code, file by file."""
    items = sorted((item for item in fresh.types.values() if item.crate == crate), key=lambda item: str(item.path))
    for path in dict.fromkeys(item.path for item in items):
        text = '\n\n'.join(item.text for item in items if item.path == path)
        shown = kit_files.shown(path)
        yield f'[{shown.name}]({up}{shown}), code of {crate}:\n\n' + block('rust', text)


def chosen(file, fresh, types):
    """Those definitions of a file that are types, or those that are not, in the order of the file."""
    return [fresh.definitions[name] for name in (one.name for one in file.definitions.values())
            if name in fresh.definitions and is_type(fresh.definitions[name]) == types]


def place_in(page, part):
    """A function from a crate and a definition of it, or a type of its code, to the place where this part prints it."""
    def place(crate, definition):
        if definition and not is_type(definition):
            return Place(page.name, f'{part.title}: {crate}')
        return Place(page.name, f'{part.title}: types')
    return place


def types_of(files, part, fresh, up):
    """The types, those of the lowest crate first."""
    blocks = []
    for crate in crates_of(fresh):
        blocks += code_part(fresh, crate, up)
        several = [(file, chosen(file, fresh, True)) for file in files_of(files, fresh, crate)]
        blocks += [file_part(file, types, up) for file, types in several if types]
    return [f'### {part.title}: types\n'] + blocks if blocks else []


def definitions_of(files, part, fresh, up):
    """All other definitions, those of the highest crate first, each before those that it cites."""
    for crate in reversed(crates_of(fresh)):
        several = [(file, chosen(file, fresh, False)) for file in reversed(files_of(files, fresh, crate))]
        blocks = [file_part(file, reversed_list, up) for file, found in several if (reversed_list := found[::-1])]
        if blocks:
            yield f'### {part.title}: {crate}\n'
            yield from blocks


def elsewhere_part(part, places):
    """The words that earlier pages print, each page's in one entry."""
    entries = {}
    for place, words in places.items():
        crate = place.heading.rpartition(': ')[2]
        listed = ', '.join(f'`{word.strip("◌")}`' for word in words)
        entries.setdefault(place.page, []).append(f'[{crate}]({place.link}) {listed}')
    listed = ''.join(filled(f'- On {page}.md: {"; ".join(said)}.', '  ') for page, said in entries.items())
    return f'### {part.title}: on earlier pages\n\n{listed}' if listed else ''


def part_text(files, part, fresh, places, up):
    """A part of a page."""
    blocks = [f'## {part.title}\n', part.about and filled(part.about)]
    blocks += types_of(files, part, fresh, up)
    blocks += definitions_of(files, part, fresh, up)
    blocks.append(elsewhere_part(part, places))
    return '\n'.join(filter(None, blocks))
