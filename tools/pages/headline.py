#!/usr/bin/env python3
"""Writes docs/HEADLINE.md and docs/headline/: the headline in plain words, and all that must be read to believe it.

    tools/pages/headline.py            writes the pages, and their counts into README.md
    tools/pages/headline.py --check    writes nothing; the status is 1 if a page is not what would be written
    tools/pages/headline.py --bare     prints each definition on these pages that has no comment

The plain words stand in tools/pages/headline/observer.md, which pages there are in tools/pages/headline/pages.toml, and all else comes
from the definitions and the examples. What is cited of the toolchain's ported crates is counted where `rt` stands.
"""
import re
import sys
from pathlib import Path
from typing import NamedTuple

sys.dont_write_bytecode = True  # nothing is left beside the scripts

import kit_files
import page_plan
import reading_page
import spec_files
from printed import GAP, Printed
from reading_counts import amount, counts_of, joined, of_kit, of_repository
from reading_list import Reached

sys.setrecursionlimit(10_000)  # a definition cites others some hundred deep
DOCS = spec_files.TOP / 'docs'
SOURCE = spec_files.TOP / 'tools/pages/headline/observer.md'
README = spec_files.TOP / 'README.md'
EXAMPLE = spec_files.TOP / 'examples/headline'
COUNTED = re.compile(r'(<!-- counts of (\w+) by (\w+): tools/pages/headline.py -->\n).*?(<!-- end of counts -->)', re.S)
DIRECTIVE = re.compile(r'\{\{(\w+)(?: (\w+))?\}\}')
LEANING = re.compile(r'-- (?:the same|and|so (?!many|often)|its?|each of them|with|of an?)\b')  # on what stands beside it
UP = '../../'


class ListedPart(NamedTuple):
    """A part with what must be read of it in all, what of that the page prints, and its text."""
    part: page_plan.Part
    whole: Reached
    fresh: Reached
    text: str


class Listed(NamedTuple):
    """A page with the same of it, with what it is the first to cite of the toolchain, and whether it has its clauses."""
    page: page_plan.Page
    whole: Reached
    fresh: Reached
    kit: Reached
    parts: tuple
    opens: bool


def listed_pages(files):
    """All pages in their order, each with its parts as texts and counts."""
    printed, known, contracts, found = Printed(), Printed(), set(), []
    for page in page_plan.planned_pages():
        parts = []
        for part in page.parts:
            reached = page_plan.reached_by(files, page, part)
            fresh = printed.fresh(of_repository(reached))
            places = printed.elsewhere(reached, page.name)
            printed.add(fresh, reading_page.place_in(page, part))
            text = reading_page.part_text(files, part, fresh, places, UP)
            parts.append(ListedPart(part, reached, fresh, text))
        whole = joined([one.whole for one in parts])
        kit = known.fresh(of_kit(whole))
        known.add(kit, lambda crate, definition, page=page: page.name)
        fresh = joined([one.fresh for one in parts])
        found.append(Listed(page, whole, fresh, kit, tuple(parts), page.contract not in contracts | {None}))
        contracts.add(page.contract)
    return found


def parts_table(listed):
    """How much each part of a page has."""
    rows = ['| Part | Definitions here | Lines | Types and constants of the code | Code lines | In all | All lines |',
            '|---|---|---|---|---|---|---|']
    for one in listed.parts:
        here, all_of_it = counts_of(one.fresh), counts_of(of_repository(one.whole))
        rows.append(f'| {one.part.title} | {here.definitions:,} | {here.lines:,} | {here.types:,} | {here.type_lines:,} '
                    f'| {all_of_it.definitions:,} | {all_of_it.lines:,} |')
    return '\n'.join(rows) + '\n'


def kit_part(listed):
    """What the page is the first to cite of the toolchain's ported crates, file by file. It is not copied."""
    rows = {}
    for name, one in listed.kit.definitions.items():
        folder = kit_files.folder_of(name.crate) / 'specs'
        path = folder.joinpath(*name.module.split('.')).with_suffix('.antt')
        rows.setdefault(path, []).append((name.word, one.size))
    for item in listed.kit.types.values():
        rows.setdefault(item.path, []).append((item.word, item.size))
    if not rows:
        return ''
    lines = ['## Of the toolchain', '', reading_page.filled(
        'These definitions belong to ported crates of the toolchain. They have to be read too, are counted here, and are '
        'not copied. `KIT` is the folder of the toolchain, in which `bin/rt` stands.'),
        '| File | Definitions and types | Lines | Which |', '|---|---|---|---|']
    for path, found in sorted(rows.items()):
        words = ', '.join(f'`{word.strip("◌")}`' for word, _ in found)
        lines.append(f'| `{kit_files.shown(path)}` | {len(found)} | {sum(size for _, size in found)} | {words} |')
    return '\n'.join(lines) + '\n'


def beginning(listed, first):
    """With which clauses a page begins, if with any."""
    contract = listed.page.contract
    if not contract:
        return ''
    clauses = f'the {contract.count} clauses of [`{contract.function}`]({UP}{kit_files.shown(contract.path)})'
    return f'It begins with {clauses}' + ('. ' if listed.opens else f', which stand on [{first}.md]({first}.md). ')


def without_proofs(listed):
    """The values of records that the page prints without the proofs of their laws."""
    words = [name.word for name, one in listed.fresh.definitions.items()
             if name not in page_plan.BY_COMMAND and any(line.strip() == GAP for line in one.lines)]
    return ' and in '.join(f'`{word}`' for word in words)


def opening(listed, first):
    """What stands first on a page."""
    page, here, whole = listed.page, counts_of(listed.fresh), counts_of(of_repository(listed.whole))
    said = [page.about + ' [HEADLINE](../HEADLINE.md) says it in plain words, and explains the '
            '[signs](../HEADLINE.md#how-to-read-a-definition). `tools/pages/headline.py` makes this page: do not edit it.']
    with_others = f'With those that stand on other pages it takes {amount(whole)}. ' if whole != here else ''
    said.append(f'{beginning(listed, first)}Printed here are {amount(here)}. {with_others}They name '
                f'{len(listed.whole.toolchain)} words of the standard library of the toolchain, which stand on no page.')
    if any('on earlier pages' in one.text for one in listed.parts):
        said.append('What a part cites and this page does not print stands on an earlier page. Its last heading lists that, but '
                    'for what a part before it lists.')
    if cut := without_proofs(listed):
        said.append(f'`{GAP}` stands in {cut} for the proofs of the laws of its record, which the checker has read.')
    blocks = [reading_page.filled(text) for text in said]
    if listed.opens:
        blocks.append(reading_page.block('', page.contract.text))
    return '\n'.join(blocks + [parts_table(listed)])


def page_text(listed, first):
    """The text of a page."""
    parts = [f'# {listed.page.title}\n', opening(listed, first), *(one.text for one in listed.parts), kit_part(listed)]
    return '\n'.join(filter(None, parts))


def counts_table(lists):
    """How much must be read of each page."""
    rows = ['| Page | Of what | Definitions | Lines | Types and constants of the code | Code lines '
            '| In all | All lines | Of the toolchain | Toolchain lines |', '|---|---|---|---|---|---|---|---|---|---|']
    for one in lists:
        here, whole, kit = counts_of(one.fresh), counts_of(of_repository(one.whole)), counts_of(one.kit)
        numbers = (here.definitions, here.lines, here.types, here.type_lines, whole.definitions, whole.lines,
                   kit.definitions + kit.types, kit.lines + kit.type_lines)
        cells = ' | '.join(map('{:,}'.format, numbers))
        rows.append(f'| [{one.page.name}](headline/{one.page.path.name}) | {one.page.subject} | {cells} |')
    return '\n'.join(rows)


def example(kind):
    """The lines of the worked schedule, or of what is printed of it."""
    return Path(f'{EXAMPLE}.{kind}').read_text(encoding='utf-8').rstrip('\n').split('\n')


def named(word, lists):
    """A name of a definition that the plain page speaks of, which has to be one that a page reaches."""
    if not any(name.word == word for one in lists for name in one.whole.definitions):
        raise SystemExit(f'{SOURCE}: no page has a definition {word}')
    return f'`{word}`'


def plain_page(source, lists):
    """The plain page, each `{{..}}` of its source filled in."""
    def fill(found):
        kind, word = found.groups()
        if kind == 'counts':
            return counts_table(lists)
        if kind == 'name':
            return named(word, lists)
        lines = example({'schedule': 'schedule', 'printed': 'replay'}[kind])
        if word:
            return f'`{lines[int(word) - 1]}`'
        return reading_page.block('', '\n'.join(lines)).rstrip('\n')
    return DIRECTIVE.sub(fill, source)


def counted_readme(text, lists):
    """README with the counts of a page as they are."""
    by_name = {one.page.name: one for one in lists}

    def fill(found):
        one, bridge = by_name[found[2]], by_name[found[3]]
        both = joined([one.whole, bridge.parts[0].whole])
        here, whole = counts_of(one.fresh), counts_of(of_repository(one.whole))
        program, kit = counts_of(of_repository(both)), counts_of(of_kit(both))
        said = (f'[Its page](docs/headline/{one.page.path.name}) has {here.definitions:,} definitions in {here.lines:,} lines '
                f'to read. With those on pages before it there are {whole.definitions:,} in {whole.lines:,}, and from the words '
                f'of the command line on {program.definitions:,} in {program.lines:,}, beside {kit.definitions:,} in '
                f'{kit.lines:,} of crates that the toolchain brings.')
        return found[1] + reading_page.filled(said) + found[4]
    return COUNTED.sub(fill, text)


def faults(lists):
    """The pages with more lines than they may have, those of which the plan does not know, and comments that lean on others."""
    for one in lists:
        for name, definition in one.fresh.definitions.items():
            if definition.comment and LEANING.match(definition.comment[0]):
                yield f'{name.crate} {name.module} {name.word}: its comment leans on another: {definition.comment[0]}'
        lines = counts_of(one.fresh).lines
        if one.page.most_lines and lines > one.page.most_lines:
            yield f'{one.page.name}.md has {lines:,} lines of definitions: more than {one.page.most_lines:,}'
    for path in sorted(set(page_plan.FOLDER.glob('*.md')) - {one.page.path for one in lists}):
        yield f'{kit_files.shown(path)} is no page of {kit_files.shown(page_plan.PLAN)}'


def pages(lists):
    """The text of each page by its path."""
    texts = {DOCS / 'HEADLINE.md': plain_page(SOURCE.read_text(encoding='utf-8'), lists),
             README: counted_readme(README.read_text(encoding='utf-8'), lists)}
    first = {}
    for one in lists:
        place = first.setdefault(one.page.contract, one.page.name)
        texts[one.page.path] = page_text(one, place)
    return texts


def bare(lists):
    """The definitions on the pages that have no comment."""
    for one in lists:
        for name, definition in one.fresh.definitions.items():
            if not definition.comment:
                yield f'{one.page.name} {name.crate} {name.module} {name.word}'


def main(words):
    if words not in ([], ['--check'], ['--bare']):
        print(__doc__.split('\n\n')[1], file=sys.stderr)
        return 2
    lists = listed_pages(kit_files.with_ported(spec_files.read_specs()))
    if words == ['--bare']:
        print('\n'.join(bare(lists)))
        return 0
    made, found = pages(lists), list(faults(lists))
    print(*found, sep='\n', end='\n' if found else '')
    wrong = [path for path, text in made.items() if not path.exists() or path.read_text(encoding='utf-8') != text]
    for path in wrong:
        if words:
            print(f'{kit_files.shown(path)} is not what tools/pages/headline.py makes: run it, and read what changed')
        else:
            path.parent.mkdir(exist_ok=True)
            path.write_text(made[path], encoding='utf-8')
    return 1 if found or words and wrong else 0


if __name__ == '__main__':
    sys.exit(main(sys.argv[1:]))
