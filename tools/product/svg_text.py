"""The text of an SVG picture that matplotlib wrote: made shorter, and shown in the colours that its reader prefers."""
import re
from functools import cache

PATH = re.compile(r' d="([^"]*)"')
STEP = re.compile(r'([ML]) (\S+) (\S+)\s*|z\s*')
LINES = re.compile(f'({STEP.pattern})*')
FRACTION = re.compile(r'-?\d+\.\d+')
TENTHS = 10
PLACE = re.compile(r' (?:x|y|transform)="[^"]*"')
UNTURNED = re.compile(r' transform="rotate\(-0 [^"]*"')
STYLE = re.compile(r' style="([^"]*)"')
GROUP = re.compile(r'<g id="[^"]*">')
BETWEEN_TAGS = re.compile(r'(?<=>)\s+(?=<)')
HEAD = re.compile(r'.*?(?=<svg )', re.DOTALL)  # a document type, which is at another host
SHEET = '<style type="text/css">'

INK = '#303030'
INK_IN_THE_DARK = '#d8d8d8'
SCHEMES = f':root{{color-scheme:light dark;color:{INK}}}@media(prefers-color-scheme:dark){{:root{{color:{INK_IN_THE_DARK}}}}}'


def tenths(text):
    """A text with a tenth as the least part of each number."""
    return FRACTION.sub(lambda number: f'{float(number[0]):.1f}'.removesuffix('.0'), text)


@cache
def digits(number):
    """A count of tenths, in as few letters as it has."""
    return f'{number / TENTHS:g}'.replace('0.', '.') if abs(number) < TENTHS else f'{number / TENTHS:g}'


def short_steps(path):
    """A path of lines, in which each place is told by how far it is from the one before, in tenths of a point."""
    at, letter = (0, 0), ''
    for step in STEP.finditer(path):
        if step[0].startswith('z'):
            yield 'z'
            continue
        place = tuple(round(TENTHS * float(number)) for number in step.groups()[1:])
        if step[1] == 'M':
            letter = 'l'
            yield 'M' + ' '.join(map(digits, place))
        elif place != at:
            yield letter + ' '.join(digits(now - before) for now, before in zip(place, at))
            letter = ''
        at = place


def short_path(match):
    """A path in tenths of a point."""
    path = match[1]
    if LINES.fullmatch(path):
        text = ' '.join(short_steps(path))
    else:
        text = ' '.join(tenths(path).split())
    return f' d="{text.replace(" l", "l").replace(" -", "-")}"'


def with_classes(svg):
    """An SVG in which each style stands once, as a class of its sheet."""
    names = {}
    svg = STYLE.sub(lambda style: f' class="s{names.setdefault(style[1], len(names))}"', svg)
    classes = ''.join(f'.s{number}{{{style}}}' for style, number in names.items())
    return svg.replace(SHEET, SHEET + classes, 1)


def shortened(svg):
    """The same picture in fewer bytes: tenths of a point, each style once, and no names that nothing asks for."""
    svg = HEAD.sub('', PATH.sub(short_path, svg), count=1)
    svg = PLACE.sub(lambda place: tenths(place[0]), UNTURNED.sub('', svg))
    return with_classes(BETWEEN_TAGS.sub('', GROUP.sub('<g>', svg)))


def for_reader(svg):
    """A picture whose ink is light if its reader prefers a dark page."""
    return svg.replace(INK, 'currentColor').replace(SHEET, SHEET + SCHEMES, 1)
