"""Which words of a file of definitions are other names of a definition: what an import renames."""
import re

VARIANTS = 'TheVariants'
TEXTS = re.compile(r'"(?:[^"\\]|\\.)*"|--[^\n]*')


def _subject(name):
    """What a module is about whose words are named behind another word and a point."""
    parts = name.module.split('.')
    if parts[-1] == VARIANTS:
        return f'a value of `{parts[-2]}`'
    if parts[0] == 'declared':
        return f'what the code of {name.crate} declares'
    return f'a definition of {name.crate}'


def _means(local, name, text):
    """What a word of a file means that is another name in the texts, or nothing."""
    word = rf"(?<![\w.'-]){re.escape(local)}"
    if name.word and name.word != local and not local.startswith('◌') and re.search(rf"{word}(?![\w'-])", text):
        return f'`{local}` is `{name.word}` of {name.crate}'
    if not name.word and local != name.module.split('.')[-1] and re.search(rf'{word}\.', text):
        return f'`{local}.` precedes {_subject(name)}'
    return ''


def renamed(file, definitions):
    """A sentence on the words in these definitions of a file that are other names, or nothing."""
    text = TEXTS.sub('', '\n'.join(one.text for one in definitions))
    said = sorted(filter(None, (_means(local, name, text) for local, name in file.imports.items())))
    return f'Here {", ".join(said)}.' if said else ''
