"""Which definitions the contracts of a crate's public functions, traits and types cite."""
import re

import spec_files

EXPORT = re.compile(r'^pub use (?:[\w:]*?)(?:\{([^}]*)\}|(\w+));', re.M)
OPEN_MODULE = re.compile(r'^pub mod (\w+);', re.M)
OWNER = re.compile(r'^(?:pub )?(?:impl|trait)\b')
TRAIT = re.compile(r'^pub trait (\w+)')
IMPL = re.compile(r'^impl(?:<.*?>)? (?:.* for )?(\w+)')
FUNCTION = re.compile(r'^(    )?(pub )?(?:const )?(?:ghost )?fn (\w+)')
TYPE = re.compile(r'^pub (?:struct|enum) (\w+)')
MEMBER = re.compile(r'^    ghost (?!use )')
WORD = re.compile(r"[A-Za-z_][\w'-]*")
COMMENT = re.compile(r'//[^\n]*')


def exported(folder):
    """The names that a crate gives to others, and its modules that are open."""
    text = (folder / 'lib.rt').read_text(encoding='utf-8') if (folder / 'lib.rt').exists() else ''
    names = set()
    for several, one in EXPORT.findall(text):
        names.update(word.split(' as ')[-1].split('::')[-1].strip() for word in (several or one).split(','))
    return names, set(OPEN_MODULE.findall(text))


def _head(lines, start):
    """The lines of an item from one on, up to its body or its end."""
    for end in range(start, len(lines)):
        line = lines[end].rstrip()
        if end > start and re.match(r'^ {0,4}[{}]', line):
            return lines[start:end]
        if end >= start and line.endswith((';', '{}')) and not line.lstrip().startswith(('ensures', 'requires')):
            return lines[start:end + 1]
        if end == start and line.endswith('{') and TYPE.match(line):
            return lines[start:next(at for at in range(start, len(lines)) if lines[at].startswith('}'))]
    return lines[start:]


def public_texts(path, names, is_open):
    """The contracts in a file that another crate can see."""
    lines = path.read_text(encoding='utf-8').split('\n')
    owner, in_trait = '', False
    for number, line in enumerate(lines):
        if OWNER.match(line):
            found = TRAIT.match(line) or IMPL.match(line)
            owner, in_trait = found[1] if found else '', line.startswith('pub trait') or ' for ' in line
        elif line.startswith('}'):
            owner = ''
        function, kind = FUNCTION.match(line), TYPE.match(line)
        is_seen = is_open or owner in names
        if function and function[1] and is_seen and (function[2] or in_trait):
            yield '\n'.join(_head(lines, number))
        elif function and not function[1] and function[2] and (is_open or function[3] in names):
            yield '\n'.join(_head(lines, number))
        elif kind and (is_open or kind[1] in names) or owner and is_seen and MEMBER.match(line):
            yield '\n'.join(_head(lines, number))


def cited_by(crate, files):
    """The definitions that the crate's public contracts cite."""
    folder = spec_files.TOP / 'crates' / crate / 'src'
    names, modules = exported(folder)
    found = set()
    for path in sorted(folder.rglob('*.rt')):
        imports = spec_files.imports_of(path.read_text(encoding='utf-8'))
        is_open = path.name == 'lib.rt' or path.relative_to(folder).with_suffix('').parts[0] in modules
        for text in public_texts(path, names, is_open):
            for word in WORD.findall(COMMENT.sub('', text)):
                name = imports.get(word)
                file = files.get((name.crate, name.module)) if name and name.word else None
                found.add(file.resolve(name.word) if file else None)
    return found - {None}
