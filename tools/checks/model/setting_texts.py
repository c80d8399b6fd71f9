"""Trees of settings written as text, in many spellings; only forms that both versions of TOML have."""

from .random_setting_faults import FAULTS
from .random_settings import Array, Table, random_settings

BARE = set("ABCDEFGHIJKLMNOPQRSTUVWXYZabcdefghijklmnopqrstuvwxyz0123456789_-")
BYTE_ORDER_MARK = b"\xef\xbb\xbf"
BROKEN_LINES = ("= 5", "[", "]", "a =", 'a = "', "a b = 1", "[a", "a = 1 2", "a = 05", "a = 1__0", "[x]\n[x]",
                "a = 1\na = 2", "a = {", "a = [1", "a = tru", "a = +-1", "\0", "a = '", "[[a]", "a.b = 1\na = 2")


def key_text(chance, key):
    """A spelling of a key."""
    if key and set(key) <= BARE and chance.random() < 0.9:
        return key
    return f'"{key}"' if chance.random() < 0.7 else f"'{key}'"


def inline(chance, value):
    """A value in one piece, on one line."""
    if isinstance(value, Table):
        return "{" + ", ".join(f"{key_text(chance, key)} = {inline(chance, member)}" for key, member in value) + "}"
    if isinstance(value, Array):
        return "[" + ", ".join(inline(chance, member) for member in value) + "]"
    return value


def dotted(chance, path, table):
    """The lines of a table as dotted keys."""
    lines = []
    for key, value in table:
        name = f"{path}.{key_text(chance, key)}"
        if isinstance(value, Table) and value and chance.random() < 0.7:
            lines += dotted(chance, name, value)
        else:
            lines.append(f"{name} = {inline(chance, value)}")
    return lines


def is_array_of_tables(value):
    """Whether a value is an array of tables alone."""
    return isinstance(value, Array) and bool(value) and all(isinstance(member, Table) for member in value)


def table_lines(chance, path, table):
    """The lines of a table: plain keys first, then sections of their own."""
    first, later = [], []
    for key, value in table:
        name, style = key_text(chance, key), chance.random()
        whole = ".".join(path + [name])
        if isinstance(value, Table) and style < 0.75:
            later += [f"[{whole}]"] + table_lines(chance, path + [name], value)
        elif isinstance(value, Table) and value and style < 0.9:
            first += dotted(chance, name, value)
        elif is_array_of_tables(value) and style < 0.8:
            for member in value:
                later += [f"[[{whole}]]"] + table_lines(chance, path + [name], member)
        else:
            first.append(f"{name} = {inline(chance, value)}")
    return first + later


def decorated(chance, lines):
    """The lines with comments, blanks and empty lines between."""
    out = []
    for line in lines:
        if chance.random() < 0.05:
            out.append(chance.choice(("", "# a comment", "\t", "#é", "  # [x]")))
        out.append(line + (chance.choice(("", " ", " # say", "\t#")) if chance.random() < 0.1 else ""))
    return out


def settings_text(chance, table):
    """The bytes of a tree."""
    end = chance.choice(("\n", "\n", "\n", "\r\n"))
    text = end.join(decorated(chance, table_lines(chance, [], table)))
    text += end if chance.random() < 0.8 else ""
    return (BYTE_ORDER_MARK if chance.random() < 0.02 else b"") + text.encode()


def broken_text(chance, text):
    """Bytes of settings with a line that is no syntax."""
    lines = text.split(b"\n")
    lines.insert(chance.randint(0, len(lines)), chance.choice(BROKEN_LINES).encode())
    return b"\n".join(lines) + chance.choice((b"", b"", b"\xff", b"\n#\xc3"))


def any_settings_text(chance, draw_stamp, period=None):
    """The bytes of settings, at times with faults, at times broken."""
    tree = random_settings(chance, draw_stamp, period)
    for _ in range(chance.choice((0, 0, 0, 1, 1, 2, 4))):
        chance.choice(FAULTS)(chance, tree, draw_stamp)
    text = settings_text(chance, tree)
    return broken_text(chance, text) if chance.random() < 0.05 else text
