"""Designs of examples/, and designs with other definitions: the one way to make a changed design."""
import re

from helpers.paths import DESIGNS


def example(name):
    """A design as its file has it."""
    with open(f"{DESIGNS}/{name}.hcl", encoding="ascii") as it:
        return it.read()


def without_comments(text):
    return re.sub(r"#[^\n]*", "", text)


def design(name):
    """A design without its comments, so that a search finds definitions alone. Its lines keep their numbers."""
    return without_comments(example(name))


def _definition(text, name):
    return re.search(rf"^[ \t]*(?:word|bool)\s+{name}\s*=\s*(\[.*?\]|[^;\[]*?)\s*;", text, flags=re.M | re.S)


def changed(text, **bodies):
    """The text with other bodies of definitions, in their places. `@` in a body is the old one, or the branches of an old case list."""
    for name, body in bodies.items():
        found = _definition(text, name)
        assert found, f"the design has no definition of {name}"
        old = found[1]
        inner = old[1:-1].strip() if old.startswith("[") and body.startswith("[") else f"1 : {old};" if body.startswith("[") else old
        text = text[: found.start(1)] + body.replace("@", inner) + text[found.end(1) :]
    return text


def without(text, names):
    """The text without its definitions of these names."""
    for name in names:
        while found := _definition(text, name):
            text = text[: found.start()] + text[found.end() :]
    return text


def replaced(text, definitions):
    """The text with whole definitions, as a file has them, behind it in place of those of the same names."""
    names = re.findall(r"^\s*(?:word|bool)\s+(\w+)\s*=", definitions, flags=re.M)
    return f"{without(text, names)}\n{definitions}\n"
