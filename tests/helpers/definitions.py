"""The index of crates and definitions, docs/INDEX.md, from the first comments in the sources. `python3 tests/helpers/definitions.py` writes it."""
import os
import re
import sys

if __name__ == "__main__":
    sys.path.insert(0, os.path.dirname(os.path.dirname(os.path.realpath(__file__))))

from helpers.paths import TOP, needs

PAGE = f"{TOP}/docs/INDEX.md"
HEAD = """# Where is it defined?

This page lists each crate, and each public definition that has a comment, with the first sentence of that comment.
`python3 tests/helpers/definitions.py` writes this page from the sources, and a test compares it.
The words that need more than a sentence are in [GLOSSARY.md](GLOSSARY.md).

"""
CRATES = """## Crates

A crate is a folder `crates/NAME`.
The last column has what the crate needs directly; what one of these needs in turn is left out.

| crate | what it is for | needs |
|---|---|---|
"""
DEFINITIONS = """
## Definitions

`crate/File` is `crates/crate/specs/File.antt`.

| name | what it says | file |
|---|---|---|
"""
DEFINITION = re.compile(r" *(?:abbrev pub|unfoldable pub|pub record|pub data) (\w+)")


def sentence(text):
    """The first sentence of a comment."""
    found = re.match(r"(.*?[.!?])(?:\s|$)", text)
    return (found[1] if found else text).rstrip(".").replace("|", "\\|")


def needed():
    """For each crate of crates.txt the crates that it needs, without those that another of them needs."""
    rows = needs()
    everything = {}

    def under(name):
        if name not in everything:
            everything[name] = set(rows.get(name, ())).union(*[under(one) for one in rows.get(name, ())])
        return everything[name]

    return {name: [one for one in below if one in rows and not any(one in under(other) for other in below)] for name, below in rows.items()}


def head_of(crate):
    """The first paragraph of the comment of a crate."""
    folder = f"{TOP}/crates/{crate}/src"
    name = "lib.rt" if os.path.exists(f"{folder}/lib.rt") else "main.rt"
    with open(f"{folder}/{name}", encoding="utf-8") as lines:
        words = []
        for line in lines:
            if not line.startswith("//!") or not line[3:].strip():
                break
            words.append(line[3:].strip())
    return " ".join(words)


def comment_above(lines, place):
    """The comment that ends just above a line."""
    words = []
    while place > 0 and re.match(r" *-- (?!-)", lines[place - 1]):
        place -= 1
        words.insert(0, lines[place].strip()[2:].strip())
    return " ".join(words)


def definitions():
    """Each definition with a comment of its own: its name, its sentence, its file."""
    for crate in sorted(os.listdir(f"{TOP}/crates")):
        folder = f"{TOP}/crates/{crate}/specs"
        for file in sorted(name for name in os.listdir(folder) if name.endswith(".antt")) if os.path.isdir(folder) else ():
            with open(f"{folder}/{file}", encoding="utf-8") as it:
                lines = it.read().split("\n")
            for place, line in enumerate(lines):
                found = DEFINITION.match(line)
                comment = comment_above(lines, place) if found else ""
                if found and comment:
                    yield found[1], sentence(comment), f"{crate}/{file.removesuffix('.antt')}"


def page():
    """The page."""
    crates = [f"| `{name}` | {sentence(head_of(name))} | {', '.join(f'`{one}`' for one in below)} |\n" for name, below in needed().items()]
    names = [f"| `{name}` | {said} | `{file}` |\n" for name, said, file in sorted(definitions(), key=lambda row: (row[0].lower(), row))]
    return HEAD + CRATES + "".join(crates) + DEFINITIONS + "".join(names)


if __name__ == "__main__":
    with open(PAGE, "w", encoding="utf-8") as out:
        out.write(page())
