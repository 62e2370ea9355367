"""Each must-fail edit says which clause of which function refuses it, and that function's contract has the clause."""
import glob
import os
import re

from helpers.cases import cases
from helpers.paths import TOP, needs

SHOWS = re.compile(r"shows: (?:clause `(?P<clause>\w+)`|the clause) of `(?P<function>\w+)`: \S.*")
EDITS = sorted(
    glob.glob("crates/*/must-fail/*.edit", root_dir=TOP) + glob.glob("tests/edits/*/*.edit", root_dir=TOP)
)


def read(path):
    with open(f"{TOP}/{path}", encoding="utf-8") as it:
        return it.read()


def sources(crate):
    return (read(path) for path in sorted(glob.glob(f"crates/{crate}/src/**/*.rt", recursive=True, root_dir=TOP)))


def contracts(crate, function):
    """The clauses of each function of this name in a crate, by their names: that of a clause without a name is None. A method's contract stands
    in the trait, perhaps in a crate that this one needs."""
    traits = (it for name in needs()[crate] for text in sources(name) for it in re.findall(r"^pub trait .*?^\}", text, flags=re.M | re.S))
    for text in (*sources(crate), *traits):
        for head in re.findall(rf"^[^\n/]*\bfn {function}\b(.*?)(?:^ *\{{|\{{\n|;\n)", text, flags=re.M | re.S):
            yield [name or None for name in re.findall(r"^ *ensures (?:(\w+) )?\{", head, flags=re.M)]


def crate_of(path):
    return path.split("/")[-2 if path.startswith("tests/") else 1]


@cases((f"{crate_of(path)}/{os.path.basename(path)}", path) for path in EDITS)
def test_edit(row):
    _, path = row
    crate = crate_of(path)
    shows = SHOWS.fullmatch(read(path).split("\n", 1)[0])
    assert shows, "an edit begins with a line: shows: clause `NAME` of `FUNCTION`: what is right"
    assert any(shows["clause"] in clauses for clauses in contracts(crate, shows["function"]))


def test_there_are_edits():
    assert len(EDITS) > 100


def changes(path):
    """The changes of an edit: a file, the text there, and the new text."""
    file = old = None
    for line in read(path).split("\n"):
        word, _, text = line.partition(": ")
        if word == "file":
            file = f"crates/{crate_of(path)}/{text}"
        elif word == "old":
            old = text
        elif line.startswith("new:"):
            yield file, old, text


@cases((f"{crate_of(path)}/{os.path.basename(path)}", path) for path in EDITS)
def test_edit_applies(row):
    _, path = row
    texts = {}
    for file, old, new in changes(path):
        text = texts.setdefault(file, read(file))
        assert text.count(old) == 1, f"this text stands once in {file}: {old}"
        texts[file] = text.replace(old, new)
