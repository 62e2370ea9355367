"""Statements of lemmas that stand more than once in the crates. `python3 tests/helpers/statements.py` lists them.

A lemma inside another one, or inside a module, counts if its statement names nothing but what it binds, and what the file defines or takes from elsewhere.
"""
import glob
import os
import re
import sys
from collections import defaultdict
from types import MappingProxyType
from typing import NamedTuple

if __name__ == "__main__":
    sys.path.insert(0, os.path.dirname(os.path.dirname(os.path.realpath(__file__))))

from helpers.paths import TOP

HEAD = re.compile(r"( *)(?:pub )?(?!abbrev |module |record |data |use |mod )([^\s(){}.,:]+) : (.*)")
PREDICATE = re.compile(r"(?:pub |abbrev |unfoldable |record |data )*(?:record|data|abbrev|unfoldable) (?:pub )?([^\s(){}.,:]+) ([({].*: |: .* → )Type 0(?: where)?")
DEFINED = re.compile(r"(?:pub |abbrev |unfoldable |record |data )*([^\s(){}.,:]+) [({:]")
WORD = re.compile(r"""\"[^"]*\"|[(){},]|[^\s(){},]+""")
RELATIONS = {"≡", "≢", "≤", "<", "⊥", "IsTrue", "IsByte", "∈"}
ENDS = {"≡", "→", "(", ")", "×", ","}
WORDS = {"Type", "if", "then", "else", "let", "in", "λ"}
LOOSE = {"→", "≡", "≤", "<", "×", "⊎", ":", ",", "λ", "if"}


class Place(NamedTuple):
    """A lemma, where it stands, and its statement as it is written."""

    file: str
    line: int
    name: str
    statement: str


def imported(text, library=r"(?!std\.)"):
    """What the names mean that a file takes from the repository's own crates and not from the kit's `std`: the path of each."""
    found = {}
    for path, tail in re.findall(rf"^(?:pub )?use Rattle\.({library}[^\s{{]*?)(?:\.\{{(.*)\}}| as \S+)?$", text, flags=re.M):
        for one in filter(None, tail.split(", ")):
            name, _, other = one.partition(" as ")
            found[other or name] = f"{path}.{name}"
    return found


def module(path):
    """The path of a file by which others take names from it."""
    return path.removeprefix("crates/").removesuffix(".antt").replace("/", ".")


def own(path, text):
    """What the names mean that a file defines itself."""
    return {found[1]: f"{module(path)}.{found[1]}" for found in map(DEFINED.match, text.split("\n")) if found}


def predicates(path, text):
    """The predicates that a file defines, each by its path."""
    return {f"{module(path)}.{found[1]}" for found in map(PREDICATE.fullmatch, text.split("\n")) if found}


def heads(text):
    """The lemmas of a file: the line, the name and the statement of each, and whether it stands inside another one or a module."""
    lines = text.split("\n")
    for number, line in enumerate(lines, 1):
        found = HEAD.fullmatch(line)
        if not found:
            continue
        parts = [found[3]]
        for more in lines[number:]:
            if not more.startswith(found[1] + "    "):
                break
            parts.append(more.strip())
        behind = [more for more in lines[number + len(parts) - 1 :][:2] if more.strip().partition(" ")[0] != "unfolding"]
        if not found[1] or (behind and re.match(f"{found[1]}{re.escape(found[2])} ", behind[0])):
            yield number, found[2], " ".join(parts), bool(found[1])


class Variables:
    """The variables of a statement, each by a mark of its own."""

    def __init__(self, meant):
        self.meant = meant
        self.marks = {}
        self.count = 0

    def bind(self, name):
        self.marks[name] = f"${self.count}"
        self.count += 1
        return self.marks[name]

    def read(self, word):
        head, dot, field = word.partition(".")
        return (self.marks.get(head) or self.meant.get(head, head)) + dot + field


def bound(words, place):
    """The names that a parenthesis at a place binds, and where the colon behind them is."""
    names = []
    while place + 1 < len(words) and words[place + 1] not in "(){},:":
        place += 1
        names.append(words[place])
    return (names, place + 1) if names and words[place + 1 : place + 2] == [":"] else ([], place)


def marked(statement, meant):
    """The words of a statement: marks for its variables, the paths of other names, braces as parentheses. A binder's variables are one list."""
    words = WORD.findall(statement)
    variables = Variables(meant)
    out = []
    place = 0
    while place < len(words):
        word = words[place]
        names, colon = bound(words, place) if word in "({" else ([], place)
        if names:
            out += [[variables.bind(name) for name in names], ":"]
            place = colon
        elif word == "λ":
            out.append(word)
            while not out[-1] == ".":
                place += 1
                name = words[place].rstrip(".")
                out += [variables.bind(name)] if name not in "(){}" else []
                out += ["."] if words[place].endswith(".") else []
        else:
            out.append({"{": "(", "}": ")"}.get(word) or variables.read(word))
        place += 1
    return out


def spread(words):
    """Each binder of several variables as so many binders."""
    out = []
    place = 0
    while place < len(words):
        if isinstance(words[place], str):
            out.append(words[place])
            place += 1
            continue
        depth = 1
        end = place + 2
        while depth:
            depth += {"(": 1, ")": -1}.get(words[end], 0) if isinstance(words[end], str) else 1
            end += 1
        kind = spread(words[place + 2 : end - 1])
        for name in words[place]:
            out += ["(", name, ":", *kind, ")"]
        place = end
    return out


def bare(words):
    """The words without the parentheses around a side of an equation that need none, and without the names of hypotheses that nothing uses."""
    out = list(words)
    place = 0
    while place < len(out):
        if out[place] == "(":
            end = closing(out, place)
            inner = out[place + 1 : end]
            beside = (place and out[place - 1] == "≡") or (end + 1 < len(out) and out[end + 1] == "≡")
            after = end + 1 == len(out) or out[end + 1] in ENDS
            before = place == 0 or out[place - 1] in ENDS
            if inner[1:2] == [":"] and inner[0] not in out[end:] and out[end + 1 : end + 2] == ["→"]:
                out[place : end + 1] = inner[2:]
                continue
            if beside and after and before and not LOOSE & set(top_words(inner)):
                out[place : end + 1] = inner
                continue
        place += 1
    return out


def closing(words, place):
    """Where the parenthesis at a place closes."""
    depth = 0
    for end in range(place, len(words)):
        depth += {"(": 1, ")": -1}.get(words[end], 0)
        if depth == 0:
            return end
    raise ValueError("an open parenthesis in " + " ".join(words))


def top_words(words):
    """The words outside parentheses."""
    depth = 0
    for word in words:
        depth -= word == ")"
        if depth == 0:
            yield word
        depth += word == "("


def form(statement, meant):
    """A statement up to the names of its variables, blanks, and parentheses that aren't needed."""
    text = " ".join(bare(spread(marked(statement, meant))))
    numbers = {}
    return re.sub(r"\$\d+", lambda found: f"${numbers.setdefault(found[0], len(numbers))}", text)


def is_lemma(statement, meant=MappingProxyType({}), known=frozenset()):
    """Whether the statement says something, so that it isn't a function on data: it ends in a relation, or in one of the known predicates."""
    words = WORD.findall(statement.split(" → ")[-1])
    return bool(RELATIONS & set(words)) or (bool(words) and meant.get(words[0]) in known)


def is_closed(statement, meant):
    """Whether the statement names nothing of the lemma or module around it."""
    words = [word for word in spread(marked(statement, meant)) if re.match(r"[^\W\d]", word)]
    return all(word.partition(".")[0] in WORDS or word in meant.values() or word.partition(".")[0] in meant for word in words)


def files():
    """The files of the crates' specs and proofs, and their texts."""
    for path in sorted(it for part in ("specs", "proofs") for it in glob.glob(f"crates/*/{part}/**/*.antt", root_dir=TOP, recursive=True)):
        with open(f"{TOP}/{path}", encoding="utf-8") as file:
            yield path, file.read()


def places():
    """All lemmas of the crates by their statement."""
    found = defaultdict(list)
    texts = dict(files())
    known = {one for path, text in texts.items() for one in predicates(path, text)}
    for path, text in texts.items():
        meant = imported(text) | own(path, text)
        taken = meant | imported(text, "std")
        for line, name, statement, inside in heads(text):
            if is_lemma(statement, meant, known) and not (inside and not is_closed(statement, taken)):
                found[form(statement, meant)].append(Place(path, line, name, statement))
    return found


def copies():
    """The statements that stand twice or more."""
    return {statement: where for statement, where in places().items() if len(where) > 1}


def listed():
    again = sorted(copies().values(), key=lambda where: (-len(where), where[0].statement))
    for where in again:
        print(f"{len(where)} {where[0].statement}")
        for place in where:
            print(f"    {place.file}:{place.line} {place.name}")
    print(f"{len(again)} statements, {sum(len(where) - 1 for where in again)} copies")


if __name__ == "__main__":
    listed()
