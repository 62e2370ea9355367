"""The definitions that the claim of a `yes` of `check pipe` stands on, for docs/TRUST.md.

It begins with what the clause `check_pipe` of `law_of_accepted_files` cites, and follows each name in a definition to where that is defined. A name that is
only a variable may be followed too, so the list can have a definition too many, and none too few. Without arguments it writes the numbers of lines into
docs/TRUST.md anew; `python3 tests/helpers/claim.py names` prints the names of the definitions, by file. tests/test_claim.py compares the page.
"""
import functools
import os
import re
import sys

if __name__ == "__main__":
    sys.path.insert(0, os.path.dirname(os.path.dirname(os.path.realpath(__file__))))

from helpers.paths import TOP

LAW = "crates/y86_call_laws/src/laws.rt"
CLAUSE = "check_pipe"
# What a `yes` says beyond the claim, and so need not be read: how the checker decided, what the call printed, and the record of the call, which is a
# premise of the law and a promise of `run`.
BESIDE = {"AcceptsPipe", "Appended", "pipe_yes", "MeetsContract", "Settings"}

BEGINS = re.compile(r"(?:(?:abbrev|unfoldable|record|data)(?: pub)?|(?:  )?pub (?:record|data)) ([^\s:(]+)")
USE = re.compile(r"(?:pub |ghost )*use Rattle\.(\w+)\.specs\.([\w.]+?)(?:\.\{(.*)\}| as (\w+));?$")
NAME = re.compile(r"[^\W\d][\w'-]*(?:\.[^\W\d][\w'-]*)*|◌\S+◌")


PAGE = f"{TOP}/docs/TRUST.md"
# A row of the page's table: files, two numbers, the rest. A file is a link.
ROW = re.compile(r"(\| (?:\[|all ).*? \| )\d+ \| \d+( \|.*)$")
LINK = re.compile(r"\]\(\.\./(crates/\w+/specs/[\w/]+\.antt)\)")
# A row of the page's list of files with Rust types.
TYPES = re.compile(r"- `(\w+/src)`: (.*)$")


def spec(crate, module):
    return f"crates/{crate}/specs/{module.replace('.', '/')}.antt"


@functools.cache
def lines_of(path):
    with open(f"{TOP}/{path}", encoding="utf-8") as it:
        return it.read().split("\n")


@functools.cache
def imports(path):
    """Where a file's names are from: `{name: (path, name)}`, and `{alias: path}`. A Rust type's path is that of its module in src/."""
    names, aliases = {}, {}
    for line in lines_of(path):
        found = USE.match(line)
        if not found or found[1] == "std":
            continue
        crate, module, listed, alias = found.groups()
        if module.startswith("declared."):
            parts = module.split(".")
            where, listed = f"crates/{crate}/src/{'/'.join(parts[1:-1] if parts[-1][0].isupper() else parts[1:])}.rt", listed or ""
            where = where if os.path.exists(f"{TOP}/{where}") else f"crates/{crate}/src/{parts[1]}.rt"
        else:
            where = spec(crate, module)
        if alias:
            aliases[alias] = where
        for name in (listed or "").split(","):
            names[name.strip()] = (where, name.strip())
    return names, aliases


@functools.cache
def definitions(path):
    """The definitions of a file of definitions: `{name: its lines}`, the constructors of a `data` too, without comments and empty lines."""
    found, body = {}, []
    for line in lines_of(path):
        text = line.split("--")[0].rstrip()
        begins = BEGINS.match(text)
        if begins:
            body = found[begins[1]] = []
        elif re.match(r"\w+$|(?:pub |ghost )*(?:use|mod|module|infixl|def) ", text):
            body = []
        if text:
            body.append(text)
        constructor = re.match(r"\s+(\w+) :", text)
        if constructor and re.match(r"\s*(pub )?data ", body[0]):
            found[constructor[1]] = body
    return found


def cited(path, name):
    """What a definition cites: pairs of a path and a name."""
    names, aliases = imports(path)
    here = definitions(path)
    for word in NAME.findall(" ".join(here[name])):
        head, _, rest = word.partition(".")
        if head in BESIDE:
            continue
        if head in aliases:
            yield aliases[head], rest.split(".")[0]
        elif head in names:
            yield names[head]
        elif head in here and head != name:
            yield path, head


def clause():
    """The names that the clause of the law cites."""
    text = "\n".join(lines_of(LAW))
    body = re.search(rf"ensures {CLAUSE} {{(.*?)\}}\n", text, re.DOTALL)[1]
    names, _ = imports(LAW)
    return sorted({names[word] for word in NAME.findall(body) if word in names and word not in BESIDE})


def claim():
    """Each definition that the claim stands on, as `{path: {name, ..}}`; Rust types are under the path of their module."""
    found, todo = {}, clause()
    while todo:
        path, name = todo.pop()
        if name in found.setdefault(path, set()):
            continue
        found[path].add(name)
        if path.endswith(".antt"):
            if name in definitions(path):
                todo += cited(path, name)
            elif name in imports(path)[0]:
                todo.append(imports(path)[0][name])
            else:
                raise ValueError(f"{path} doesn't define {name}")
    return {path: names for path, names in found.items() if names}


def lines(path, names):
    """How many lines a file has, and how many of these are of the definitions."""
    bodies = {id(body): body for name, body in definitions(path).items() if name in names}
    return len(lines_of(path)) - 1, sum(map(len, bodies.values()))


def files():
    """The files of definitions, with the numbers of their lines and of those that are needed."""
    return {path: lines(path, names) for path, names in claim().items() if path.endswith(".antt")}


def listed(page):
    """The files that the page's table lists."""
    return [path for line in page.split("\n") if ROW.match(line) for path in LINK.findall(line)]


def types(page):
    """The files of Rust types that the page lists."""
    return [f"crates/{found[1]}/{name}" for line in page.split("\n") if (found := TYPES.match(line)) for name in re.findall(r"`(\w+\.rt)`", found[2])]


def counted(page):
    """The page with the numbers of its table as they are."""
    counts = files()
    rows = []
    for line in page.split("\n"):
        found = ROW.match(line)
        of = [counts[path] for path in LINK.findall(line) if path in counts] if found else []
        if found and line.startswith("| all "):
            line = f"| all {len(counts)} files | {' | '.join(str(sum(column)) for column in zip(*counts.values()))}{found[2]}"
        elif found:
            line = f"{found[1]}{' | '.join(str(sum(column)) for column in zip(*of))}{found[2]}"
        rows.append(line)
    return "\n".join(rows)


def main(words):
    if words == ["names"]:
        for path, names in sorted(claim().items()):
            print(f"{path}: {' '.join(sorted(names))}")
        return 0
    with open(PAGE, encoding="utf-8") as it:
        page = it.read()
    with open(PAGE, "w", encoding="utf-8") as out:
        out.write(counted(page))
    for path in sorted(set(files()) ^ set(listed(page))):
        print(f"{path} {'is missing in' if path in files() else 'does not belong into'} the table of docs/TRUST.md")
    return int(set(files()) != set(listed(page)))


if __name__ == "__main__":
    sys.exit(main(sys.argv[1:]))
