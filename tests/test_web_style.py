"""The workbench's sources: no long line, no module that Node can't read, and nothing that is imported or exported without use."""
import os
import re
import shutil
import subprocess
import sys

import pytest

from helpers.cases import same
from helpers.paths import TOP

sys.path.insert(0, f"{TOP}/web")
LONGEST = 120
IMPORTS = re.compile(r'^import \{([^}]*)\} from "(\.[\w./-]+)\.mjs";$', re.M)
EXPORTS = re.compile(r"^export (?:const|let|class|function\*?|async function) (\w+)", re.M)


def files(*endings):
    found = []
    for folder in ("web", "tests/browser"):
        for at, _, names in os.walk(f"{TOP}/{folder}"):
            found += [os.path.relpath(f"{at}/{name}", TOP) for name in names if name.endswith(endings)]
    return sorted(found)


def read(path):
    with open(f"{TOP}/{path}", encoding="utf-8") as it:
        return it.read()


def used_in(path):
    """The exports of other modules that a module imports, a path and a name each."""
    found = set()
    for names, other in IMPORTS.findall(read(path)):
        source = os.path.normpath(f"{os.path.dirname(path)}/{other}.mjs")
        found |= {(source, it.split(" as ")[0].strip()) for it in names.split(",") if it.strip()}
    return found


def test_lines():
    long = [f"{path}:{number}" for path in files(".mjs", ".css") for number, line in enumerate(read(path).split("\n"), 1) if len(line) > LONGEST]
    same(long, [])


@pytest.mark.parametrize("path", files(".mjs"))
def test_imports(path):
    """Each name that a module imports is one of the other module's, and is used."""
    text = read(path)
    rest = IMPORTS.sub("", text)
    own = [it.split(" as ")[-1].strip() for names, _ in IMPORTS.findall(text) for it in names.split(",") if it.strip()]
    same([it for it in own if not re.search(rf"\b{it}\b", rest)], [])
    same([(source, name) for source, name in used_in(path) if name not in EXPORTS.findall(read(source))], [])


def test_exports():
    """Each name that a module exports is imported by another one."""
    used = set().union(*(used_in(path) for path in files(".mjs")))
    same([(path, name) for path in files(".mjs") for name in EXPORTS.findall(read(path)) if (path, name) not in used], [])


@pytest.mark.parametrize("top", ["main", "worker", "viewer", "by_hand"])
def test_syntax(top, folder):
    """The script that a module becomes with all that it imports is one that Node reads."""
    import build

    node = shutil.which("node") or shutil.which("nodejs")
    if not node:
        pytest.skip("Node isn't here")
    with open(f"{folder}/{top}.mjs", "w", encoding="utf-8") as it:
        it.write(build.script(top))
    checked = subprocess.run([node, "--check", it.name], capture_output=True, text=True, check=False)
    same((checked.returncode, checked.stderr), (0, ""))
