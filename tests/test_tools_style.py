"""The users' tools are typed and clean: `mypy --strict`, pylint, and no line over 120. A tool that isn't installed skips its test."""
import os
import re
import shutil
import subprocess
import sys

import pytest

from helpers.cases import same
from helpers.paths import TOP

PYTHONS = [sys.executable, "/usr/bin/python3"]


def python_with(module):
    """A Python that has this module, as Debian's packages install it for the system's own."""
    for python in PYTHONS:
        if os.access(python, os.X_OK) and subprocess.run([python, "-c", f"import {module}"], capture_output=True, check=False).returncode == 0:
            return python
    return pytest.skip(f"there is no {module} (on Debian: apt-get install {module})")


def run(python, *words, **environment):
    done = subprocess.run([python, "-m", *words], cwd=TOP, env={**os.environ, **environment}, capture_output=True, text=True, check=False)
    return done.returncode, done.stdout + done.stderr


@pytest.mark.parametrize("words", ["-p y86lab", "tools/__main__.py", "tools/y86-recheck"])
def test_types(words, folder):
    """Of the oldest Python that the tools take."""
    status, said = run(python_with("mypy"), "mypy", "--strict", "--python-version", "3.9", "--cache-dir", folder, *words.split(), MYPYPATH="tools")
    assert status == 0, said


def test_linter():
    status, said = run(python_with("pylint"), "pylint", "--persistent=n", "--score=n", "tools/y86lab", "tools/__main__.py", "tools/y86-recheck", PYTHONPATH="tools")
    assert status == 0, said


def files():
    for folder, folders, names in os.walk(f"{TOP}/tools"):
        folders[:] = [name for name in folders if name not in ("editors", "__pycache__")]
        for name in names:
            if name.endswith(".py") or name == "y86-recheck":
                yield os.path.join(folder, name)


def test_lines():
    """No line is over 120, and each function says its types (which mypy asks too, where it is there)."""
    long, untyped = [], []
    for path in files():
        with open(path, encoding="utf-8") as file:
            text = file.read()
        place = os.path.relpath(path, TOP)
        long += [f"{place}:{number}" for number, line in enumerate(text.split("\n"), 1) if len(line) > 120]
        untyped += [f"{place}: {name}" for name in re.findall(r"^ *def (\w+)\([^)]*\):", text, re.M)]
    same((long, untyped), ([], []))


def test_no_global_and_no_surgery():
    """No module changes a global of its own, the list of folders for modules, or ends the process; the tests aren't imported."""
    wrong = []
    for path in files():
        if os.path.basename(path) in ("__main__.py", "y86-recheck"):
            continue
        with open(path, encoding="utf-8") as file:
            wrong += [f"{os.path.relpath(path, TOP)}: {line}" for line in file if re.search(r"^\s*global |sys\.path|sys\.exit|import (?:helpers|tests)", line)]
    same(wrong, [])


def test_shell_entry():
    if not shutil.which("dash"):
        pytest.skip("there is no dash")
    done = subprocess.run(["dash", "-n", f"{TOP}/y86-lab"], capture_output=True, text=True, check=False)
    same((done.returncode, done.stderr), (0, ""))
