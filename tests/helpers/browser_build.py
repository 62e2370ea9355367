"""The programs as WebAssembly, and the workbench that is made of them, for the tests of the browser."""
import base64
import fcntl
import json
import os
import shutil
import subprocess
import sys
import tempfile
from typing import NamedTuple

import pytest

import workbench as launcher
import unproved
from handout import solutions
from helpers.paths import TOP
from helpers.programs import Answer

sys.path.insert(0, f"{TOP}/web")


class Call(NamedTuple):
    """A call of a program: its crate, its words, its files (a name and bytes each), the most memory and the most output, 0 for no limit."""

    crate: str
    words: list
    files: dict
    limit: int = 0
    room: int = 0


def kit():
    """The toolchain; skips where there is none."""
    if not shutil.which("rt"):
        pytest.skip("the toolchain isn't here")
    return unproved.Kit()


def is_proved():
    """Whether the proved programs were compiled for the browser from the sources as they are."""
    tools = kit()
    return all(os.path.isfile(launcher.path_of(TOP, it, tools, True)) for it in launcher.crates_there(TOP))


def lock():
    """Holds the others back while something is made."""
    os.makedirs(f"{TOP}/crates/y86/out", exist_ok=True)
    held = open(f"{TOP}/crates/y86/out/browser.lock", "w", encoding="utf-8")
    fcntl.flock(held, fcntl.LOCK_EX)
    return held


def programs():
    """The programs of the page: the proved ones where they are there, else the unproved ones, which are made once."""
    proved = is_proved()
    with lock():
        return launcher.all_of(TOP, proved)


def page():
    """Where the workbench is, made anew where its sources have changed since."""
    from build import written

    made = programs()
    file = f"{TOP}/crates/y86/out/y86.html"
    with lock():
        sources = [f"{at}/{name}" for folder in ("web", "docs", "examples") for at, _, names in os.walk(f"{TOP}/{folder}") for name in names]
        newest = max(os.stat(it).st_mtime for it in [*sources, *[it.file for it in made]])
        if not os.path.isfile(file) or os.stat(file).st_mtime <= newest:
            about = launcher.about(TOP, made, all(it.verdict for it in made))
            written(TOP, {it.name: it.file for it in made}, about, file)
    return file


def page_without_solutions(file):
    """Makes the workbench of a folder that is handed out without solutions."""
    from build import written

    made = programs()
    about = launcher.about(TOP, made, all(it.verdict for it in made))
    written(TOP, {it.name: it.file for it in made}, about, file, frozenset(solutions(TOP)))


def node():
    """Where Node is; skips where it isn't."""
    found = shutil.which("node") or shutil.which("nodejs")
    if not found:
        pytest.skip("Node isn't here, so the WebAssembly wasn't run")
    return found


def worker_answers(calls):
    """Makes calls in the page's worker, which Node runs, one after another. Returns what it posts; files are texts."""
    files = {it.crate.replace("_", "-"): it.file for it in programs()}
    asked = [{"program": it.crate.replace("_", "-"), "words": it.words, "files": it.files} for it in calls]
    ran = subprocess.run([node(), f"{TOP}/tests/browser/worker.mjs"], input=json.dumps({"programs": files, "calls": asked}), capture_output=True, text=True, check=False)
    assert ran.returncode == 0, ran.stderr
    return [json.loads(line) for line in ran.stdout.splitlines()]


def answers(calls):
    """Makes all calls in Node. Returns an answer for each, and the fault where it broke off."""
    files = {it.crate: it.file for it in programs()}
    asked = [(it.crate, it.words, {name: base64.b64encode(text).decode() for name, text in it.files.items()}, it.limit, it.room) for it in calls]
    with tempfile.TemporaryDirectory() as room:
        with open(f"{room}/calls.json", "w", encoding="utf-8") as it:
            json.dump({"programs": files, "calls": asked}, it)
        ran = subprocess.run([node(), f"{TOP}/tests/browser/calls.mjs", it.name], capture_output=True, text=True, check=False)
    assert ran.returncode == 0, ran.stderr
    found = [json.loads(line) for line in ran.stdout.splitlines()]
    assert len(found) == len(calls)
    return [(Answer(it["status"], base64.b64decode(it["out"]), base64.b64decode(it["err"])), it["fault"]) for it in found]
