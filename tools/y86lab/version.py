"""What this workbench is: its commit, the toolchain, and whether its programs are proved."""
from __future__ import annotations

import os
import subprocess
from typing import Optional

from .calls import SHELL, Programs

CRATES = {"y86": "y86", "y86-stages": "y86_stages", "y86-tell": "y86_tell"}
# Written by `./prove --to` into the folder that it hands out.
NOTE = "VERSION"


def line_of(words: list[str], folder: str) -> str:
    """The first line that a command prints; empty if it fails."""
    try:
        run = subprocess.run(words, cwd=folder, stdin=subprocess.DEVNULL, capture_output=True, text=True, check=False)
    except OSError:
        return ""
    return run.stdout.strip().partition("\n")[0] if run.returncode == 0 else ""


def first_line(path: str) -> str:
    try:
        with open(path, encoding="utf-8") as file:
            return file.readline().strip()
    except OSError:
        return ""


def commit(top: str) -> str:
    name = line_of(["git", "rev-parse", "--short=12", "HEAD"], top)
    if not name:
        return "sources of no commit"
    has_changed = line_of(["git", "status", "--porcelain", "--untracked-files=no"], top)
    return f"commit {name}" + (", with changes that are in no commit" if has_changed else "")


def state_of(programs: Programs, name: str) -> Optional[str]:
    """Whether a program of the repository is proved and built; None if it isn't there."""
    crate, built = CRATES[name], os.path.join(programs.top, "launch", "built.sh")
    if not programs.is_there(name):
        return None
    if subprocess.run([SHELL, built, programs.top, crate, "is_current"], check=False).returncode:
        return "not proved: the unproved program answers, after a line that says so"
    toolchain = first_line(os.path.join(programs.top, "crates", crate, "out", "toolchain"))
    return f"proved and built{', by the toolchain ' + toolchain if toolchain else ''}"


def version(programs: Programs) -> str:
    """What `--version` prints."""
    note = os.path.join(programs.top, NOTE)
    if os.path.exists(note):
        with open(note, encoding="utf-8") as file:
            return file.read().rstrip("\n")
    lines = [f"The Y86-64 workbench, {commit(programs.top)}"]
    for name in CRATES:
        state = state_of(programs, name)
        if state:
            lines.append(f"{name}: {state}")
    return "\n".join(lines)
