"""The programs that are tested, and calls of them.

A program is the built one where it is current, and else the unproved one, which the launcher compiles once. The launcher itself is passed by, so that
nothing but the program's own answer is compared (`test_launcher.py` tests the launcher).
"""
import fcntl
import os
import subprocess
import sys
from typing import NamedTuple

from helpers.paths import TOP



class NoProgram(Exception):
    """Why there is no program to test."""


class Answer(NamedTuple):
    """The status of a call, and what it wrote on both streams."""

    status: int
    out: bytes
    err: bytes

    def text(self):
        return self.status, self.out.decode("utf-8", "replace"), self.err.decode("utf-8", "replace")


def program_path(crate, is_proved=False):
    """Where the program of a crate is, compiled first if it isn't built. With `is_proved` only the built one counts."""
    built = f"{TOP}/crates/{crate}/out/{crate}"
    if is_proved:
        if not os.access(built, os.X_OK):
            raise NoProgram(f"{built} isn't there")
        return built
    if subprocess.run(["sh", f"{TOP}/launch/built.sh", TOP, crate, "is_current"], check=False).returncode == 0:
        return built
    os.makedirs(os.path.dirname(built), exist_ok=True)
    with open(f"{os.path.dirname(built)}/tests.lock", "w", encoding="utf-8") as lock:
        fcntl.flock(lock, fcntl.LOCK_EX)
        made = subprocess.run([sys.executable, "-I", f"{TOP}/launch/unproved.py", TOP, crate], capture_output=True, text=True, check=False)
    if made.returncode:
        raise NoProgram(made.stderr)
    return made.stdout.rstrip("\n")


def put(folder, files):
    """Writes files, a name and a text each, into a folder."""
    for name, text in files.items():
        with open(os.path.join(folder, name), "wb") as it:
            it.write(text.encode() if isinstance(text, str) else text)


class Program:
    """A program, called in a folder."""

    def __init__(self, path, folder):
        self.path, self.folder = path, folder

    def __call__(self, *words, files=None, folder=None, timeout=900, **how):
        """Calls the program on these words, with these files (a name and a text each) in its folder."""
        folder = folder or self.folder
        put(folder, files or {})
        how = {"stdin": subprocess.DEVNULL, "stdout": subprocess.PIPE, "stderr": subprocess.PIPE, **how}
        done = subprocess.run([self.path, *words], cwd=folder, timeout=timeout, check=False, **how)
        return Answer(done.returncode, done.stdout, done.stderr)
