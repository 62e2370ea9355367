"""Finds the programs `y86`, `y86-stages` and `y86-tell`, and calls them.

They lie beside the entry `y86-lab`. The environment's `Y86`, `Y86_STAGES` and `Y86_TELL` name others.
"""
from __future__ import annotations

import glob
import os
import re
import secrets
import shlex
import signal
import subprocess
import sys
import tempfile
from dataclasses import dataclass, field
from typing import Mapping, Optional, Sequence

from .errors import NO_PROGRAM, UNREADABLE, LabError

# The launcher's own lines begin with this; none of a program does.
LAUNCHER = "y86: "
# (the PATH may have nothing but Python)
SHELL = "/bin/sh"
# The longest time that a check may take, in seconds.
LONG = 600


@dataclass(frozen=True)
class Answer:
    """What a call printed, and its exit status: None if it was ended for time."""

    status: Optional[int]
    out: str
    err: str


@dataclass(frozen=True)
class Limits:
    """How long a call may take, and how much memory it may have.

    With a limit of memory the seconds are processor time, and ten times as many are the whole time.
    """

    seconds: float = 120
    megabytes: Optional[int] = None

    def in_shell(self) -> str:
        """What a shell does first, so that its commands keep to the memory and the processor time."""
        if self.megabytes is None:
            return ":"
        return f"ulimit -c 0; ulimit -v {self.megabytes << 10}; ulimit -t {int(self.seconds)}"

    def command(self) -> list[str]:
        """The words that come before a command to limit its memory and processor time."""
        return [] if self.megabytes is None else [SHELL, "-c", f'{self.in_shell()}; exec "$@"', "sh"]

    def timeout(self) -> float:
        return self.seconds if self.megabytes is None else 10 * self.seconds


@dataclass
class Programs:
    """The programs of one folder, and how to call them."""

    top: str
    environment: Mapping[str, str]
    resolved: dict[str, str] = field(default_factory=dict)

    @property
    def examples(self) -> str:
        return os.path.join(self.top, "examples")

    def named(self, program: str) -> str:
        """The path of a program: what the environment names, or else the file beside the entry."""
        variable = program.upper().replace("-", "_")
        return os.path.abspath(self.environment.get(variable) or os.path.join(self.top, program))

    def is_there(self, program: str) -> bool:
        return os.path.exists(self.named(program))

    def path(self, program: str) -> str:
        """The program that answers, past the launcher, so that many calls don't each look at the sources."""
        if program not in self.resolved:
            self.resolved[program] = past_launcher(self.named(program), program)
        return self.resolved[program]

    def run(self, *words: str, program: str = "y86", limits: Limits = Limits()) -> Answer:
        """Calls a program with these words."""
        path = self.path(program)
        try:
            done = subprocess.run(
                [*limits.command(), path, *words],
                stdin=subprocess.DEVNULL,
                capture_output=True,
                timeout=max(limits.timeout(), 0.01),
                check=False,
            )
        except subprocess.TimeoutExpired:
            return Answer(None, "", "")
        except OSError as fault:
            variable = program.upper().replace("-", "_")
            told = f"{path}: {fault.strerror}; {variable} in the environment may name another program"
            raise LabError(told, NO_PROGRAM) from fault
        ended_for_time = done.returncode in (-signal.SIGXCPU, -signal.SIGKILL)
        lines = done.stderr.decode("utf-8", "replace").splitlines(True)
        sys.stderr.write("".join(line for line in lines if line.startswith(LAUNCHER)))
        return Answer(
            None if ended_for_time else done.returncode,
            done.stdout.decode("utf-8", "replace"),
            "".join(line for line in lines if not line.startswith(LAUNCHER)),
        )

    def run_all(self, calls: Sequence[Sequence[str]], limits: Limits, most_failures: int) -> list[Answer]:
        """Calls y86 with each of these lists of words, one after another in one shell: a call takes half the time.

        It ends early after so many calls whose status isn't 0, or after the whole time of one call.
        An answer has standard output alone.
        """
        mark = secrets.token_hex(16)
        lines = [limits.in_shell(), f"left={most_failures}"]
        for words in calls:
            call = " ".join(map(shlex.quote, (self.path("y86"), *words)))
            lines.append(f'{call} </dev/null 2>/dev/null; status=$?; echo "{mark} $status"')
            lines.append("[ $status = 0 ] || left=$((left - 1)); [ $left -gt 0 ] || exit")
        is_over, out = in_a_shell("\n".join(lines), limits.timeout())
        parts = re.split(rf"{mark} (\d+)\n", out)
        texts, numbers = parts[0::2], [int(text) for text in parts[1::2]]
        # (a shell says 128 more than the number of the signal that ended a command)
        ended_for_time = (128 + signal.SIGXCPU, 128 + signal.SIGKILL)
        answers = [
            Answer(None if status in ended_for_time else status, text, "") for text, status in zip(texts, numbers)
        ]
        return [*answers, Answer(None, "", "")] if is_over else answers

    def check(self, datapath: str, path: str, full: bool) -> Answer:
        """What `y86 check` says of a file."""
        return self.run("check", datapath, path, *full_flag(full), limits=Limits(LONG))


def in_a_shell(script: str, seconds: float) -> tuple[bool, str]:
    """Whether the time was over before the end of a script, and what its commands printed."""
    with tempfile.TemporaryFile() as lines, tempfile.TemporaryFile() as out:
        lines.write(os.fsencode(script))
        lines.seek(0)
        with subprocess.Popen(
            [SHELL], stdin=lines, stdout=out, stderr=subprocess.DEVNULL, start_new_session=True
        ) as shell:
            try:
                shell.wait(max(seconds, 0.01))
                is_over = False
            except subprocess.TimeoutExpired:
                os.killpg(shell.pid, signal.SIGKILL)
                is_over = True
            except BaseException:
                os.killpg(shell.pid, signal.SIGKILL)
                raise
        out.seek(0)
        return is_over, out.read().decode("utf-8", "replace")


def full_flag(full: bool) -> list[str]:
    return ["--full"] if full else []


def past_launcher(path: str, program: str) -> str:
    """The program itself where the path is a launcher's.

    A launcher whose program isn't built compiles an unproved one and keeps it.
    It is called once, so that it reports that.
    """
    top = os.path.dirname(os.path.realpath(path))
    built = os.path.join(top, "launch", "built.sh")
    if os.path.realpath(path) != os.path.join(top, "y86") or not os.path.exists(built):
        return path
    crate = program.replace("-", "_")
    out = os.path.join(top, "crates", crate, "out")
    if subprocess.run([SHELL, built, top, crate, "is_current"], check=False).returncode == 0:
        return os.path.join(out, crate)
    launched = subprocess.run([path], stdin=subprocess.DEVNULL, capture_output=True, check=False)
    lines = launched.stderr.decode("utf-8", "replace").splitlines(True)
    sys.stderr.write("".join(line for line in lines if line.startswith(LAUNCHER)))
    if launched.returncode in (126, 127):
        raise LabError(f"there is no program to ask; {top}/prove proves and builds it", NO_PROGRAM)
    kept = [
        name
        for name in glob.glob(f"{glob.escape(out)}/unproved-*")
        if re.fullmatch("unproved-[0-9a-f]+", os.path.basename(name))
    ]
    return kept[0] if len(kept) == 1 else path


def read_text(path: str) -> str:
    """The text of a file, with a mark for each byte that isn't UTF-8."""
    return decoded(path, "replace", None)


def read_exactly(path: str) -> str:
    """The text of a file, from which its bytes can be made again."""
    return decoded(path, "surrogateescape", "")


def decoded(path: str, errors: str, newline: Optional[str]) -> str:
    try:
        with open(path, encoding="utf-8", errors=errors, newline=newline) as file:
            return file.read()
    except (OSError, ValueError) as fault:
        reason = fault.strerror if isinstance(fault, OSError) else str(fault)
        raise LabError(f"{path}: {reason}", UNREADABLE) from fault
