"""Runs programs under a file, and as the instructions say, until a time is over."""
from __future__ import annotations

import json
import os
import time
from typing import Optional

from .calls import Answer, Limits, Programs, full_flag
from .errors import DONE, REFUSED
from .trial_programs import Lines

# The most steps of a program. Five cycles for each are enough for every pipeline that the check accepts.
STEPS = 2000
LIMIT = 5 * STEPS
LONGEST_CALL = 120
COMMANDS = {"pipe": "psim", "seq": "ssim", "seqplus": "ssimp"}


class OutOfTime(Exception):
    """The time for all programs is over."""


def source_of(lines: Lines) -> str:
    return "".join(f"{line}\n" if line.endswith(":") else f"    {line}\n" for line in lines)


def shows_mistake(told: str) -> bool:
    """Whether a run, as y86-tell says it in JSON, shows a mistake of its pipeline: a difference, or no end in time."""
    run = json.loads(told)
    if run["premise"] != "holds" or run["steps"] > STEPS:
        return False
    return bool(run["outcome"] != "same")


class Trial:
    """Tries programs on a file. The folder is for their object files."""

    def __init__(self, programs: Programs, path: str, datapath: str, full: bool, folder: str) -> None:
        self.programs, self.path, self.datapath = programs, path, datapath
        self.flags = full_flag(full)
        self.source, self.object = os.path.join(folder, "p.ys"), os.path.join(folder, "p.yo")
        self.deadline: Optional[float] = None

    def keep_to(self, seconds: Optional[float]) -> None:
        """Ends the trial by OutOfTime after so many seconds from now on; never for None."""
        self.deadline = None if seconds is None else time.monotonic() + seconds

    def call(self, *words: str, program: str = "y86") -> Answer:
        left = LONGEST_CALL if self.deadline is None else min(LONGEST_CALL, self.deadline - time.monotonic())
        if left <= 0:
            raise OutOfTime
        answer = self.programs.run(*words, *self.flags, program=program, limits=Limits(left))
        if answer.status is None and left < LONGEST_CALL:
            raise OutOfTime
        return answer

    def assemble(self, lines: Lines) -> Optional[str]:
        """The listing of a program, or None if it isn't one."""
        with open(self.source, "w", encoding="ascii") as file:
            file.write(source_of(lines))
        answer = self.call("yas", self.source)
        if answer.status != 0:
            return None
        with open(self.object, "w", encoding="ascii") as file:
            file.write(answer.out)
        return answer.out

    def by_instructions(self) -> str:
        """The report of the assembled program's run by its instructions."""
        return self.call("yis", self.object, "--limit", str(STEPS)).out

    def on_processor(self) -> str:
        """The report of the assembled program's run under the file; of a pipeline below the line of its cycles."""
        return self.call(COMMANDS[self.datapath], self.path, self.object, "--limit", str(LIMIT)).out

    def told(self, *options: str) -> Answer:
        """Where the assembled program's run differs from that by its instructions, as y86-tell says it."""
        words = ["run", self.path, self.object, "--limit", str(LIMIT), "--unchecked", *options]
        return self.call(*words, program="y86-tell")

    def shows(self, lines: Lines) -> bool:
        """Whether a program shows a mistake of the file."""
        if self.assemble(lines) is None:
            return False
        if self.datapath == "pipe":
            answer = self.told("--json")
            return answer.status in (DONE, REFUSED) and shows_mistake(answer.out)
        wanted = self.by_instructions()
        return "Status 'AOK'" not in wanted and wanted != self.on_processor()


def shortened(trial: Trial, lines: Lines) -> tuple[Lines, bool]:
    """The program without the lines that it can do without, but for a `halt`, and whether the time was enough.

    First many lines go at a time, then one by one until none can go.
    """
    size = max(len(lines) // 2, 1)
    while True:
        start, has_changed = 0, False
        while start < len(lines):
            shorter = lines[:start] + lines[start + size :]
            try:
                can_go = ("halt" in shorter or "halt" not in lines) and trial.shows(shorter)
            except OutOfTime:
                return lines, False
            if can_go:
                lines, has_changed = shorter, True
            else:
                start += size
        if size == 1 and not has_changed:
            return lines, True
        size = max(size // 2, 1)
