"""What a hand-in is worth by a rubric."""
from __future__ import annotations

import os
import re
import tempfile
from dataclasses import dataclass, field
from functools import lru_cache
from typing import Optional

from .. import hcl
from ..calls import Answer, Limits, Programs, full_flag, read_text
from ..copy_loop import ALL_LENGTHS, CopyLoop
from ..errors import DONE, USAGE, LabError
from .handins import HandIn
from .obligations import Verdict, verdict
from .rubric import Cycles, Item, Obligations, Program, Rubric, Run, Size

# The longest source that y86 takes.
LONGEST = 1048576
COMMANDS = {"pipe": "psim", "seq": "ssim", "seqplus": "ssimp"}


@dataclass(frozen=True)
class Score:
    """The points of an item, and why."""

    name: str
    points: float
    most: float
    reason: str


@dataclass(frozen=True)
class Grade:
    """The scores of a hand-in, the cycles of its copy loop by its lengths, and the verdicts on its processors."""

    name: str
    scores: tuple[Score, ...]
    cycles: dict[int, int]
    verdicts: dict[str, Verdict] = field(default_factory=dict)

    @property
    def points(self) -> float:
        return sum(score.points for score in self.scores)

    @property
    def most(self) -> float:
        return sum(score.most for score in self.scores)


class NoPoints(Exception):
    """Why an item is worth nothing."""


@dataclass(frozen=True)
class Report:
    """How a program ends by its instructions, and its listing."""

    listing: str
    text: str


@dataclass(frozen=True)
class Right:
    """The references of a rubric, by their names: each is read, or run, once for a class."""

    reports: dict[str, Report]
    designs: dict[str, hcl.Design]


class Runner:
    """Assembles and runs programs within the limits. The folder is for their object files."""

    def __init__(self, programs: Programs, flags: list[str], limits: Limits, folder: str) -> None:
        self.programs, self.flags, self.limits, self.folder = programs, flags, limits, folder

    def assembled(self, path: str) -> tuple[str, str]:
        """The object file of a source, and its listing."""
        if os.path.getsize(path) > LONGEST:
            raise NoPoints("the source is too long")
        answer = self.programs.run("yas", path, *self.flags, limits=self.limits)
        if answer.status != DONE:
            raise NoPoints(answer.err.strip().replace(path, os.path.basename(path)) or "the assembler gave no answer")
        made = os.path.join(self.folder, "own.yo")
        with open(made, "w", encoding="utf-8") as file:
            file.write(answer.out)
        return made, answer.out

    def report(self, path: str) -> Report:
        """The run of a source by its instructions."""
        made, listing = self.assembled(path)
        return Report(listing, self.run_by_instructions(made).out)

    def run_by_instructions(self, made: str) -> Answer:
        answer = self.programs.run("yis", made, *self.flags, limits=self.limits)
        if answer.status is None or "Status '" not in answer.out:
            raise NoPoints("the program gave no report in time" if answer.status is None else answer.err.strip())
        return answer


def references(programs: Programs, rubric: Rubric, limits: Limits) -> Right:
    """The references of a rubric. One that can't be used is the teacher's fault, and ends the command."""
    right = Right({}, {})
    with tempfile.TemporaryDirectory() as folder:
        runner = Runner(programs, full_flag(rubric.full), limits, folder)
        for item in rubric.items:
            name = getattr(item.task, "reference", "")
            path = os.path.join(rubric.folder, name)
            try:
                if isinstance(item.task, Program):
                    if name not in right.reports:
                        right.reports[name] = runner.report(path)
                    for label, _ in item.task.words:
                        if address_of(right.reports[name].listing, label) is None:
                            raise NoPoints(f"it defines no label `{label}`")
                elif name and isinstance(item.task, Obligations) and name not in right.designs:
                    right.designs[name] = design_of_reference(path)
            except (NoPoints, OSError) as why:
                raise LabError(f"the reference {name}: {why}", USAGE) from why
    return right


def design_of_reference(path: str) -> hcl.Design:
    design = hcl.design_of(read_text(path))
    if design is None:
        raise NoPoints("it isn't HCL")
    return design


class Grader:
    """Grades one hand-in. Whatever its files do, each item gets a score. The folder is for the files of its runs."""

    def __init__(self, runner: Runner, rubric: Rubric, right: Right, hand_in: HandIn) -> None:
        self.runner, self.rubric, self.right, self.hand_in = runner, rubric, right, hand_in
        self.programs, self.limits, self.flags = runner.programs, runner.limits, runner.flags
        self.verdicts: dict[str, Verdict] = {}
        self.loops: dict[str, CopyLoop] = {}
        self.cycles: dict[int, int] = {}

    def grade(self) -> Grade:
        scores = tuple(self.score(item) for item in self.rubric.items)
        return Grade(self.hand_in.name, scores, self.cycles, self.verdicts)

    def score(self, item: Item) -> Score:
        try:
            share, reason = self.share(item)
        except (NoPoints, LabError) as why:
            share, reason = 0.0, str(why)
        except (OSError, RecursionError, ValueError) as why:
            share, reason = 0.0, f"it could not be graded: {why}"
        return Score(item.name, round(item.points * share, 2), item.points, reason)

    def share(self, item: Item) -> tuple[float, str]:
        """Which part of the points an item gets, and why."""
        task = item.task
        if isinstance(task, Obligations):
            return self.share_of_obligations(task)
        if isinstance(task, Program):
            return self.share_of_program(task)
        if isinstance(task, Run):
            return self.share_of_run(task)
        return self.share_of_cycles(task) if isinstance(task, Cycles) else self.share_of_size(task)

    def path(self, name: str) -> str:
        """The file of the hand-in with this name."""
        if name not in self.hand_in.files:
            raise NoPoints(f"{name}: {self.hand_in.missing.get(name, 'it is missing')}")
        return self.hand_in.files[name]

    def verdict(self, name: str) -> Verdict:
        if name not in self.verdicts:
            right = self.right_design(name)
            self.verdicts[name] = verdict(self.programs, self.path(name), self.rubric.full, self.limits, right)
        return self.verdicts[name]

    def right_design(self, name: str) -> Optional[hcl.Design]:
        """The right file that the rubric has for this one."""
        tasks = [item.task for item in self.rubric.items if isinstance(item.task, Obligations)]
        named = [task.reference for task in tasks if task.file == name and task.reference]
        return self.right.designs[named[0]] if named else None

    def share_of_obligations(self, task: Obligations) -> tuple[float, str]:
        judged = self.verdict(task.file)
        if judged.fault:
            raise NoPoints(judged.fault.replace(self.path(task.file), task.file))
        letter = "O" if judged.datapath == "pipe" else "S"
        asked = [label for label in task.labels if label.startswith(letter)]
        if not asked:
            raise NoPoints(f"{task.file} is a file for another processor")
        false = [label for label in asked if label in judged.false]
        if not judged.is_complete:
            # (what comes after the first false one isn't known)
            first = int(judged.false[0][1:])
            unknown = [label for label in asked if int(label[1:]) > first]
            share = (len(asked) - len(false) - len(unknown)) / len(asked)
            return share, f"{judged.false[0]} is false; later ones weren't decided"
        if not false:
            return 1.0, "all hold"
        return (len(asked) - len(false)) / len(asked), f"false: {', '.join(false)}"

    def share_of_program(self, task: Program) -> tuple[float, str]:
        own, wanted = self.runner.report(self.path(task.file)), self.right.reports[task.reference]
        differences = [compared("the status", status_of(wanted.text), status_of(own.text))]
        for name in task.registers:
            differences.append(compared(name, register(wanted.text, name), register(own.text, name)))
        for name, count in task.words:
            differences.append(compared(f"the words at {name}", words(wanted, name, count), words(own, name, count)))
        if any(differences):
            raise NoPoints("; ".join(difference for difference in differences if difference))
        return 1.0, "it ends as the reference does"

    def share_of_run(self, task: Run) -> tuple[float, str]:
        path = self.path(task.processor)
        judged = self.verdict(task.processor)
        made, _ = self.runner.assembled(self.path(task.file))
        wanted = self.runner.run_by_instructions(made).out
        answer = self.programs.run(COMMANDS[judged.datapath], path, made, *self.flags, limits=self.limits)
        report = answer.out[answer.out.find("Stopped in ") :] if "Stopped in " in answer.out else ""
        if not report:
            raise NoPoints(answer.err.strip() or "the processor gave no report in time")
        if report != wanted:
            raise NoPoints(f"it ends otherwise than by its instructions: {first_difference(wanted, report)}")
        return 1.0, "it ends as its instructions say"

    def copy_loop(self, name: str) -> CopyLoop:
        if name not in self.loops:
            path = self.path(name)
            if os.path.getsize(path) > LONGEST:
                raise NoPoints("the source is too long")
            self.loops[name] = CopyLoop(self.programs, path, self.flags, self.runner.folder, self.limits)
        return self.loops[name]

    def share_of_cycles(self, task: Cycles) -> tuple[float, str]:
        judged = self.verdict(task.processor)
        if judged.fault or judged.false or judged.datapath != "pipe":
            raise NoPoints(f"{task.processor} isn't accepted as a pipeline")
        loop = self.copy_loop(task.file)
        for fault in loop.faults(self.path(task.processor), ALL_LENGTHS, 1):
            raise NoPoints(fault)
        self.cycles, mean = loop.cycles, loop.mean()
        share = (task.worst - mean) / (task.worst - task.best)
        return min(1.0, max(0.0, share)), f"{mean:.2f} cycles per element"

    def share_of_size(self, task: Size) -> tuple[float, str]:
        size = self.copy_loop(task.file).size()
        share = 1.0 if size <= task.best else (task.worst - size) / (task.worst - task.best)
        return max(0.0, share), f"{size} bytes"


def compared(what: str, wanted: str, got: str) -> str:
    return "" if wanted == got else f"{what}: {got or 'nothing'} in place of {wanted or 'nothing'}"


def status_of(report: str) -> str:
    match = re.search(r"Status '(\w+)'", report)
    return match[1] if match else ""


def register(report: str, name: str) -> str:
    """The value of a register at the end; 0 if it isn't among the changes."""
    match = re.search(rf"^{re.escape(name)}:\t\S+\t0x(\w+)$", report, re.M)
    return hex(int(match[1], 16)) if match else "0x0"


@lru_cache(maxsize=64)
def bytes_of(listing: str) -> dict[int, int]:
    """The bytes of a listing by address."""
    held: dict[int, int] = {}
    for address, digits in re.findall(r"^0x([0-9a-f]+): ([0-9a-f]+) *\|", listing, re.M):
        for number, byte in enumerate(bytes.fromhex(digits)):
            held[int(address, 16) + number] = byte
    return held


def address_of(listing: str, label: str) -> Optional[int]:
    """Where a label is; None if there is none. (A comment may have all of a label's line but the first `|`.)"""
    place = re.search(rf"^0x([0-9a-f]+):[^|\n]*\|\s*{re.escape(label)}\s*:", listing, re.M)
    return int(place[1], 16) if place else None


def words(report: Report, label: str, count: int) -> str:
    """The words after a label at the end of a run."""
    start, held = address_of(report.listing, label), bytes_of(report.listing)
    if start is None:
        return f"no label {label}"
    changed = {
        int(address, 16): int(word, 16)
        for address, word in re.findall(r"^0x(\w+):\t\S+\t0x(\w+)$", report.text, re.M)
    }
    values = []
    for address in range(start, start + 8 * count, 8):
        before = sum(held.get(address + number, 0) << 8 * number for number in range(8))
        values.append(changed.get(address, before))
    return " ".join(map(hex, values))


def first_difference(wanted: str, report: str) -> str:
    """The first line of a report that isn't in another."""
    lines = set(wanted.splitlines())
    return next((line.strip() for line in report.splitlines() if line not in lines), "lines are missing")
