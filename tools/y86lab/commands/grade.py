"""y86-lab grade FOLDER --rubric FILE: the hand-ins of a class, graded (docs/TEACHING.md)."""
from __future__ import annotations

import argparse
import os
import sys
import tempfile
from dataclasses import dataclass
from typing import Optional

from .. import tell
from ..arguments import Command
from ..calls import Limits, Programs, full_flag
from ..errors import DONE, USAGE, LabError
from ..grading.feedback import Pages
from ..grading.formats import FORMATS
from ..grading.grader import Grade, Grader, Right, Runner, references
from ..grading.handins import HandIn, hand_ins
from ..grading.rubric import Rubric, read_rubric
from ..output import make_folder, plain_name, write
from ..progress import add_limits, all_results, limits_of

# The longest search for a program that shows a mistake, in seconds.
LONGEST_SEARCH = 20


def add_arguments(parser: argparse.ArgumentParser) -> None:
    parser.add_argument("folder", metavar="FOLDER", help="a folder with a folder for each hand-in, or with all files")
    parser.add_argument("--rubric", metavar="FILE", required=True, help="what is worth how many points, in TOML")
    parser.add_argument("--format", choices=tuple(FORMATS), default="csv", help="the form of the grades (default csv)")
    parser.add_argument("-o", "--output", metavar="FILE", help="write the grades into this file")
    parser.add_argument("--feedback", metavar="FOLDER", help="write a page for each hand-in into this folder")
    parser.add_argument("--single", action="store_true", help="FOLDER is one hand-in")
    add_limits(parser)


def run(arguments: argparse.Namespace, programs: Programs) -> int:
    if not os.path.isdir(arguments.folder):
        raise LabError(f"{arguments.folder}: no such folder", USAGE)
    if arguments.format == "gradescope" and not arguments.single:
        raise LabError("Gradescope's results are of one hand-in: --single", USAGE)
    rubric = read_rubric(arguments.rubric, tell.Table(programs).groups())
    if arguments.feedback:
        make_folder(arguments.feedback)
    found = hand_ins(arguments.folder, rubric.files(), arguments.single)
    if not found:
        raise LabError(f"{arguments.folder}: it has no hand-in", USAGE)
    programs.path("y86")
    limits = limits_of(arguments)
    right = references(programs, rubric, limits)
    pages = Pages(programs, rubric, limits, min(arguments.seconds, LONGEST_SEARCH)) if arguments.feedback else None
    results = all_results(Task(programs, rubric, right, limits, pages).result, found, arguments.jobs)
    taken: set[str] = set()
    for grade, page in results:
        if page:
            write(os.path.join(arguments.feedback, f"{plain_name(grade.name, taken)}.html"), page)
    text = FORMATS[arguments.format](rubric, [grade for grade, _ in results])
    # (a name may have bytes that aren't UTF-8)
    errors = "surrogateescape" if arguments.format == "csv" else "replace"
    if arguments.output:
        write(arguments.output, text, errors)
    else:
        sys.stdout.flush()
        sys.stdout.buffer.write(text.encode("utf-8", errors))
    return DONE


@dataclass(frozen=True)
class Task:
    """What is done with each hand-in: a grade, and perhaps a page."""

    programs: Programs
    rubric: Rubric
    right: Right
    limits: Limits
    pages: Optional[Pages]

    def result(self, hand_in: HandIn) -> tuple[Grade, str]:
        with tempfile.TemporaryDirectory() as folder:
            runner = Runner(self.programs, full_flag(self.rubric.full), self.limits, folder)
            grade = Grader(runner, self.rubric, self.right, hand_in).grade()
        return grade, self.pages.page(hand_in, grade) if self.pages else ""


COMMAND = Command("grade", "grades the hand-ins of a class by a rubric", add_arguments, run)
