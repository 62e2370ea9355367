"""y86-lab archlab NCOPY.ys HCL, or archlab FOLDER [HCL]: the book's lab, part C.

Is a copy loop right, how many cycles does it take for each element, and what is its score?
For a folder it answers for each hand-in.
"""
from __future__ import annotations

import argparse
import os
import sys
import tempfile
from dataclasses import dataclass
from typing import Optional

from .. import tell
from ..arguments import Command, add_full
from ..calls import Answer, Limits, Programs, full_flag
from ..copy_loop import ALL_LENGTHS, LARGER, MOST_BYTES, CopyLoop, score
from ..curves import Curve, plot, table_of_all, table_of_one
from ..errors import DONE, FAULT, OUT_OF_TIME, REFUSED, TOO_LONG, USAGE, LabError
from ..grading.grader import LONGEST
from ..grading.handins import HandIn, hand_ins
from ..output import make_folder, plain_name, write
from ..progress import add_limits, all_results, limits_of

MOST_FAULTS = 5
SHOWN = (1, 2, 3, 4, 8, 16, 32, 64)
SOURCE, PROCESSOR = "ncopy.ys", "pipe.hcl"


def add_arguments(parser: argparse.ArgumentParser) -> None:
    parser.add_argument(
        "source", metavar="NCOPY.ys", help=f"the function ncopy, or a folder of hand-ins with {SOURCE} and {PROCESSOR}"
    )
    parser.add_argument("file", metavar="HCL", nargs="?", help="the pipeline; after a folder: the one for all hand-ins")
    add_full(parser)
    parser.add_argument(
        "--curves", metavar="FOLDER", help="write the cycles of lengths 1 to 64 into this folder, as CSV and as SVG"
    )
    add_limits(parser)


def run(arguments: argparse.Namespace, programs: Programs) -> int:
    if arguments.curves:
        make_folder(arguments.curves)
    if os.path.isdir(arguments.source):
        return run_class(arguments, programs)
    if arguments.file is None:
        raise LabError(f"{arguments.source}: on which pipeline? An HCL file is missing", USAGE)
    path, limits = arguments.file, limits_of(arguments)
    with tempfile.TemporaryDirectory() as folder:
        copy_loop = CopyLoop(programs, arguments.source, full_flag(arguments.full), folder, limits)
        size = copy_loop.size()
        verdict = programs.check("pipe", path, arguments.full)
        if verdict.status is None or verdict.status not in (DONE, REFUSED):
            status = OUT_OF_TIME if verdict.status is None else verdict.status
            said = tell.reason(programs, verdict, path, full_flag(arguments.full), "pipe")
            raise LabError(said or f"{path}: the check gives no answer", status)
        print(f"{path}: {verdict.out.splitlines()[0]}", flush=True)
        faults = copy_loop.faults(path, ALL_LENGTHS, MOST_FAULTS)
    for fault in faults:
        print(fault)
    print(f"correct for lengths 0 to 64 and {', '.join(map(str, LARGER))}: {'no' if faults else 'yes'}")
    print(f"bytes of the function: {size}, of {MOST_BYTES} at most")
    if arguments.curves and not faults:
        name = os.path.splitext(os.path.basename(arguments.source))[0]
        write_curves(arguments.curves, [Curve(name, copy_loop.cycles)])
    return print_score(copy_loop, bool(faults), size, verdict.status == DONE)


def print_score(copy_loop: CopyLoop, is_wrong: bool, size: int, is_accepted: bool) -> int:
    """Prints the cycles per element if the results are right, and the score."""
    if not is_wrong:
        print_cycles(copy_loop)
    if is_wrong or size > MOST_BYTES or not is_accepted:
        too_long = "the function is too long" if size > MOST_BYTES else "the processor isn't accepted"
        print(f"score: 0 of 60, for {'the results are wrong' if is_wrong else too_long}")
        return REFUSED
    print(f"score: {score(copy_loop.mean()):.1f} of 60")
    return DONE


def print_cycles(copy_loop: CopyLoop) -> None:
    print("\n  length  cycles  per element")
    for length in SHOWN:
        cycles = copy_loop.cycles[length]
        print(f"{length:>8}  {cycles:>6}  {cycles / length:>11.2f}")
    print(f"\nmean of lengths 1 to 64: {copy_loop.mean():.2f} cycles per element")


# A class.


def run_class(arguments: argparse.Namespace, programs: Programs) -> int:
    """Prints a row for each hand-in: its score, the mean, the bytes, why it scores nothing, and the cycles."""
    wanted = [SOURCE] if arguments.file else [SOURCE, PROCESSOR]
    found = hand_ins(arguments.source, wanted)
    if not found:
        raise LabError(f"{arguments.source}: it has no hand-in", USAGE)
    programs.path("y86")
    scoring = Scoring(programs, arguments.full, limits_of(arguments), None)
    if arguments.file:
        answer = scoring.check(arguments.file)
        if answer.status != DONE:
            why = scoring.why_refused(answer, arguments.file)
            raise LabError(f"{arguments.file}: {why}", answer.status or OUT_OF_TIME)
        scoring = Scoring(programs, arguments.full, limits_of(arguments), arguments.file)
    curves = all_results(scoring.curve, found, arguments.jobs)
    sys.stdout.flush()
    sys.stdout.buffer.write(table_of_all(curves).encode("utf-8", "surrogateescape"))
    if arguments.curves:
        write_curves(arguments.curves, curves)
    return DONE


@dataclass(frozen=True)
class Scoring:
    """How hand-ins are scored: each on its own pipeline, or all on one that was accepted."""

    programs: Programs
    full: bool
    limits: Limits
    processor: Optional[str]

    def check(self, path: str) -> Answer:
        return self.programs.run("check", "pipe", path, *full_flag(self.full), limits=self.limits)

    def curve(self, hand_in: HandIn) -> Curve:
        """The cycles of a hand-in, or why there are none. Whatever its files do, there is an answer."""
        try:
            return self.scored(hand_in)
        except (LabError, OSError, RecursionError, ValueError) as why:
            return Curve(hand_in.name, {}, why=self.in_its_names(hand_in, str(why)))

    def why_refused(self, answer: Answer, processor: str) -> str:
        """Why a pipeline isn't accepted, in a line."""
        if answer.status == REFUSED:
            return f"the pipeline isn't accepted: {answer.out.partition(chr(10))[0]}"
        if answer.status in (FAULT, TOO_LONG):
            said = tell.reason(self.programs, answer, processor, full_flag(self.full), "pipe")
            return f"the pipeline has a fault: {said.partition(chr(10))[0]}"
        return "the check of the pipeline gave no answer"

    def in_its_names(self, hand_in: HandIn, text: str) -> str:
        for name, path in hand_in.files.items():
            text = text.replace(path, name)
        return text

    def scored(self, hand_in: HandIn) -> Curve:
        if hand_in.missing:
            name, fault = next(iter(hand_in.missing.items()))
            raise LabError(f"{name}: {fault}")
        source, processor = hand_in.files[SOURCE], self.processor or hand_in.files[PROCESSOR]
        if os.path.getsize(source) > LONGEST:
            raise LabError(f"{SOURCE}: it is too long")
        answer = Answer(DONE, "", "") if self.processor else self.check(processor)
        if answer.status != DONE:
            raise LabError(self.why_refused(answer, processor))
        with tempfile.TemporaryDirectory() as folder:
            copy_loop = CopyLoop(self.programs, source, full_flag(self.full), folder, self.limits)
            size = copy_loop.size()
            faults = copy_loop.faults(processor, ALL_LENGTHS, 1)
        if faults:
            return Curve(hand_in.name, {}, size, faults[0])
        why = "the function is too long" if size > MOST_BYTES else ""
        return Curve(hand_in.name, copy_loop.cycles, size, why)


def write_curves(folder: str, curves: list[Curve]) -> None:
    """Writes a CSV and a plot for each hand-in that has cycles, and the same of all in one."""
    taken: set[str] = {"all"}
    shown = [curve for curve in curves if curve.cycles]
    for curve in shown:
        name = os.path.join(folder, plain_name(curve.name, taken))
        write(f"{name}.csv", table_of_one(curve))
        write(f"{name}.svg", plot(curve.name, [curve]))
    if len(curves) > 1:
        write(os.path.join(folder, "all.csv"), table_of_all(curves))
        write(os.path.join(folder, "all.svg"), plot("All hand-ins", shown))


COMMAND = Command("archlab", "scores a copy loop as the book's lab does, part C", add_arguments, run)
