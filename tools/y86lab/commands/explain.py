"""y86-lab explain HCL: checks a file, and says the answer in words: those of y86-tell."""
from __future__ import annotations

import argparse
import re
import textwrap
from typing import Iterator

from .. import places, tell
from ..arguments import Command, add_full, stop_on_program
from ..calls import Answer, Programs, read_text
from ..errors import DONE, OUT_OF_TIME, REFUSED, USAGE

NO_ANSWER = "no answer in ten minutes"
WIDTH = 100


def add_arguments(parser: argparse.ArgumentParser) -> None:
    parser.add_argument("file", metavar="HCL", help="the file to check")
    parser.add_argument(
        "--places", action="store_true", help="print the places alone, as FILE:LINE:COLUMN: MESSAGE, for editors"
    )
    add_full(parser)


def run(arguments: argparse.Namespace, programs: Programs) -> int:
    path, full = arguments.file, arguments.full
    stop_on_program(path, "explain HCL")
    text = read_text(path)
    datapath = tell.datapath(programs, path)
    if arguments.places:
        answer, said = tell.check(programs, datapath, path, full)
        print("\n".join(short_lines(path, text, answer, said)))
    else:
        answer = tell.check_in_words(programs, datapath, path, full)
        print_answer(programs, arguments, datapath, text, answer)
    return OUT_OF_TIME if answer.status is None else answer.status


def short_lines(path: str, text: str, answer: Answer, said: tell.Json) -> list[str]:
    """A line for each place that the answer is about."""
    if answer.status == DONE:
        return [f"{path}: yes"]
    if answer.status == REFUSED and said:
        return list(places.of_refusal(path, text, said))
    return faults(path, answer)


def faults(path: str, answer: Answer) -> list[str]:
    """The lines of an answer that is no verdict. Each begins with the file's name."""
    if answer.status is None:
        return [f"{path}: {NO_ANSWER}"]
    unsaid = "its name isn't UTF-8" if answer.status == USAGE else "the check ended without an answer"
    lines = answer.err.splitlines() or [unsaid]
    return [line if line.startswith(f"{path}:") else f"{path}: {line}" for line in lines]


def print_answer(programs: Programs, arguments: argparse.Namespace, datapath: str, text: str, answer: Answer) -> None:
    path, full = arguments.file, arguments.full
    if answer.status is None:
        print(f"{path}: {NO_ANSWER}. docs/HCL.md says under Limits which files take so long.")
        return
    if answer.status not in (DONE, REFUSED) or not answer.out:
        print("\n".join(drawn_faults(path, text, answer)))
        return
    print(answer.out, end="")
    if answer.status == REFUSED:
        said = tell.check(programs, datapath, path, full)[1]
        print("\nThe places in the file:\n")
        for line in places.of_refusal(path, text, said):
            print(textwrap.fill(line, WIDTH, initial_indent=" " * 4, subsequent_indent=" " * 8, break_long_words=False))
        print(f"\n`./y86-lab witness {path}{' --full' if full else ''}` looks for a program that shows it.")
        note = tell.unasked(text, full)
        if note:
            print(f"\n{note}")


def drawn_faults(path: str, text: str, answer: Answer) -> Iterator[str]:
    """The faults of a file, each with its line and a mark below the column."""
    lines = text.split("\n")
    for fault in faults(path, answer):
        yield fault
        at = re.match(r":(\d+):(\d+): ", fault[len(path) :])
        if at and 0 < int(at[1]) <= len(lines):
            shown = lines[int(at[1]) - 1].replace("\t", " ")
            yield f"\n    {at[1]:>4} | {shown}\n         | {' ' * (int(at[2]) - 1)}^\n"


COMMAND = Command("explain", "checks a file, and says the answer in words", add_arguments, run)
