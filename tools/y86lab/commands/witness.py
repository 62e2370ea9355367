"""y86-lab witness HCL: looks for a program that shows the mistake of a file, and shortens it."""
from __future__ import annotations

import argparse
import itertools
import os
import re
import tempfile
from typing import Iterator, Optional

from .. import counterexample, hcl, tell, trial_programs
from ..arguments import MOST, Command, add_full, digits, number_to, stop_on_program
from ..calls import Programs, full_flag, read_text
from ..errors import DONE, OUT_OF_TIME, REFUSED, LabError
from ..trial import COMMANDS, OutOfTime, Trial, shortened, source_of
from ..trial_programs import Lines
from ..unseen import is_icode_unseen

UNSEEN = """\
No program shows it. `icode` isn't what was read, but every other signal is right, so the machine does what the
instructions say. With `word icode = imem_icode;` the file is right."""
NONE_SHOWS = """\
None of {which} shows the mistake. The obligation fails all the same: a program that shows it may be rare,
or there is none. A `no` promises that the obligation fails in the situation that it shows, and no more."""


def add_arguments(parser: argparse.ArgumentParser) -> None:
    parser.add_argument("file", metavar="HCL", help="the file that has a mistake")
    add_full(parser)
    parser.add_argument("-o", "--output", metavar="FILE", help="write the program into this file, for yas")
    parser.add_argument(
        "--tries", type=number_to(MOST), default=1200, metavar="N", help="the most programs to try (default 1200)"
    )
    parser.add_argument(
        "--seconds", type=number_to(MOST), default=60, metavar="N", help="the longest time to search (default 60)"
    )
    parser.add_argument(
        "--seed", type=digits, default=7, metavar="N", help="what the random programs are drawn from (default 7)"
    )


def run(arguments: argparse.Namespace, programs: Programs) -> int:
    path, full = arguments.file, arguments.full
    stop_on_program(path, "witness HCL")
    text = read_text(path)
    design = hcl.design_of(text)
    datapath = tell.datapath(programs, path)
    answer = programs.check(datapath, path, full)
    if answer.status is None or answer.status not in (DONE, REFUSED):
        status = OUT_OF_TIME if answer.status is None else answer.status
        said = tell.reason(programs, answer, path, full_flag(full), datapath)
        raise LabError(said or f"{path}: the check gives no answer", status)
    print(f"{path}: {answer.out.splitlines()[0]}")
    note = tell.unasked(text, full)
    if answer.status == DONE:
        which = " without `iaddq`" if note else ""
        which += " in which no instruction overwrites one of the next three" if datapath == "pipe" else ""
        print(f"So no program{which} shows a mistake.")
    if note:
        print(note)
    return DONE if answer.status == DONE or not design else search(arguments, programs, datapath, design)


def search(arguments: argparse.Namespace, programs: Programs, datapath: str, design: hcl.Design) -> int:
    """Looks for a program that shows the mistake, or for why there is none."""
    path, full, tries, seconds = arguments.file, arguments.full, arguments.tries, arguments.seconds
    if datapath == "seq" and is_icode_unseen(programs, design, full):
        print(UNSEEN)
        return REFUSED
    print(f"Trying up to {tries} programs until one shows it, for at most {seconds} s.", flush=True)
    with tempfile.TemporaryDirectory() as folder:
        trial = Trial(programs, path, datapath, full, folder)
        trial.keep_to(seconds)
        made = made_for(programs, datapath, path, full)
        tried, lines = first_that_shows(trial, itertools.islice(drawn(made, full, arguments.seed), tries))
        if lines is not None:
            lines, is_shortest = shortened(trial, lines)
            trial.keep_to(None)
            print_witness(trial, lines, tried, is_shortest)
            if arguments.output:
                write(arguments.output, path, lines)
            return DONE
    which = f"{tried} programs" if tried == tries else f"the {tried} programs that {seconds} s were enough for"
    print(NONE_SHOWS.format(which=which))
    return REFUSED


def made_for(programs: Programs, datapath: str, path: str, full: bool) -> Iterator[Lines]:
    """The programs that are made from the counterexamples of a file: first of all from that of the answer."""
    said = tell.check(programs, datapath, path, full)[1]
    instructions = tell.Table(programs).instructions()
    for refuted in said.get("refuted", []):
        yield from counterexample.programs_of(refuted["counterexample"], instructions, full)


def drawn(made: Iterator[Lines], full: bool, seed: int) -> Iterator[Lines]:
    """The programs to try: those made for the file, those made for rare situations, and others."""
    return itertools.chain(
        made, trial_programs.special(), trial_programs.pairs(full), trial_programs.at_random(seed, full)
    )


def first_that_shows(trial: Trial, programs: Iterator[Lines]) -> tuple[int, Optional[Lines]]:
    """How many programs were tried, and the last of them if it shows the mistake."""
    number = 0
    try:
        for number, lines in enumerate(programs, 1):
            if trial.shows(lines):
                return number, lines
    except OutOfTime:
        return number - 1, None
    return number, None


def print_witness(trial: Trial, lines: Lines, number: int, is_shortest: bool) -> None:
    listing = trial.assemble(lines) or ""
    wanted, (cycles, report) = trial.by_instructions(), parted(trial.on_processor())
    how = "until no line of it can be left out" if is_shortest else "as far as the time was enough"
    print(f"Program {number} shows it. Shortened {how}:\n")
    print_indented(listing)
    print("yis, the instructions one by one:\n")
    print_indented(wanted)
    print(f"{COMMANDS[trial.datapath]} under {os.path.basename(trial.path)}{cycles}:\n")
    print_indented(report)
    if trial.datapath == "pipe":
        print(trial.told().out, end="")
    else:
        print_difference(wanted, report)


def parted(out: str) -> tuple[str, str]:
    """The cycles of a run on a pipeline, and the report below; of another run the report."""
    head, _, rest = out.partition("\n")
    ran = re.match(r"Ran (\d+ cycles)", head)
    return (f", {ran[1]}", rest) if ran else ("", out)


def print_indented(text: str) -> None:
    """Prints a text with a margin, and an empty line below it."""
    print("\n".join(f"    {line}".rstrip() for line in text.splitlines()), end="\n\n")


def print_difference(wanted: str, report: str) -> None:
    """The lines of the reports that differ."""
    print("The reports differ in these lines:\n")
    lines, others = wanted.splitlines(), report.splitlines()
    for sign, these, those in (("wanted", lines, others), ("got   ", others, lines)):
        for line in these:
            if line not in those:
                print(f"    {sign}   {line}")


def write(output: str, path: str, lines: Lines) -> None:
    try:
        with open(output, "w", encoding="utf-8", errors="surrogateescape") as file:
            file.write(f"# shows the mistake of {path}\n{source_of(lines)}")
    except OSError as fault:
        raise LabError(f"{output}: {fault.strerror}") from fault
    print(f"\nThe program is in {output}.")


COMMAND = Command("witness", "looks for a program that shows the mistake of a file", add_arguments, run)
