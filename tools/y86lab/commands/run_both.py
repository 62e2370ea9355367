"""y86-lab try PROGRAM HCL: a program on a processor against the run by its instructions, over many inputs."""
from __future__ import annotations

import argparse
import os
import random
import re
import tempfile
from typing import Iterator

from .. import tell
from ..arguments import MOST, Command, add_run_options, file_options, number_to, run_options, stop_on_program
from ..calls import Answer, Limits, Programs, read_text
from ..errors import DONE, OUT_OF_TIME, REFUSED, LabError

COMMANDS = {"seq": "ssim", "seqplus": "ssimp"}
WORD = re.compile(r"^((?:\s*[A-Za-z_]\w*\s*:)?\s*\.quad\s*\$?\s*)(0x[0-9a-fA-F]+|-?\d+)(\s*(?:(?:#|//|/\*).*)?)$")
LONG_RUN = 120


def add_arguments(parser: argparse.ArgumentParser) -> None:
    parser.add_argument("program", metavar="PROGRAM", help="an assembly file (.ys), or an object file (.yo)")
    parser.add_argument("file", metavar="HCL", help="the processor")
    parser.add_argument(
        "--inputs", type=number_to(MOST), default=20, metavar="N",
        help="how many times to run a source: once as it is, then with other words in its .quad lines (default 20)",
    )
    add_run_options(parser)


def run(arguments: argparse.Namespace, programs: Programs) -> int:
    # (`run`, `psim` and `cycles` have the processor first)
    if arguments.program.endswith(".hcl") and not arguments.file.endswith(".hcl"):
        arguments.program, arguments.file = arguments.file, arguments.program
    stop_on_program(arguments.file, "try PROGRAM HCL")
    read_text(arguments.file)
    datapath = tell.datapath(programs, arguments.file)
    options = run_options(arguments)
    difference = pipeline_difference if datapath == "pipe" else sequential_difference
    tried, cut, end = 0, 0, ""
    with tempfile.TemporaryDirectory() as folder:
        for words, made in objects(arguments, programs, folder):
            told = difference(programs, datapath, arguments.file, made, options)
            if told and words and datapath == "pipe" and is_cut(programs, arguments.file, made, options):
                cut += 1
                continue
            tried += 1
            if told:
                if words:
                    print(f"The .quad lines were: {' '.join(words)}\n")
                print(told, end="")
                return REFUSED
            end = end or unusual_end(programs, made, options)
    inputs = "" if tried + cut == 1 else f" with each of {tried} inputs"
    others = f" With {cut} others it is right up to the limit of cycles, and doesn't end." if cut else ""
    print(f"{arguments.program} comes out right on {arguments.file}{inputs}.{others}{end}")
    return DONE


def unusual_end(programs: Programs, made: str, options: list[str]) -> str:
    """A sentence on a run by the instructions that doesn't end at a halt; empty if it does."""
    told = answered(programs, "yis", made, *options).out
    report = re.match(r"Stopped in \d+ steps at PC = (0x\w+)\.  Status '(\w+)'", told)
    if not report or report[2] in ("AOK", "HLT"):
        return ""
    full = " iaddq is an instruction only with --full." if report[2] == "INS" and "--full" not in options else ""
    return f"\nIt ends at {report[1]} with status {report[2]}, and not at a halt.{full}"


def objects(arguments: argparse.Namespace, programs: Programs, folder: str) -> Iterator[tuple[list[str], str]]:
    """The object files to run, each with the words that were put into it."""
    if not arguments.program.endswith(".ys"):
        tell.stop_on_fault(programs, arguments.program, run_options(arguments))
        yield [], arguments.program
        return
    source = read_text(arguments.program).split("\n")
    places = [number for number, line in enumerate(source) if WORD.match(line)]
    for turn in range(arguments.inputs if places else 1):
        words = other_words(turn, len(places)) if turn else []
        lines = list(source)
        for place, word in zip(places, words):
            lines[place] = WORD.sub(rf"\g<1>{word}\g<3>", lines[place])
        yield words, assembled(arguments, programs, folder, "\n".join(lines))


def other_words(turn: int, count: int) -> list[str]:
    """Small numbers of both signs, and now and then a large one; the same at each call."""
    chance = random.Random(f"input {turn}")
    return [str(other_word(chance)) for _ in range(count)]


def other_word(chance: random.Random) -> int:
    return chance.getrandbits(63) - (1 << 62) if chance.random() < 0.2 else chance.randrange(-20, 21)


def assembled(arguments: argparse.Namespace, programs: Programs, folder: str, text: str) -> str:
    source, made = os.path.join(folder, "p.ys"), os.path.join(folder, "p.yo")
    with open(source, "w", encoding="utf-8") as file:
        file.write(text)
    options = file_options(arguments)
    answer = programs.run("yas", source, *options)
    if answer.status != DONE:
        said = tell.reason(programs, answer, source, options)
        raise LabError(said.replace(source, arguments.program), answer.status or REFUSED)
    with open(made, "w", encoding="utf-8") as file:
        file.write(answer.out)
    return made


def pipeline_difference(programs: Programs, _: str, path: str, made: str, options: list[str]) -> str:
    """Where a pipeline's run differs, and whether the theorem covers it; empty if nothing differs."""
    said = answered(programs, "run", path, made, "--unchecked", *options, program="y86-tell")
    if said.status == DONE:
        return ""
    return answered(programs, "run", path, made, *options, program="y86-tell").out


def is_cut(programs: Programs, path: str, made: str, options: list[str]) -> bool:
    """Whether a pipeline's run is right as far as it goes: up to the limit."""
    words = ["run", path, made, "--unchecked", "--json", *options]
    return tell.asked(programs, *words, limits=Limits(LONG_RUN))[1].get("outcome") == "limit"


def sequential_difference(programs: Programs, datapath: str, path: str, made: str, options: list[str]) -> str:
    """The lines in which the reports of SEQ or SEQ+ and of the instructions differ; empty if none does."""
    wanted = answered(programs, "yis", made, *options).out
    report = answered(programs, COMMANDS[datapath], path, made, *options, hcl=(path, datapath)).out
    if report == wanted:
        return ""
    lines = ["The processor ends otherwise than the instructions say."]
    for title, text, other in (("by the instructions", wanted, report), ("on the processor", report, wanted)):
        others = set(other.splitlines())
        lines += ["", f"{title}:", *(f"    {line}" for line in text.splitlines() if line and line not in others)]
    return "".join(f"{line}\n" for line in lines)


def answered(programs: Programs, *words: str, program: str = "y86", hcl: tuple[str, str] = ("", "")) -> Answer:
    """The answer of a call that gives one: a run that ended, at its limit or before.

    Where the call is one of y86 with an HCL file, that file and its datapath are `hcl`.
    """
    answer = programs.run(*words, program=program, limits=Limits(LONG_RUN))
    if answer.status not in (DONE, REFUSED):
        status = OUT_OF_TIME if answer.status is None else answer.status
        path, word = hcl
        raise LabError(tell.reason(programs, answer, path, words, word) or "a run gave no report in time", status)
    return answer


COMMAND = Command("try", "runs a program on a processor and by its instructions, with many inputs", add_arguments, run)
