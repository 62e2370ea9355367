"""y86-lab cycles HCL OBJ: where the cycles of a run went: when each instruction retires, its bubbles, and the CPI."""
from __future__ import annotations

import argparse
import re
from typing import Sequence

from .. import tell
from ..arguments import Command, add_run_options, run_options, stop_on_program
from ..calls import Programs, read_text
from ..errors import DONE, OUT_OF_TIME, REFUSED, LabError
from ..pipeline_run import CAUSES, OTHER, PipelineRun, Retirement


def add_arguments(parser: argparse.ArgumentParser) -> None:
    parser.add_argument("file", metavar="HCL", help="the processor")
    parser.add_argument("object", metavar="OBJ", help="the object file to run")
    parser.add_argument("--sum", action="store_true", help="print the sums alone")
    add_run_options(parser)


def run(arguments: argparse.Namespace, programs: Programs) -> int:
    path, object_path = arguments.file, arguments.object
    stop_on_program(path, "cycles HCL OBJ")
    read_text(path)
    datapath = tell.datapath(programs, path)
    tell.stop_on_fault(programs, object_path, run_options(arguments))
    if datapath != "pipe":
        return print_sequential(programs, datapath, path, object_path, run_options(arguments))
    pipeline_run = PipelineRun(programs, path, object_path, run_options(arguments))
    retirements = pipeline_run.retirements()
    if not arguments.sum:
        print_retirements(retirements)
    print_sums(pipeline_run, retirements)
    return DONE


def print_sequential(programs: Programs, datapath: str, path: str, object_path: str, options: Sequence[str]) -> int:
    """A sequential datapath does an instruction in each cycle."""
    answer = programs.run("ssim" if datapath == "seq" else "ssimp", path, object_path, *options)
    report = re.match(r"Stopped in (\d+) steps.*Status '(\w+)'", answer.out)
    if not report:
        status = OUT_OF_TIME if answer.status is None else answer.status or REFUSED
        raise LabError(tell.reason(programs, answer, path, options, datapath) or "the program gave no answer", status)
    steps = f"{report[1]} cycles for {report[1]} instructions, {ending(report[2])}"
    print(f"{steps}: a sequential processor takes one cycle for each")
    return DONE


def ending(status: str) -> str:
    """How a run ended. Only at the limit the status is still AOK."""
    return "cut off at the limit" if status == "AOK" else f"to the end with {status}"


def print_retirements(retirements: Sequence[Retirement]) -> None:
    print("cycle  waits  instruction")
    for each in retirements:
        waits = f"+{each.waits}" if each.waits else ""
        text = f"0x{each.address:03x}: {each.text}"
        why = ", ".join(loss.text for loss in each.losses)
        print(f"{each.cycle:>5}  {waits:>5}  {text:<31} {why}".rstrip())
    print()


def print_sums(pipeline_run: PipelineRun, retirements: Sequence[Retirement]) -> None:
    total, retired = pipeline_run.cycles, pipeline_run.retired
    spent = dict.fromkeys(CAUSES, 0)
    for loss in (loss for each in retirements for loss in each.losses):
        spent[loss.cause] += loss.cycles
    if not retirements:
        spent[OTHER] = total
    print("where the cycles went:")
    print(f"{retired:>7}  an instruction each")
    for cause, cycles in spent.items():
        if cycles:
            print(f"{cycles:>7}  {cause}")
    rest = total - retired - sum(spent.values())
    if rest:
        print(f"{rest:>7}  after the last instruction")
    per_instruction = f": {total / retired:.2f} cycles per instruction" if retired else ""
    print(f"{total:>7}  cycles for {retired} instructions, {ending(pipeline_run.status)}{per_instruction}")


COMMAND = Command("cycles", "shows where the cycles of a run went", add_arguments, run)
