"""y86-lab page HCL [OBJ]: an HTML file that shows a run by stages and cycles, or the situation of a `no`.

The page is made of the same modules as the workbench for a browser, in web/.
"""
from __future__ import annotations

import argparse
import json
import os
import subprocess
import sys
from typing import Any

from .. import tell
from ..arguments import Command, add_run_options, run_options, stop_on_program
from ..calls import LONG, Limits, Programs, full_flag, read_text
from ..errors import DONE, OUT_OF_TIME, REFUSED, USAGE, LabError

# A page of more cycles would be slow to read and to open.
MOST_CYCLES = 1000
STAGES = "y86-stages"
# (a y86-stages that doesn't know SEQ)
ALONE = "the page of a run is there for PIPE alone"
# What the page shows: web/src/viewer.mjs reads it.
Data = dict[str, Any]


def add_arguments(parser: argparse.ArgumentParser) -> None:
    parser.add_argument("file", metavar="HCL", help="the processor; without OBJ one that the check refuses")
    parser.add_argument("object", metavar="OBJ", nargs="?", help="the object file to run")
    parser.add_argument("-o", "--output", metavar="FILE", help="the page to write")
    add_run_options(parser)


def run(arguments: argparse.Namespace, programs: Programs) -> int:
    stop_on_program(arguments.file, "page HCL [OBJ]")
    files = [arguments.file, arguments.object] if arguments.object else [arguments.file]
    if arguments.object:
        title, data, said = run_data(programs, arguments.file, arguments.object, run_options(arguments))
    else:
        title, data, said = refusal_data(programs, arguments.file, arguments.full)
    output = arguments.output or "-".join(os.path.splitext(os.path.basename(path))[0] for path in files) + ".html"
    try:
        with open(output, "w", encoding="utf-8", errors="replace") as file:
            file.write(page_with(programs, title, data))
    except OSError as fault:
        raise LabError(f"{output}: {fault.strerror}") from fault
    print(f"{output}: {said}")
    return DONE


def page_with(programs: Programs, title: str, data: Data) -> str:
    """The page, which web/viewer.py puts together."""
    script = os.path.join(programs.top, "web", "viewer.py")
    if not os.path.isfile(script):
        raise LabError(f"a page needs {script}, which isn't there")
    made = subprocess.run(
        [sys.executable, "-B", script],
        input=json.dumps({"title": title, "data": data}).encode(),
        capture_output=True,
        check=False,
    )
    if made.returncode:
        raise LabError(made.stderr.decode("utf-8", "replace").strip().rpartition("\n")[2])
    return made.stdout.decode("utf-8")


def run_texts(programs: Programs, path: str, object_path: str, options: list[str]) -> Data:
    """A run by cycles: what y86-stages prints of it, and the object file."""
    read_text(path)
    datapath = tell.datapath(programs, path)
    if not programs.is_there(STAGES):
        named = programs.named(STAGES)
        told = f"a run by cycles needs the program {STAGES}, and {named} isn't there"
        raise LabError(f"{told}; Y86_STAGES in the environment may name it")
    tell.stop_on_fault(programs, object_path, options)
    words = [path, object_path, *options, "--to", str(MOST_CYCLES)]
    if datapath != "pipe":
        words.append(f"--{datapath}")
    answer = programs.run(*words, program=STAGES, limits=Limits(LONG))
    if datapath != "pipe" and answer.status == USAGE:
        raise LabError(f"{path}: {ALONE}, and this file is one for {tell.DATAPATHS[datapath]}")
    if answer.status not in (DONE, REFUSED) or "\nend " not in f"\n{answer.out}":
        status = OUT_OF_TIME if answer.status is None else answer.status or REFUSED
        raise LabError(tell.reason(programs, answer, path, options, datapath) or f"{STAGES} gave no answer", status)
    diagram = programs.run(*words, "--diagram", program=STAGES, limits=Limits(LONG)).out if datapath == "pipe" else ""
    names = {"hcl": os.path.basename(path), "ys": os.path.basename(object_path)}
    with open(object_path, encoding="utf-8", errors="replace") as file:
        text = file.read()
    return {"names": names, "path": datapath, "lines": answer.out, "diagram": diagram, "object": text}


def run_data(programs: Programs, path: str, object_path: str, options: list[str]) -> tuple[str, Data, str]:
    """The title of a run's page, its data, and what to say of it."""
    data = run_texts(programs, path, object_path, options)
    status, *words = data["lines"].rstrip("\n").rpartition("\n")[2].removeprefix("end ").split(" ")
    cycles = int(words[words.index("cycles") + 1])
    rest = f"; the page has the first {MOST_CYCLES}" if cycles > MOST_CYCLES else ""
    title = f"{data['names']['ys']} under {data['names']['hcl']}"
    return title, data, f"{cycles} cycles, ended with {status}{rest}"


def refusal_data(programs: Programs, path: str, full: bool) -> tuple[str, Data, str]:
    """The title of the page of a `no`, its data, and what to say of it."""
    text = read_text(path)
    datapath = tell.datapath(programs, path)
    answer = programs.check(datapath, path, full)
    if answer.status == DONE:
        raise LabError(f"{path}: yes, so there is no situation to draw; with an object file the page shows its run")
    if answer.status != REFUSED:
        status = OUT_OF_TIME if answer.status is None else answer.status
        said = tell.reason(programs, answer, path, full_flag(full), datapath)
        raise LabError(said or f"{path}: the check gave no answer", status)
    lines = answer.out.splitlines()
    said = f"no, {lines[0].split()[1]} doesn't hold"
    names = {"hcl": os.path.basename(path), "ys": ""}
    told = tell.check(programs, datapath, path, full)[0].out
    data = {"names": names, "path": datapath, "hcl": text, "refusal": lines, "told": told, "isFull": full}
    return f"{names['hcl']}: {said}", data, said


COMMAND = Command("page", "draws a run cycle by cycle, or the situation of a no, into an HTML file", add_arguments, run)
