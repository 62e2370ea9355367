"""y86-lab draw HCL OBJ: the diagram of a run, or one cycle of it, as SVG for slides.

The drawing is that of the workbench for a browser, in web/src/draw/, which Node runs.
"""
from __future__ import annotations

import argparse
import json
import os
import shutil
import subprocess

from ..arguments import Command, add_run_options, run_options, stop_on_program
from ..calls import Programs
from ..errors import DONE, LabError
from .page import run_texts


def add_arguments(parser: argparse.ArgumentParser) -> None:
    parser.add_argument("file", metavar="HCL", help="the processor")
    parser.add_argument("object", metavar="OBJ", help="the object file to run")
    parser.add_argument("--cycle", metavar="N", type=int, help="the datapath in this cycle, in place of the diagram")
    parser.add_argument("--dark", action="store_true", help="in light colours on a dark ground")
    parser.add_argument("-o", "--output", metavar="FILE", help="the picture to write")
    add_run_options(parser)


def run(arguments: argparse.Namespace, programs: Programs) -> int:
    stop_on_program(arguments.file, "draw HCL OBJ")
    node = shutil.which("node") or shutil.which("nodejs")
    script = os.path.join(programs.top, "web", "draw.mjs")
    if not node:
        raise LabError("a picture needs Node (https://nodejs.org); the workbench in a browser saves the same one")
    data = run_texts(programs, arguments.file, arguments.object, run_options(arguments))
    asked = {**data, "cycle": arguments.cycle or 0, "isDark": arguments.dark}
    drawn = subprocess.run([node, script], input=json.dumps(asked), capture_output=True, text=True, check=False)
    if drawn.returncode:
        raise LabError(drawn.stderr.strip().rpartition("\n")[2])
    stems = [os.path.splitext(name)[0] for name in (data["names"]["ys"], data["names"]["hcl"])]
    what = f"cycle{arguments.cycle}" if arguments.cycle else "diagram"
    output = arguments.output or f"{'-'.join(stems)}-{what}.svg"
    try:
        with open(output, "w", encoding="utf-8") as file:
            file.write(drawn.stdout)
    except OSError as fault:
        raise LabError(f"{output}: {fault.strerror}") from fault
    print(f"{output}: {what}")
    return DONE


COMMAND = Command("draw", "draws a run's diagram, or one cycle, as SVG", add_arguments, run)
