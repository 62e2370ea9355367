"""y86-lab swap HCL DEFINITIONS: an HCL file with other definitions in the place of those of the same names."""
from __future__ import annotations

import argparse
import os
import shutil
import sys
import tempfile

from .. import hcl, tell
from ..arguments import Command, stop_on_program
from ..calls import Programs, read_exactly
from ..errors import DONE, FAULT, LabError


def add_arguments(parser: argparse.ArgumentParser) -> None:
    parser.add_argument("file", metavar="HCL", help="the file whose definitions are replaced")
    parser.add_argument("definitions", metavar="DEFINITIONS", help="a file with the new definitions")
    parser.add_argument("-i", "--in-place", action="store_true", help="write the file in place of printing it")


def run(arguments: argparse.Namespace, programs: Programs) -> int:
    design, others = (read_design(programs, path) for path in (arguments.file, arguments.definitions))
    for second in others.definitions:
        first = others.by_name[second.name]
        if second is not first:
            place = f"{arguments.definitions}:{others.line(second.name_start)}:{others.column(second.name_start)}"
            line = others.line(first.name_start)
            told = f"`{second.name}` is defined a second time; its first definition is in line {line}."
            raise LabError(f"{place}: {told}", FAULT)
    text = hcl.replaced(design, others)
    if arguments.in_place:
        write(arguments.file, text)
    else:
        sys.stdout.flush()
        sys.stdout.buffer.write(encoded(text))
    return DONE


def read_design(programs: Programs, path: str) -> hcl.Design:
    """The design of a file. If it isn't HCL, y86-tell says where."""
    stop_on_program(path, "swap HCL DEFINITIONS")
    design = hcl.design_of(read_exactly(path))
    if design is None:
        said = tell.reason(programs, programs.run("hcl", path), path, [], "pipe")
        raise LabError(said or f"{path}: this isn't HCL", FAULT)
    return design


def encoded(text: str) -> bytes:
    return text.encode("utf-8", "surrogateescape")


def write(path: str, text: str) -> None:
    """Puts a text in the place of a file's, all of it or nothing."""
    target = os.path.realpath(path)
    try:
        with tempfile.NamedTemporaryFile(dir=os.path.dirname(target), delete=False) as file:
            file.write(encoded(text))
        shutil.copymode(target, file.name)
        os.replace(file.name, target)
    except OSError as fault:
        raise LabError(f"{path}: {fault.strerror}") from fault


COMMAND = Command("swap", "replaces definitions of a file by those of another", add_arguments, run)
