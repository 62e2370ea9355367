"""y86-lab watch FILE: explains an HCL file, or assembles a program, again at each save."""
from __future__ import annotations

import argparse
import os
import sys
import time
from typing import Optional

from .. import tell
from ..arguments import MOST, Command, add_full, number_to, stop_on_program
from ..calls import Programs, full_flag
from ..errors import DONE, UNREADABLE, LabError
from . import explain

SECONDS_BETWEEN = 0.2
CLEAR = "\x1b[2J\x1b[3J\x1b[H"


def add_arguments(parser: argparse.ArgumentParser) -> None:
    parser.add_argument("file", metavar="FILE", help="an HCL file, or an assembly file (.ys)")
    parser.add_argument("--places", action="store_true", help="the places alone, as explain --places prints them")
    parser.add_argument("--times", type=number_to(MOST), metavar="N", help="end after N answers")
    add_full(parser)


def stamp(path: str) -> Optional[tuple[int, int, int]]:
    """What changes when a file is saved; None if it isn't there."""
    try:
        stat = os.stat(path)
    except OSError:
        return None
    return stat.st_mtime_ns, stat.st_size, stat.st_ino


def run(arguments: argparse.Namespace, programs: Programs) -> int:
    if not arguments.file.endswith(".ys"):
        stop_on_program(arguments.file, "watch HCL")
    answers, last = 0, None
    while True:
        # (an editor may take the file away for a moment)
        now = stamp(arguments.file)
        if now is None and not answers:
            raise LabError(f"{arguments.file}: No such file or directory", UNREADABLE)
        if now is None or now == last:
            time.sleep(SECONDS_BETWEEN)
            continue
        last = now
        if sys.stdout.isatty():
            print(CLEAR, end="")
        # (editors go by this line and the last one)
        print(f"-- {arguments.file} at {time.strftime('%H:%M:%S')}", flush=True)
        answer(arguments, programs)
        answers += 1
        if answers == arguments.times:
            return DONE
        print("-- again at the next save; Ctrl-C ends it", flush=True)


def answer(arguments: argparse.Namespace, programs: Programs) -> None:
    """Prints the answer on the file as it is now."""
    try:
        if not arguments.file.endswith(".ys"):
            explain.run(arguments, programs)
            return
        flags = full_flag(arguments.full)
        assembled = programs.run("yas", arguments.file, *flags)
        print(assembled.out or tell.faults_in_words(programs, arguments.file, flags) or assembled.err.strip())
    except LabError as fault:
        print(fault)


COMMAND = Command("watch", "answers again at each save of a file", add_arguments, run)
