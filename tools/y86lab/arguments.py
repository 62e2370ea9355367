"""Arguments that several commands share, and the tests of their values."""
from __future__ import annotations

import argparse
import os
from dataclasses import dataclass
from typing import Callable

from .calls import Programs
from .errors import USAGE, LabError

MOST = 1000000
# Longer ones are numbers that no option takes.
MOST_DIGITS = 40
# What files are that aren't HCL, by the ends of their names.
OTHERS = {".yo": "an object file", ".ys": "a program"}


@dataclass(frozen=True)
class Command:
    """A command of the lab."""

    name: str
    summary: str
    add_arguments: Callable[[argparse.ArgumentParser], None]
    run: Callable[[argparse.Namespace, Programs], int]


def digits(text: str) -> int:
    if not text.isascii() or not text.isdigit() or len(text) > MOST_DIGITS:
        raise argparse.ArgumentTypeError(f"{text}: a number is wanted")
    return int(text)


def number_to(most: int) -> Callable[[str], int]:
    """The type of an option that takes a number from 1 to the largest."""

    def number(text: str) -> int:
        value = digits(text)
        if not 1 <= value <= most:
            raise argparse.ArgumentTypeError(f"{text}: a number from 1 to {most} is wanted")
        return value

    return number


def memory_size(text: str) -> int:
    value = digits(text)
    if value % 8 or not 64 <= value <= 1048576:
        raise argparse.ArgumentTypeError(f"{text}: a multiple of 8 from 64 to 1048576 is wanted")
    return value


def add_full(parser: argparse.ArgumentParser) -> None:
    parser.add_argument("--full", action="store_true", help="iaddq is one of the instructions")


def add_run_options(parser: argparse.ArgumentParser) -> None:
    """The options of a run, as `psim` has them."""
    add_full(parser)
    parser.add_argument(
        "--mem", type=memory_size, metavar="N",
        help="the size of the memory: a multiple of 8 from 64 to 1048576 (default 8192)",
    )
    parser.add_argument(
        "--limit", type=number_to(100000000), metavar="N", help="the most cycles: 1 to 100000000 (default 10000)"
    )


def run_options(arguments: argparse.Namespace) -> list[str]:
    """The options of a run as words of a call."""
    limit = ["--limit", str(arguments.limit)] if arguments.limit is not None else []
    return [*file_options(arguments), *limit]


def file_options(arguments: argparse.Namespace) -> list[str]:
    """Those of them by which a program's file is read."""
    memory = ["--mem", str(arguments.mem)] if arguments.mem is not None else []
    return [*(["--full"] if arguments.full else []), *memory]


def stop_on_program(path: str, call: str) -> None:
    """Raises an error if a file that has to be HCL is none by its name, with the right call."""
    what = OTHERS.get(os.path.splitext(path)[1])
    if what:
        raise LabError(f"{path} is {what}, not HCL. The call is `y86-lab {call}`.", USAGE)
