"""Work on many hand-ins at once, with a bar on a terminal."""
from __future__ import annotations

import argparse
import os
import sys
from concurrent.futures import ThreadPoolExecutor
from typing import Callable, Iterable, TypeVar

from .arguments import MOST, number_to
from .calls import Limits

WIDTH = 40
Thing = TypeVar("Thing")
Result = TypeVar("Result")


def add_limits(parser: argparse.ArgumentParser) -> None:
    """The options of a command that calls programs on many files."""
    number, processors = number_to(MOST), os.cpu_count() or 1
    parser.add_argument(
        "--jobs", type=number, default=processors, metavar="N", help="how many at once (default: all processors)"
    )
    parser.add_argument(
        "--seconds", type=number, default=60, metavar="N", help="the processor time of a call (default 60)"
    )
    parser.add_argument(
        "--megabytes", type=number, default=2000, metavar="N", help="the memory of a call (default 2000)"
    )


def limits_of(arguments: argparse.Namespace) -> Limits:
    return Limits(arguments.seconds, arguments.megabytes)


def all_results(work: Callable[[Thing], Result], things: Iterable[Thing], jobs: int) -> list[Result]:
    """The results, in the order of the things."""
    waiting, results = list(things), []
    with ThreadPoolExecutor(jobs) as pool:
        try:
            for result in pool.map(work, waiting):
                results.append(result)
                show_progress(len(results), len(waiting))
        except BaseException:
            pool.shutdown(wait=False, cancel_futures=True)
            raise
    return results


def show_progress(done: int, total: int) -> None:
    """A bar on standard error, if that is a terminal."""
    if sys.stderr.isatty():
        width = WIDTH * done // total
        end = "\n" if done == total else ""
        print(f"\r[{'#' * width}{' ' * (WIDTH - width)}] {done} of {total}", end=end, file=sys.stderr, flush=True)
