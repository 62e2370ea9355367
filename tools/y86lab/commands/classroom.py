"""y86-lab class FOLDER: checks every HCL file of a folder and of the folders in it: a CSV with a row for each."""
from __future__ import annotations

import argparse
import csv
import os
import re
import sys
import time
from concurrent.futures import ThreadPoolExecutor
from dataclasses import astuple, dataclass
from typing import Iterator, Optional

from .. import tell
from ..arguments import MOST, Command, add_full, number_to
from ..calls import Answer, Limits, Programs, full_flag
from ..cells import cell
from ..errors import DONE, FAULT, MEMORY, REFUSED, TOO_LONG, UNREADABLE, USAGE, LabError

HEAD = ["file", "datapath", "verdict", "obligation", "fault", "settings", "cycles", "seconds"]
# The longest text that `y86` takes.
LONGEST = 65536


@dataclass
class Row:
    """A row of the table, in the order of HEAD."""

    file: str
    datapath: str = ""
    verdict: str = "unreadable"
    obligation: str = ""
    fault: str = ""
    settings: str = ""
    cycles: str = ""
    seconds: str = "0.0"


def add_arguments(parser: argparse.ArgumentParser) -> None:
    number = number_to(MOST)
    parser.add_argument("places", metavar="FOLDER", nargs="+", help="a folder of HCL files, or a file")
    parser.add_argument("--jobs", type=number, default=1, metavar="N", help="how many files at once (default 1)")
    parser.add_argument(
        "--seconds", type=number, default=60, metavar="N", help="the processor time of a call (default 60)"
    )
    parser.add_argument(
        "--megabytes", type=number, default=2000, metavar="N", help="the memory of a call (default 2000)"
    )
    parser.add_argument("--no-head", action="store_true", help="no row with the names of the columns")
    add_full(parser)


def run(arguments: argparse.Namespace, programs: Programs) -> int:
    missing = [place for place in arguments.places if not os.path.lexists(place)]
    if missing:
        raise LabError("\n".join(f"{place}: no such folder or file" for place in missing), USAGE)
    limits = Limits(arguments.seconds, arguments.megabytes)
    programs.path("y86")
    verdicts = set()
    # (a name may have bytes that aren't UTF-8)
    with open(sys.stdout.fileno(), "w", encoding="utf-8", errors="surrogateescape", newline="", closefd=False) as out:
        table = csv.writer(out, lineterminator="\n")
        if not arguments.no_head:
            table.writerow(HEAD)
        with ThreadPoolExecutor(arguments.jobs) as pool:
            places = files_of(arguments.places)
            check = Checker(programs, tell.Table(programs), arguments.full, limits)
            for row, note in pool.map(check.row, places):
                table.writerow([cell(value) for value in astuple(row)])
                out.flush()
                verdicts.add(row.verdict)
                if note:
                    warn(f"{row.file}: {note}")
    return status_of(verdicts)


def status_of(verdicts: set[str]) -> int:
    """0 if each file is a yes, 1 if some file is a no or has a fault, 3 if some has no verdict."""
    if verdicts <= {"yes"}:
        return DONE
    return REFUSED if verdicts <= {"yes", "no", "fault"} else UNREADABLE


def warn(text: str) -> None:
    print(text, file=sys.stderr)


def files_of(places: list[str]) -> Iterator[tuple[str, str]]:
    """The HCL files of these places, each with the name that its row has."""
    for place in places:
        if not os.path.isdir(place):
            yield place, place
            continue
        for folder, folders, names in os.walk(place, onerror=lambda fault: warn(f"{fault.filename}: {fault.strerror}")):
            folders.sort()
            for name in sorted(names):
                path = os.path.join(folder, name)
                shown = os.path.relpath(path, place)
                if name.endswith(".hcl"):
                    yield path, shown
                else:
                    warn(f"{shown}: passed over, for its name doesn't end with `.hcl`")


def text_of(path: str) -> Optional[str]:
    """The text of a regular file whose name `y86` takes; None of others."""
    try:
        path.encode()
        if not os.path.isfile(path):
            return None
        with open(path, encoding="utf-8", errors="replace") as file:
            return file.read(LONGEST)
    except (OSError, UnicodeEncodeError):
        return None


@dataclass(frozen=True)
class Checker:
    """Checks files of a class, each with the same limits."""

    programs: Programs
    table: tell.Table
    full: bool
    limits: Limits

    def row(self, place: tuple[str, str]) -> tuple[Row, str]:
        """The row of a file, and what wasn't asked of it. Whatever the file does, the row is there."""
        path, name = place
        text, start = text_of(path), time.monotonic()
        row = Row(name)
        if text is None:
            return row, ""
        row.datapath = self.datapath(path, text)
        datapath = row.datapath or "pipe"
        set_verdict(row, self.programs.run("check", datapath, path, *full_flag(self.full), limits=self.limits))
        if row.verdict == "yes" and datapath == "pipe":
            row.cycles = cycles_of_examples(self.programs, path, self.full, self.limits)
        row.seconds = f"{time.monotonic() - start:.1f}"
        return row, tell.unasked(text, self.full) if row.verdict in ("yes", "no") else ""

    def datapath(self, path: str, text: str) -> str:
        """The datapath that a file is for; empty if no name in it shows one."""
        named = self.table.datapath_by_names(text)
        return named and (tell.datapath_if_read(self.programs, path, self.limits) or named)


def set_verdict(row: Row, answer: Answer) -> None:
    """Puts what the check says into a row."""
    words = answer.out.split()
    if answer.status == DONE:
        row.verdict, row.settings = "yes", " ".join(words[1:])
    elif answer.status == REFUSED and words[:1] == ["no"]:
        row.verdict, row.obligation = "no", words[1]
    elif answer.status in (FAULT, TOO_LONG):
        match = re.search(r"\.hcl:(.*)", answer.err)
        row.verdict, row.fault = "fault", match[1].strip() if match else answer.err.strip()
    else:
        without = {None: "time", UNREADABLE: "unreadable", MEMORY: "memory"}
        row.verdict = without.get(answer.status, "stopped")


def cycles_of_examples(programs: Programs, path: str, full: bool, limits: Limits) -> str:
    """The cycles of the example programs under a pipeline, all together; empty if one gives no report."""
    total, folder = 0, os.path.join(programs.examples, "programs")
    for name in sorted(os.listdir(folder)):
        if name.endswith(".yo"):
            answer = programs.run("psim", path, os.path.join(folder, name), *full_flag(full), limits=limits)
            ran = re.search(r"^Ran (\d+) cycles", answer.out, re.M)
            if not ran:
                return ""
            total += int(ran[1])
    return str(total)


COMMAND = Command("class", "checks every HCL file of a folder, and prints a CSV table", add_arguments, run)
