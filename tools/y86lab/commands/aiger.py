"""y86-lab aig ..: AIGER files of `y86 aig` as CNF, as BLIF, and a check of an answer by solvers that are installed."""
from __future__ import annotations

import argparse
import os
import subprocess
import sys
import tempfile
from typing import Iterator

from .. import hcl
from ..aig import network, solvers
from ..aig.broken import broken_files
from ..aig.confirm import confirm
from ..arguments import Command, add_full, digits
from ..calls import Programs, read_text
from ..errors import DONE, REFUSED, USAGE, LabError


def add_arguments(parser: argparse.ArgumentParser) -> None:
    kinds = parser.add_subparsers(dest="kind", metavar="KIND", required=True)
    as_cnf = kinds.add_parser("cnf", help="an output as DIMACS CNF: satisfiable if the output can be 1")
    as_cnf.add_argument("file", metavar="AAG", help="a file of y86 aig")
    as_cnf.add_argument("number", metavar="OUTPUT", type=digits, help="the number of the output, from 0")
    as_blif = kinds.add_parser("blif", help="the file as BLIF")
    as_blif.add_argument("file", metavar="AAG", help="a file of y86 aig")
    asks = kinds.add_parser("confirm", help="asks solvers whether they agree with check pipe")
    asks.add_argument("files", metavar="HCL", nargs="*", help="a file for PIPE")
    asks.add_argument(
        "--broken", metavar="ROWS", action="append", default=[],
        help="the files of rows such as tests/rows/obligations.txt, which break an obligation each",
    )
    asks.add_argument(
        "--solver", metavar="NAME", action="append", default=[], choices=solvers.SOLVERS,
        help=f"a solver to ask; else all that are installed of {', '.join(solvers.SOLVERS)}",
    )
    add_full(asks)


def run(arguments: argparse.Namespace, programs: Programs) -> int:
    if arguments.kind == "confirm":
        return confirm_all(arguments, programs)
    try:
        read = network.network_of(read_text(arguments.file))
        if arguments.kind == "cnf":
            if arguments.number >= len(read.outputs):
                raise ValueError(f"it has {len(read.outputs)} outputs, from 0 on")
            sys.stdout.write(network.cnf(read, arguments.number))
        else:
            sys.stdout.write(network.blif(read))
    except (ValueError, IndexError, TypeError) as fault:
        raise LabError(f"{arguments.file}: {fault}", USAGE) from fault
    return DONE


def confirm_all(arguments: argparse.Namespace, programs: Programs) -> int:
    """Prints a row for each file, and whether all agree."""
    asked = solvers.installed(arguments.solver)
    if not asked:
        print(f"skipped: no solver is installed ({', '.join(arguments.solver or solvers.SOLVERS)})")
        return DONE
    print("| file | `check pipe` | solvers | printed situation |\n|---|---|---|---|")
    confirmed = failed = 0
    with tempfile.TemporaryDirectory() as folder:
        files = [(os.path.basename(path), path) for path in arguments.files]
        files += [file for rows in arguments.broken for file in made_files(programs, rows, folder)]
        for name, path in files:
            try:
                confirmation = confirm(programs, name, path, arguments.full, asked)
            except (solvers.SolverFault, subprocess.TimeoutExpired, ValueError) as fault:
                raise LabError(f"{name}: {fault}") from fault
            print(confirmation.row, flush=True)
            confirmed += confirmation.is_well
            failed += not confirmation.is_well
    print(f"\n{confirmed} confirmed, {failed} not")
    return REFUSED if failed else DONE


def made_files(programs: Programs, rows: str, folder: str) -> Iterator[tuple[str, str]]:
    """The files of rows that break an obligation of PIPE, made in a folder."""
    for broken in broken_files(read_text(rows)):
        if not broken.obligation.startswith("O"):
            continue
        base = hcl.Design(read_text(os.path.join(programs.examples, "designs", broken.base)))
        path = os.path.join(folder, f"{broken.obligation}.hcl")
        with open(path, "w", encoding="utf-8") as file:
            file.write(hcl.replaced(base, hcl.Design(broken.definitions)))
        yield f"{broken.obligation}: {broken.base}, changed", path


SUMMARY = "translates the obligations for outside solvers, and asks the solvers"
COMMAND = Command("aig", SUMMARY, add_arguments, run)
