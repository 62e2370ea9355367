"""Whether solvers agree with `check pipe` on files."""
from __future__ import annotations

import re
import tempfile
from dataclasses import dataclass
from typing import Sequence

from ..calls import Programs, full_flag
from ..errors import DONE, REFUSED
from .network import Network, clauses_below, clauses_of, network_of
from .solvers import OF_CLAUSES, can_be_met, can_be_one

# The kinds of the stages and the fields of a situation in the order of its bits, with the width of each.
KINDS = (("D", 2), ("E", 2), ("M", 1), ("W", 1))
KIND_NAMES = ("bubble", "good", "wrong")
FIELDS = {
    "F": "error:1 icode:4 ifun:4 taken:1 stops:1 back:1",
    "D": "stat:3 icode:4 ifun:4 rA:4 rB:4 taken:1 stops:1 back:1",
    "E": "stat:3 icode:4 ifun:4 dstE:4 dstM:4 srcA:4 srcB:4 cnd:1 stops:1 back:1",
    "M": "stat:3 icode:4 ifun:4 dstE:4 dstM:4 cnd:1 error:1 back:1",
    "W": "stat:3 icode:4 dstE:4 dstM:4",
}


@dataclass(frozen=True)
class Confirmation:
    """A row of the table, and whether all agree."""

    row: str
    is_well: bool


def bits_of(number: int, width: int) -> list[int]:
    return [number >> (width - 1 - place) & 1 for place in range(width)]


def situation_bits(lines: Sequence[str]) -> list[int]:
    """The bits of a situation as `check pipe` prints it."""
    rows = {line.split()[0]: line for line in lines}
    bits: list[int] = []
    for stage, width in KINDS:
        bits += bits_of(KIND_NAMES.index(rows[stage].split()[1]), width)
    for stage, fields in FIELDS.items():
        for field in fields.split():
            name, _, width_text = field.partition(":")
            match = re.search(rf"\b{name}=(\d+)", rows[stage])
            if not match:
                raise ValueError(f"the situation has no {name} in {stage}")
            bits += bits_of(int(match[1]), int(width_text))
    return bits + [int(truth) for truth in re.findall(r"\)=([01])", rows["atoms"])]


def confirm(programs: Programs, name: str, path: str, full: bool, solvers: Sequence[str]) -> Confirmation:
    """Whether the solvers agree with `check pipe` on a file."""
    check = programs.check("pipe", path, full)
    written = programs.run("aig", path, *full_flag(full))
    if check.status not in (DONE, REFUSED):
        is_same = (written.status, written.err) == (check.status, check.err)
        said = "`aig` says the same" if is_same else "`aig` SAYS OTHERWISE"
        return Confirmation(f"| `{name}` | no design for PIPE | {said} | |", is_same)
    answer, network = check.out.splitlines(), network_of(written.out)
    is_yes = answer[0].startswith("yes")
    false = None if is_yes else network.output_named(answer[0][3:])
    held = len(network.outputs) if false is None else false
    agreements = []
    with tempfile.TemporaryDirectory() as folder:
        for solver in solvers:
            agrees = not any(can_be_one(solver, written.out, network, output, folder) for output in range(held))
            agrees = agrees and (false is None or can_be_one(solver, written.out, network, false, folder))
            agreements.append((solver, agrees))
        told = "; ".join(f"{solver} {'agrees' if agrees else 'DISAGREES'}" for solver, agrees in agreements)
        model = "" if false is None else model_of(network, false, situation_bits(answer[1:]), solvers, folder)
    is_well = all(agrees for _, agrees in agreements) and model != WRONG_MODEL
    return Confirmation(f"| `{name}` | {answer[0]} | {told} | {model} |", is_well)


WRONG_MODEL = "NOT THE LEAST MODEL"


def model_of(network: Network, false: int, bits: list[int], solvers: Sequence[str], folder: str) -> str:
    """Whether the printed situation is a model of the output, and the least one."""
    values = network.values(bits)
    if not values[false] or any(values[:false]):
        return WRONG_MODEL
    below, variables = clauses_below(network, bits)
    of_clauses = [solver for solver in solvers if solver in OF_CLAUSES]
    if any(can_be_met(solver, clauses_of(network, false) + below, variables, folder) for solver in of_clauses):
        return WRONG_MODEL
    return "a model, and the least" if of_clauses else "a model"
