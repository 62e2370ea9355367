"""A run on a pipeline: when each instruction retires, how many bubbles came before it, and why.

All of it is read from what y86-stages prints of each cycle (docs/STAGES.md).
"""
from __future__ import annotations

import re
from dataclasses import dataclass
from typing import Iterator, NamedTuple, Optional

from . import tell
from .calls import LONG, Limits, Programs, read_text
from .errors import DONE, OUT_OF_TIME, REFUSED, LabError

FILLING, LOAD_USE, UNFORWARDED, MISPREDICTED, RETURNS, OTHER = (
    "filling the pipeline", "load/use", "no forwarding", "mispredicted jumps", "returns", "other",
)
CAUSES = [FILLING, LOAD_USE, UNFORWARDED, MISPREDICTED, RETURNS, OTHER]
# What `at` says of a bubble, and a field of no register.
NOTHING = "-"
LISTED = re.compile(r"\s*0x([0-9a-fA-F]+):\s*(?:[0-9a-fA-F]{2})+\s*\|(.*)")


@dataclass(frozen=True)
class Loss:
    """Bubbles before an instruction: their cause as the sums name it, their number, and the cause of these bubbles."""

    cause: str
    cycles: int
    text: str


@dataclass(frozen=True)
class Retirement:
    """An instruction with the cycle in which it retires and the losses before it."""

    cycle: int
    waits: int
    address: int
    text: str
    losses: list[Loss]


class Slot(NamedTuple):
    """What a stage has in a cycle: the row of the diagram, the fields and signals by their names, and the text."""

    row: int
    fields: dict[str, str]
    text: str

    @property
    def is_bubble(self) -> bool:
        return self.fields["at"] == NOTHING


# The stages of a cycle by their letters.
Cycle = dict[str, Slot]


class Wait(NamedTuple):
    """Why an instruction waited: the cause as the sums name it, and with the register."""

    cause: str
    text: str


def slot_of(line: str) -> tuple[str, Slot]:
    """The stage of a line such as `D row 2 at 0x00a next stall .. | addq %rax, %rax`, and what it has."""
    head, _, text = line.partition(" | ")
    words = head.split(" ")
    fields = dict(zip(words[1::2], words[2::2]))
    return words[0], Slot(int(fields["row"]), fields, text)


def cycles_of(lines: list[str]) -> Iterator[Cycle]:
    cycle: Cycle = {}
    for line in lines:
        if line.startswith(("F ", "D ", "E ", "M ", "W ")):
            stage, slot = slot_of(line)
            cycle[stage] = slot
            if stage == "W":
                yield cycle
                cycle = {}


def sources_of(path: str) -> dict[int, str]:
    """The source text at each address of an object file."""
    matches = (LISTED.match(line) for line in read_text(path).split("\n"))
    return {int(match[1], 16): " ".join(match[2].split("#")[0].split()) for match in matches if match}


class PipelineRun:
    """A run of a program on a pipeline."""

    def __init__(self, programs: Programs, path: str, object_path: str, options: list[str]) -> None:
        answer = programs.run(path, object_path, *options, program="y86-stages", limits=Limits(LONG))
        ended = re.search(r"^end (\w+) cycles (\d+) retired (\d+)\n\Z", answer.out, re.M)
        if answer.status not in (DONE, REFUSED) or not ended:
            status = OUT_OF_TIME if answer.status is None else answer.status or REFUSED
            raise LabError(tell.reason(programs, answer, path, options, "pipe") or "y86-stages gave no answer", status)
        self.status, self.cycles, self.retired = ended[1], int(ended[2]), int(ended[3])
        self.lines = answer.out.splitlines()
        self.sources = sources_of(object_path)

    def retirements(self) -> list[Retirement]:
        """An instruction retires in each cycle in which W has it."""
        retirements: list[Retirement] = []
        bubbles: dict[int, Optional[Wait]] = {}
        before: Cycle = {}
        waits: list[Optional[Wait]] = []
        last = ""
        for number, cycle in enumerate(cycles_of(self.lines), 1):
            for stage, slot in cycle.items():
                if slot.is_bubble and slot.row not in bubbles and before:
                    bubbles[slot.row] = reason_for_bubble(before, cycle, stage)
            here = cycle["W"]
            if here.is_bubble:
                waits.append(bubbles.get(here.row))
            elif len(retirements) < self.retired:
                address = int(here.fields["at"], 16)
                losses = losses_of(last, waits) if retirements else filling(len(waits))
                text = self.sources.get(address) or here.text
                retirements.append(Retirement(number, len(waits), address, text, losses))
                last, waits = here.text, []
            before = cycle
        return retirements


def reason_for_bubble(before: Cycle, now: Cycle, stage: str) -> Optional[Wait]:
    """Why a bubble is new in a stage: why the instruction in front of it waited there, or None: it was cancelled."""
    front = "FDEMW"["FDEMW".index(stage) - 1]
    is_kept = now[front].row == before[front].row
    return reason_for_wait(before) if is_kept and front != "F" else None


def reason_for_wait(cycle: Cycle) -> Wait:
    """The register that the instruction in D waits for: the youngest older instruction that writes one has it."""
    read = {cycle["D"].fields["d_srcA"], cycle["D"].fields["d_srcB"]} - {NOTHING}
    for stage, field in (("E", "dstM"), ("E", "dstE"), ("M", "dstM"), ("M", "dstE"), ("W", "dstM"), ("W", "dstE")):
        register = cycle[stage].fields[field]
        if register in read:
            if (stage, field) == ("E", "dstM"):
                return Wait(LOAD_USE, f"{LOAD_USE}: {register}")
            return Wait(UNFORWARDED, f"{UNFORWARDED}: {register}")
    return Wait(OTHER, OTHER)


def filling(cycles: int) -> list[Loss]:
    return [Loss(FILLING, cycles, FILLING)] if cycles else []


def losses_of(last: str, waits: list[Optional[Wait]]) -> list[Loss]:
    """The causes of the bubbles behind an instruction with this text."""
    losses = []
    cancelled = waits.count(None)
    if cancelled and last == "ret":
        losses.append(Loss(RETURNS, cancelled, "return"))
    elif cancelled and last.startswith("j"):
        losses.append(Loss(MISPREDICTED, cancelled, "mispredicted jump"))
    elif cancelled:
        losses.append(Loss(OTHER, cancelled, OTHER))
    # (where it waited longer, the last reason is the one that a shorter wait would have had too)
    reasons = [wait for wait in waits if wait]
    return [*losses, Loss(reasons[-1].cause, len(reasons), reasons[-1].text)] if reasons else losses
