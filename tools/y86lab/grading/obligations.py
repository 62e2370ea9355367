"""Which obligations are false of a file.

y86-tell says all of them. If it doesn't, `mending` finds those of a sequential processor.
If neither helps, the first one alone is known, by y86.
"""
from __future__ import annotations

from dataclasses import dataclass
from typing import Optional

from .. import hcl, tell
from ..calls import Answer, Limits, Programs, full_flag, read_text
from ..errors import DONE, FAULT, MEMORY, REFUSED, TOO_LONG
from .mending import Mending


@dataclass(frozen=True)
class Verdict:
    """The labels that are false, or why there is no verdict: a fault of the file, or no answer within the limits."""

    false: tuple[str, ...]
    fault: str
    is_complete: bool
    datapath: str
    is_answered: bool = True


def design_of(path: str) -> Optional[hcl.Design]:
    try:
        return hcl.design_of(read_text(path))
    except RecursionError:
        return None


def verdict(programs: Programs, path: str, full: bool, limits: Limits, right: Optional[hcl.Design] = None) -> Verdict:
    """What holds of a file. A right file helps to find all that is false of a sequential processor."""
    datapath = tell.datapath_if_read(programs, path, limits) or "pipe"
    told = told_as_false(programs, datapath, path, full, limits)
    if told is not None:
        return Verdict(told, "", True, datapath)
    answer = programs.run("check", datapath, path, *full_flag(full), limits=limits)
    if answer.status == DONE:
        return Verdict((), "", True, datapath)
    if answer.status != REFUSED or not answer.out.startswith("no "):
        return Verdict((), fault_in_words(answer), True, datapath, answer.status in (FAULT, TOO_LONG))
    first = answer.out.split()[1]
    others: tuple[str, ...] = ()
    design = design_of(path) if datapath != "pipe" and right else None
    if design and right:
        signals = tell.Table(programs).signals_by_label(datapath)
        others = Mending(programs, datapath, full, limits, right, signals).all_false(design, first)
    return Verdict(others or (first,), "", bool(others), datapath)


def told_as_false(
    programs: Programs, datapath: str, path: str, full: bool, limits: Limits
) -> Optional[tuple[str, ...]]:
    """All false obligations by y86-tell, none after a yes; None if it doesn't decide them within the limits."""
    answer, said = tell.check(programs, datapath, path, full, limits)
    if answer.status == DONE:
        return ()
    if answer.status != REFUSED or "refuted" not in said:
        return None
    return tuple(str(each["obligation"]["label"]) for each in said["refuted"])


def fault_in_words(answer: Answer) -> str:
    if answer.status in (FAULT, TOO_LONG):
        return answer.err.strip()
    reasons = {None: "the check gave no answer in time", MEMORY: "the check ran out of memory"}
    return reasons.get(answer.status, answer.err.strip() or "the check gave no answer")
