"""What y86-tell says of files, and of the machine: read from its JSON (docs/TELL.md)."""
from __future__ import annotations

import json
import re
from dataclasses import dataclass
from typing import Any, Optional, Sequence

from .calls import LONG, Answer, Limits, Programs, full_flag
from .errors import FAULT, REFUSED, LabError
from .hcl import without_comments

NAME = "y86-tell"
DATAPATHS = {"pipe": "PIPE", "seq": "SEQ", "seqplus": "SEQ+"}
Json = dict[str, Any]


def asked(programs: Programs, *words: str, limits: Limits = Limits(LONG)) -> tuple[Answer, Json]:
    """An answer of y86-tell, and its JSON; empty if it has none."""
    answer = programs.run(*words, program=NAME, limits=limits)
    try:
        said = json.loads(answer.out)
    except ValueError:
        said = {}
    return answer, said if isinstance(said, dict) else {}


def check(programs: Programs, word: str, path: str, full: bool, limits: Limits = Limits(LONG)) -> tuple[Answer, Json]:
    """The verdict on a file for a datapath, and what y86-tell says of it as JSON."""
    return asked(programs, "check", word, "--json", *full_flag(full), "--", path, limits=limits)


def check_in_words(programs: Programs, word: str, path: str, full: bool) -> Answer:
    """The same in sentences."""
    return programs.run("check", word, *full_flag(full), "--", path, program=NAME, limits=Limits(LONG))


def faults_in_words(programs: Programs, path: str, options: Sequence[str]) -> str:
    """A line for each fault of a file; `no fault` if there is none."""
    return programs.run("fault", *options, "--", path, program=NAME, limits=Limits(LONG)).out.strip()


def reason(programs: Programs, answer: Answer, path: str, options: Sequence[str], word: str = "") -> str:
    """Why a call gave no result: what y86-tell says if this file has a fault, and else what the call said.

    The file is HCL for the datapath `word`, or a program if there is none.
    """
    if answer.status != FAULT or not answer.err.startswith(f"{path}:"):
        return answer.err.strip()
    # (of HCL the check says it: `fault` goes by the file's name, and doesn't know what the check alone refuses)
    full = "--full" in options
    said = check_in_words(programs, word, path, full).err if word else faults_in_words(programs, path, options)
    return said.strip() or answer.err.strip()


def stop_on_fault(programs: Programs, path: str, options: Sequence[str]) -> None:
    """Raises an error if an object file has a fault, or is a source: that would be taken for an empty program."""
    answer = programs.run("program", *options, "--", path, program=NAME, limits=Limits(LONG))
    if answer.status == FAULT:
        raise LabError(answer.err.strip(), FAULT)


def datapath_if_read(programs: Programs, path: str, limits: Limits = Limits(LONG)) -> Optional[str]:
    """The datapath that a file is for; None if it isn't HCL."""
    said = asked(programs, "fault", "--json", "--", path, limits=limits)[1]
    names = {name: word for word, name in DATAPATHS.items()}
    named = said.get("datapath")
    return names.get(named, named) if isinstance(named, str) else None


def datapath(programs: Programs, path: str) -> str:
    """The datapath that a file is for; PIPE if it isn't HCL."""
    return datapath_if_read(programs, path) or "pipe"


@dataclass(frozen=True)
class Instruction:
    """A row of the instruction table.

    A register of it is rA, rB, %rsp, or None. It goes on at valP, at valC, at valM (`ret`), or by its condition.
    """

    name: str
    usage: str
    icode: int
    ifun: int
    srcA: Optional[str]
    srcB: Optional[str]
    dstE: Optional[str]
    dstM: Optional[str]
    has_access: bool
    goes_on: Optional[str]
    needs_full: bool


class Table:
    """What y86-tell shows of the machine: its instructions, obligations and signals."""

    def __init__(self, programs: Programs) -> None:
        answer, self.shown = asked(programs, "show", "--json")
        if not self.shown:
            raise LabError(answer.err.strip() or f"{NAME} shows nothing", answer.status or REFUSED)

    def instructions(self) -> list[Instruction]:
        return [
            Instruction(
                each["name"], each["usage"], each["icode"], each["ifun"],
                each["srcA"], each["srcB"], each["dstE"], each["dstM"],
                each["mem_read"] or each["mem_write"], each["next"], each["full"],
            )
            for each in self.shown["instructions"]
        ]

    def groups(self) -> dict[str, tuple[str, ...]]:
        """The labels of the obligations by what they are about, those of PIPE first."""
        groups: dict[str, set[str]] = {}
        for each in self.shown["obligations"]:
            groups.setdefault(each["group"], set()).add(each["label"])
        return {
            name: tuple(sorted(labels, key=lambda label: (label[0], int(label[1:])))) for name, labels in groups.items()
        }

    def signals_by_label(self, word: str) -> dict[str, tuple[str, ...]]:
        """The signals that each obligation of a datapath is about."""
        return {
            each["label"]: tuple(each["signals"]) for each in self.shown["obligations"] if word in each["datapaths"]
        }

    def signals(self, word: str) -> set[str]:
        """The signals of all obligations of a datapath."""
        return {name for names in self.signals_by_label(word).values() for name in names}

    def datapath_by_names(self, text: str) -> str:
        """The datapath of which most signals are named in a text that isn't HCL; empty if none is."""
        names = set(re.findall(r"\w+", without_comments(text)))
        counts = {path: len(names & self.signals(path)) for path in ("seq", "pipe", "seqplus")}
        most = max(counts, key=lambda path: counts[path])
        return most if counts[most] else ""


def unasked(text: str, full: bool) -> str:
    """The note on a file that names `IIADDQ` and is checked without `--full`; empty for others."""
    is_named = re.search(r"\bIIADDQ\b", without_comments(text))
    return "`iaddq` wasn't checked: `--full` checks it too." if is_named and not full else ""
