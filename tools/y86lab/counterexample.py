"""Programs that are made from a counterexample: its instructions one after another, the oldest first.

A counterexample is legal, but no program need reach it. So these programs are tries, and the two runs judge them.
"""
from __future__ import annotations

import re
from typing import Any, Iterator, Sequence

from .tell import Instruction
from .trial_programs import Lines

REGISTERS = "%rax %rcx %rdx %rbx %rsp %rbp %rsi %rdi %r8 %r9 %r10 %r11 %r12 %r13 %r14".split()
# The stages of a counterexample, the oldest instruction first: of PIPE, and of SEQ+ and SEQ.
STAGES = ("W", "M", "E", "D", "F", "P", "S")
# What puts the flags into each of three states.
FLAGS = ("xorq %r14, %r14", "andq %r13, %r13", "subq %r14, %r13")
DATA, STACK = 0x500, 0x600
# An address where no memory is.
NOWHERE = "0x100000"
HALT, BAD_ADDRESS, INVALID = 2, 3, 4
# How a jump goes on, and the labels to which it and a `ret` go.
BRANCH, FAR, BEHIND_RET = "branch", "far", "near_ret"

# The fields of a stage by their names, as numbers.
Stage = dict[str, Any]


def programs_of(counterexample: dict[str, Any], instructions: Sequence[Instruction], full: bool) -> Iterator[Lines]:
    """The programs of a counterexample: with each state of the flags, and with a `nop` for a bubble or without."""
    known = [each for each in instructions if full or not each.needs_full]
    stages = [counterexample[name] for name in STAGES if name in counterexample]
    for has_nops in (False, True):
        for flags in FLAGS:
            yield program_of(stages, known, flags, has_nops)


def program_of(stages: list[Stage], known: Sequence[Instruction], flags: str, has_nops: bool) -> Lines:
    """A jump goes to `far`, where the younger instructions are once more: so they come on both of its ways."""
    near: Lines = []
    far: Lines = []
    has_jumped = False
    for number, stage in enumerate(stages):
        lines = ["nop"] * has_nops if stage.get("kind") == "bubble" else statements_of(stage, known, number)
        near += lines
        if has_jumped:
            far += [line.replace("near", "later").replace(f" {FAR}", " end") for line in lines]
        has_jumped = has_jumped or any(line.endswith(f" {FAR}") for line in lines)
    stack = NOWHERE if any(fails(stage) for stage in stages) else f"{STACK:#x}"
    return [*setup(stack), flags, *["nop"] * 4, *near, "end:", "halt", f"{FAR}:", *far, "halt", *data(near)]


def setup(stack: str) -> Lines:
    """Each register gets a word of its own, which is the address of data."""
    words = {name: f"{DATA + 0x10 * number:#x}" for number, name in enumerate(REGISTERS)}
    return [f"irmovq ${word}, {name}" for name, word in {**words, "%rsp": stack}.items()]


def data(near: Lines) -> Lines:
    """Words that differ; but if there is a `ret`, each of them is the address after it."""
    returns = [line[:-1] for line in near if line.startswith(BEHIND_RET)]
    first, last = DATA - 0x20, STACK + 0x80
    words = [returns[-1] if returns else f"{0x1111 + 0x101 * number:#x}" for number in range((last - first) // 8)]
    return [f".pos {first:#x}", *(f".quad {word}" for word in words)]


def fails(stage: Stage) -> bool:
    """Whether a fetch or an access of the stage fails, now or later."""
    names = ("error", "derror", "stops")
    return stage.get("stat") == BAD_ADDRESS or any(bool(stage.get(name)) for name in names)


def statements_of(stage: Stage, known: Sequence[Instruction], number: int) -> Lines:
    """The instruction of a stage. After a `call` and a `ret` comes a label, to which they go."""
    status, icode, ifun = stage.get("stat"), stage["icode"], stage.get("ifun", 0)
    row = next((each for each in known if (each.icode, each.ifun) == (icode, ifun)), None)
    if status == HALT:
        return ["halt"]
    if row is None or status == INVALID:
        return [f".byte {icode << 4 | ifun:#x}"]
    if fails(stage) and not row.has_access:
        return [f"jmp {NOWHERE}"]
    targets = {"valC": f"near{number}", BRANCH: FAR}
    operands = {
        "rA": register_of(stage, row, "rA", "%rcx"),
        "rB": register_of(stage, row, "rB", "%rdx"),
        "V": targets.get(row.goes_on or "", "$7"),
        "D": NOWHERE if fails(stage) else "8",
    }
    text = re.sub(r"\w+", lambda operand: operands[operand[0]], row.usage)
    labels = {"valC": [f"near{number}:"], "valM": [f"{BEHIND_RET}{number}:"]}
    return [f"{row.name} {text}".strip(), *labels.get(row.goes_on or "", [])]


def register_of(stage: Stage, row: Instruction, field: str, absent: str) -> str:
    """The register of an instruction's field: by its own number, or by that of what reads or writes it."""
    roles = {"srcA": row.srcA, "srcB": row.srcB, "dstE": row.dstE, "dstM": row.dstM}
    numbers = [stage.get(field), *(stage.get(role) for role, of in roles.items() if of == field)]
    return next((REGISTERS[number] for number in numbers if number is not None and number < len(REGISTERS)), absent)
