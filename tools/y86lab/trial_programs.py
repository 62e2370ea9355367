"""Programs that try a processor: some made for what random ones miss, pairs of an instruction and its use, random ones.

A program is a list of lines of assembly. Data and stack are above 0x400, so few programs write their own code:
only some that set `%rsp` to an address of the code.
"""
from __future__ import annotations

import random
from typing import Iterator

Lines = list[str]

REGISTERS = ["%rax", "%rcx", "%rdx", "%rbx", "%rsi", "%rdi", "%r8", "%r9"]
CONDITIONS = ["le", "l", "e", "ne", "ge", "g"]
SETUP = ["irmovq $0x500, %rbp", "irmovq $0x600, %rsp"]
DATA = [
    ".pos 0x500", ".quad 0x11", ".quad 0x560", ".quad 0x33", ".pos 0x560", ".quad 0x66",
    ".pos 0x600", ".quad back", ".quad 0x77", ".quad 0x88",
]
OPERATION = "addq %rbp, %rbx"
STOPS = ["halt", ".byte 0xf0", "jmp 0x4000", "mrmovq -8(%rdx), %rax", "rmmovq %rcx, -8(%rdx)", ".byte 0x27"]
SOURCES = ["irmovq $1, %rbx", "irmovq $0x500, %rbp"]


def statements(*parts: str) -> Lines:
    """The statements of some texts that `;` parts."""
    return [statement.strip() for part in parts for statement in part.split(";")]


def whole(*parts: str) -> Lines:
    """A program around some statements, with a stack and data."""
    return [*SETUP, *statements(*parts), "halt", "back:", "rrmovq %rsp, %r11", "halt", *DATA]


def special() -> Iterator[Lines]:
    """Programs that are made for a situation each."""
    yield ["halt"]
    yield ["jmp 0x4000"]
    yield ["irmovq $1, %rax", ".byte 0xf0"]
    for gap in range(4):
        yield from special_with(["nop"] * gap)
    yield ["irmovq $0x4000, %rsp", "pushq %rax", "addq %rsp, %rsp", "halt"]
    yield ["irmovq $0x4000, %rsp", "popq %rax", "addq %rsp, %rsp", "halt"]
    yield ["irmovq $0x4000, %rsp", "ret", "halt"]
    yield ["irmovq $0x4000, %rsp", "call f", "f:", "halt"]


def special_with(nops: Lines) -> Iterator[Lines]:
    """Programs with so many instructions between the two that matter."""
    yield whole("popq %rsp", *nops, "rrmovq %rsp, %rax")
    yield whole("popq %rsp", *nops, "addq %rsp, %rax")
    yield whole("pushq %rsp", *nops, "popq %rcx")
    stored = ["irmovq $0x5f8, %rcx", "irmovq back, %rdx", "rmmovq %rdx, (%rcx)", "mrmovq 8(%rbp), %rsp"]
    yield whole(*stored, "irmovq $0x5f8, %rsp", *nops, "ret")
    tail = ["back:", "halt", ".pos 0x500"]
    yield [
        "irmovq at, %rax", "mrmovq (%rax), %rsp", *nops, "ret", *tail, "at:", ".quad stack", "stack:", ".quad back",
    ]
    yield ["irmovq back, %rsp", *nops, "call f", "back:", "halt", "f:", *nops, "ret", ".pos 0x500", ".quad 0"]
    for stop in STOPS:
        yield [*SOURCES, stop, *nops, OPERATION, "rmmovq %rbx, (%rbp)", "jmp on", "on:", "halt"]
        yield [*SOURCES, stop, *nops, "rmmovq %rbx, (%rbp)", OPERATION, "halt"]
    yield ["xorq %rax, %rax", "je end", *nops, OPERATION, "halt", "end:", "halt"]
    wrong = ["wrong:", "rmmovq %rcx, 0x500(%rbx)", "addq %rcx, %rcx", "halt"]
    yield ["irmovq $1, %rcx", "xorq %rax, %rax", "jne wrong", *nops, "halt", *wrong]
    called = ["addq %rax, %rax", "halt", "f:", *nops, "ret"]
    yield ["irmovq $0x600, %rsp", "irmovq $7, %rax", "call f", *nops, *called]


def producers(full: bool) -> list[str]:
    texts = [
        "irmovq $5, %rax", "addq %rbp, %rax", "rrmovq %rbp, %rax", "mrmovq (%rbp), %rax", "mrmovq 8(%rbp), %rax",
        "popq %rax", "popq %rsp", "pushq %rbp", "xorq %rcx, %rcx; cmovne %rbp, %rax",
        "xorq %rcx, %rcx; cmove %rbp, %rax", "call on%; halt; on%:", "rmmovq %rbp, (%rbp)",
        "irmovq $2, %rax; irmovq $3, %rax", "nop", "mrmovq 8(%rbp), %rsp",
    ]
    return [*texts, "iaddq $5, %rax"] if full else texts


def consumers(full: bool) -> list[str]:
    texts = [
        "addq %rax, %rcx", "addq %rcx, %rax", "rrmovq %rax, %rcx", "rmmovq %rax, 16(%rbp)", "rmmovq %rcx, 0x580(%rax)",
        "mrmovq 0x580(%rax), %rcx", "pushq %rax", "popq %rcx", "ret", "rrmovq %rsp, %rcx", "cmovg %rax, %rcx",
        "andq %rax, %rax; jne on#; halt; on#:", "call to#; halt; to#:", "pushq %rsp", "subq %rax, %rsp", "popq %rsp",
        "halt",
    ]
    return [*texts, "iaddq $-5, %rax"] if full else texts


def pairs(full: bool) -> Iterator[Lines]:
    """An instruction, up to two others, and one that uses what it made."""
    for gap in range(3):
        for producer in producers(full):
            first = producer.replace("%:", "1:").replace("on%", "on1")
            for consumer in consumers(full):
                between = ["irmovq $1, %r9"] * gap
                yield whole(first, *between, consumer.replace("#", "2"), "addq %rcx, %rbx", "rrmovq %rsp, %rsi")


def some_instruction(chance: random.Random, full: bool) -> Lines:
    """One instruction, or a load or a push with the use of its word."""
    a, b, offset = chance.choice(REGISTERS), chance.choice(REGISTERS), 8 * chance.randrange(16)
    operation = chance.choice(["addq", "subq", "andq", "xorq"])
    choices = [
        [f"irmovq ${chance.randrange(-9, 9)}, {a}"],
        [f"{operation} {a}, {b}"],
        [f"{operation} {a}, {a}"],
        [f"mrmovq {offset}(%rbp), {a}", f"addq {a}, {b}"],
        [f"mrmovq {offset}(%rbp), {a}", f"rmmovq {a}, {8 * chance.randrange(16)}(%rbp)"],
        [f"rmmovq {a}, {offset}(%rbp)"],
        [f"cmov{chance.choice(CONDITIONS)} {a}, {b}"],
        [f"pushq {a}", f"popq {b}"],
        [f"pushq {a}", "addq %rsp, %rbx", f"popq {b}"],
        [f"rrmovq {a}, {b}"],
    ]
    if full:
        choices.append([f"iaddq ${chance.randrange(-9, 9)}, {a}"])
    return chance.choice(choices)


def some_block(chance: random.Random, number: int, full: bool) -> Lines:
    """Some instructions, alone or in a branch, a loop or a procedure."""
    body = [line for _ in range(chance.randrange(1, 6)) for line in some_instruction(chance, full)]
    kind = chance.randrange(5)
    if kind == 0:
        return [f"j{chance.choice(CONDITIONS)} skip{number}", *body, f"skip{number}:"]
    if kind == 1:
        turns = chance.randrange(1, 5)
        return [f"irmovq ${turns}, %r13", f"loop{number}:", *body, "subq %r14, %r13", f"jne loop{number}"]
    if kind == 2:
        return [f"call work{number}", f"jmp over{number}", f"work{number}:", *body, "ret", f"over{number}:"]
    return body


def at_random(seed: int, full: bool) -> Iterator[Lines]:
    """Random programs without end.

    They load words before their use, store, push and pop, move by conditions, jump, loop and call.
    Some end with a fault.
    """
    chance = random.Random(seed)
    stops = ["mrmovq -8(%r12), %rax", ".byte 0xf0", "rmmovq %rcx, 0x4000(%r12)", "jmp 0x4000"]
    while True:
        lines = ["irmovq $0x800, %rbp", "irmovq $0xc00, %rsp", "irmovq $1, %r14"]
        for number in range(chance.randrange(2, 6)):
            lines += some_block(chance, number, full)
        if chance.randrange(3) == 0:
            lines.append(chance.choice(stops))
            lines += [line for _ in range(2) for line in some_instruction(chance, full)]
        yield [*lines, "halt"]
