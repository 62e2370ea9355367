"""Random programs under every accepted pipeline design and on the sequential datapaths.

Each report is that of `yis`, and each trace that of the book's pipeline. The programs have loads right before their use, stores, stack operations,
conditional moves, jumps forward, bounded loops, calls, and now and then an access outside memory. None writes its own code, since data and stack are
above 0x800. More of them: `Y86_RANDOM=1000 tests/run -m slow -k random`.
"""
import os
import random

import pytest

from helpers.cases import same
from helpers.paths import DESIGNS, pipeline_designs

REGISTERS = ["%rax", "%rcx", "%rdx", "%rbx", "%rsi", "%rdi", "%r8", "%r9"]
CONDITIONS = ["le", "l", "e", "ne", "ge", "g"]


def instruction(chance):
    a, b, at = chance.choice(REGISTERS), chance.choice(REGISTERS), 8 * chance.randrange(16)
    return chance.choice(
        [
            f"irmovq ${chance.randrange(-9, 9)}, {a}",
            f"{chance.choice(['addq', 'subq', 'andq', 'xorq'])} {a}, {b}",
            f"mrmovq {at}(%rbp), {a}\n    addq {a}, {b}",
            f"mrmovq {at}(%rbp), {a}\n    rmmovq {a}, {8 * chance.randrange(16)}(%rbp)",
            f"rmmovq {a}, {at}(%rbp)",
            f"cmov{chance.choice(CONDITIONS)} {a}, {b}",
            f"pushq {a}\n    popq {b}",
        ]
    )


def program(chance):
    lines = ["irmovq $0x800, %rbp", "irmovq $0xc00, %rsp", "irmovq $1, %r14"]
    for block in range(chance.randrange(2, 6)):
        body = [instruction(chance) for _ in range(chance.randrange(1, 6))]
        kind = chance.randrange(4)
        if kind == 0:
            body = [f"j{chance.choice(CONDITIONS)} skip{block}", *body, f"nop\nskip{block}:"]
        elif kind == 1:
            body = [f"irmovq ${chance.randrange(1, 5)}, %r13\nloop{block}:", *body, "subq %r14, %r13", f"jne loop{block}"]
        elif kind == 2:
            body = [f"call work{block}", f"jmp over{block}\nwork{block}:", *body, f"ret\nover{block}:"]
        lines += body
    if chance.randrange(5) == 0:
        lines.append(chance.choice(["mrmovq -8(%r12), %rax", "irmovq $0x4000, %rax\n    rmmovq %rcx, (%rax)"]))
    return "".join(f"    {it}\n" for it in [*lines, "halt"])


ACCEPTED = [name for name in pipeline_designs() if name != "stall_and_bubble"]


@pytest.mark.slow
@pytest.mark.parametrize("number", range(int(os.environ.get("Y86_RANDOM", "100"))))
def test_random(number, y86):
    source = program(random.Random(f"7 {number}"))
    listing = y86("yas", "p.ys", files={"p.ys": source})
    assert listing.status == 0, source
    report = y86("yis", "p.yo", files={"p.yo": listing.out}).out
    for command, design in (("ssim", "seq"), ("ssimp", "seq_plus")):
        same((design, y86(command, f"{DESIGNS}/{design}.hcl", "p.yo").out), (design, report))
    runs = {name: y86("psim", f"{DESIGNS}/{name}.hcl", "p.yo", "--trace").out.partition(b"Ran ") for name in ACCEPTED}
    for name, (trace, _, rest) in runs.items():
        same((name, source, trace, rest.partition(b"\n")[2]), (name, source, runs["std"][0], report))
