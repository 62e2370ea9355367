"""Runs `big N HCL` and compares what it prints with what is known otherwise. A model of this file's own draws
program N by the rules of crates/prog_gen/specs/Programs.antt and runs it; it tells how many cycles the book's pipeline takes: one for each instruction,
four to fill it, two more for each jump that isn't taken and one more for each word that is used right behind its load. Under the other
accepted designs of examples/ the answer has to be `same 1` within 5 (N + 1) cycles; under a design that forwards too little it has to be
`same 0`.
"""
import re

import pytest

from helpers.cases import cases, same
from helpers.designs import changed, design
from helpers.paths import DESIGNS

WORD = 2**64


class Draws:
    """The generator: a word, of whose next value a draw gives the upper 31 bits."""

    def __init__(self, word):
        self.word = word

    def draw(self):
        self.word = (self.word * 6364136223846793005 + 1442695040888963407) % WORD
        return self.word >> 33


def instructions(n):
    """Program n: kind, ifun, rA, rB and constant of each instruction. No jump is there to jump over anything."""
    draws, data = Draws(n), (10 * n + 15) // 8 * 8
    for _ in range(n):
        kind, ifun, constant = draws.draw() % 6, 0, 0
        if kind == 0:
            constant, r_a, r_b = draws.draw(), None, draws.draw() % 14
        elif kind in (1, 2):
            ifun, r_a, r_b = draws.draw() % (4 if kind == 1 else 7), draws.draw() % 14, draws.draw() % 14
        elif kind == 3:
            r_a, r_b, constant = draws.draw() % 14, 14, data + 8 * (draws.draw() % 256)
        elif kind == 4:
            constant, r_a, r_b = data + 8 * (draws.draw() % 256), draws.draw() % 14, 14
        else:
            ifun, r_a, r_b = draws.draw() % 7, None, None
        yield kind, ifun, r_a, r_b, constant


def signed(word):
    return word - WORD if word >= WORD // 2 else word


def holds(ifun, zero, sign, overflow):
    less = sign != overflow
    return [True, less or zero, less, zero, not zero, not less, not less and not zero][ifun]


def computed(ifun, a, b):
    """The result of an OPq and its flags."""
    exact = [signed(b) + signed(a), signed(b) - signed(a), signed(b & a), signed(b ^ a)][ifun]
    word = exact % WORD
    return word, word == 0, word >= WORD // 2, exact != signed(word)


def cycles(n):
    """How many cycles the pipeline of std.hcl takes for program n."""
    registers, memory, flags = [0] * 15, {}, (True, False, False)
    loaded, count = None, n + 1 + 4
    for kind, ifun, r_a, r_b, constant in instructions(n):
        if loaded is not None and loaded in [[], [r_a, r_b], [r_a], [r_a, r_b], [r_b], []][kind]:
            count += 1
        loaded = r_a if kind == 4 else None
        if kind == 0:
            registers[r_b] = constant
        elif kind == 1:
            registers[r_b], *flags = computed(ifun, registers[r_a], registers[r_b])
        elif kind == 2 and holds(ifun, *flags):
            registers[r_b] = registers[r_a]
        elif kind == 3:
            memory[constant] = registers[r_a]
        elif kind == 4:
            registers[r_a] = memory.get(constant, 0)
        elif kind == 5 and not holds(ifun, *flags):
            count += 2
    return count


def big(y86, *words, **how):
    return y86("big", *words, folder=DESIGNS, **how).text()


@pytest.mark.parametrize("n", [1, 2, 3, 7, 64, 999, 1000, 10000, 100000])
def test_cycles(n, y86):
    same(big(y86, str(n), "std.hcl"), (0, f"big {n} steps {n + 1} cycles {cycles(n)} same 1\n", ""))


def test_a_program_again(y86):
    same(big(y86, "1000", "std.hcl"), big(y86, "1000", "std.hcl"))


OTHERS = (
    "no_bypassing", "load_forwarding", "not_taken", "backward_taken", "with_iaddq", "early_jumps", "early_returns", "not_taken_early_jumps",
    "backward_taken_early_jumps", "early_jumps_and_loads", "all_shortcuts", "one_at_a_time",
)


def within(n, same_as, came):
    """Whether the answer has the steps, few enough cycles, and says whether the runs are the same."""
    line = re.fullmatch(rf"big {n} steps {n + 1} cycles (\d+) same {same_as}\n", came)
    return line is not None and int(line[1]) <= 5 * (n + 1)


@pytest.mark.parametrize("name", OTHERS)
def test_other_design(name, y86):
    status, out, err = big(y86, "2000", f"{name}.hcl", *["--full"] * (name == "with_iaddq"))
    same((status, within(2000, 1, out), err), (0, True, ""))


def test_a_word_that_is_not_forwarded(y86):
    text = changed(design("std"), d_valA="[ D_icode in { ICALL, IJXX } : D_valP; 1 : d_rvalA; ]")
    status, out, err = y86("big", "1000", "d.hcl", files={"d.hcl": text}).text()
    same((status, within(1000, 0, out), err), (1, True, ""))


def test_a_pipeline_that_is_stuck(y86):
    same(y86("big", "10", "d.hcl", files={"d.hcl": changed(design("std"), F_stall="1")}).text(), (1, "big 10 steps 11 cycles 200 same 0\n", ""))


def test_a_cycle_of_definitions(y86):
    text = changed(design("std"), D_stall="D_bubble", D_bubble="D_stall")
    same(y86("big", "1", "c.hcl", files={"c.hcl": text}).text(), (5, "", "c.hcl: Cycle D_stall D_bubble\n"))


@cases((" ".join(words), words) for words in (["0", "std.hcl"], ["100001", "std.hcl"], ["000000000000000000001", "std.hcl"], ["-1", "std.hcl"], ["1000x", "std.hcl"],
    ["std.hcl", "1"], ["1", "std.hcl", "--limit", "5"]))
def test_no_command(row, y86, usage):
    same(big(y86, *row[1]), usage)
