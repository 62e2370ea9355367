"""AIGER texts: what `aigrun` says of them, and what `aig` writes of each design."""
import os
import shutil
import subprocess

import pytest

from helpers.aiger import Aag, counts
from helpers.cases import cases, same
from helpers.paths import DESIGNS, TOP, pipeline_designs
from helpers.situations import bits_of

SOLVERS = ("cadical", "minisat")
BIG = 2**64
AND = "aag 3 2 0 1 1\n2\n4\n6\n6 2 4\n"

# (the text, the status, and what is printed: counts, or the line and the reason of the fault)
ROWS = [
    # values
    (AND, 0, "o0 128"),
    (AND.replace("\n6\n", "\n7\n"), 0, "o0 384"),
    ("aag 0 0 0 1 0\n1\n", 0, "o0 512"),
    ("aag 0 0 0 1 0\n0\n", 0, "o0 0"),
    ("aag 0 0 0 0 0\n", 0, ""),
    ("aag 1 1 0 2 0\n2\n2\n3\n", 0, "o0 256\no1 256"),
    ("aag 2 2 0 1 0\n4\n2\n4\n", 0, "o0 256"),
    ("aag 5 3 0 1 2\n2\n4\n6\n10\n8 3 5\n10 8 7\n", 0, "o0 64"),
    ("aag 7 2 0 1 1\n14\n2\n9\n8 14 3\n", 0, "o0 384"),
    # more outputs and more ANDs than any design has
    ("aag 0 0 0 1000 0\n" + "1\n" * 1000, 0, "\n".join(f"o{k} 512" for k in range(1000))),
    ("aag 20001 1 0 1 20000\n2\n40002\n" + "".join(f"{x} {x - 2} {x - 2}\n" for x in range(4, 40004, 2)), 0, "o0 256"),
    # an operand of 2M+1, an output of 2M+1 that an AND defines, operands 0 and 1, an AND's variable below its operands'
    ("aag 2 1 0 1 1\n4\n2\n2 5 5\n", 0, "o0 256"),
    ("aag 2 1 0 1 1\n2\n5\n4 2 1\n", 0, "o0 256"),
    ("aag 2 1 0 2 1\n2\n4\n5\n4 0 2\n", 0, "o0 0\no1 512"),
    ("aag 2 1 0 1 1\n4\n2\n2 1 4\n", 0, "o0 256"),
    # an input of the line's place, not of the variable's number: input 0 is bit 0 of the vector
    ("aag 2 2 0 1 1\n2\n4\n2\n", 5, "5: TooMany".replace("5: TooMany", "1: TooMany")),
    # leading zeros, symbols in any order and repeated, a comment with anything behind it
    ("aag 003 02 0 0001 1\n02\n0004\n6\n06 2 00000000000000000000000000004\n", 0, "o0 128"),
    (AND + "o0 an output\ni1 b\ni0 a\ni0 again\ni00 \ti\n", 0, "o0 128"),
    (AND + "i0  \n", 0, "o0 128"),
    (AND + "i0 a\r\n", 0, "o0 128"),
    (AND + "o0 \0\xff\n", 0, "o0 128"),
    (AND + "i0 a\nc\ni9 a\n6 2", 0, "o0 128"),
    (AND + "c\n", 0, "o0 128"),
    (AND + "c\nwhatever\n\n\0\xffx", 0, "o0 128"),
    # Syntax
    ("", 5, "1: Syntax"),
    ("\n", 5, "1: Syntax"),
    ("aag 0 0 0 0 0", 5, "1: Syntax"),
    ("aag 0 0 0 0 0 \n", 5, "1: Syntax"),
    ("aag 0 0 0 0 0 0\n", 5, "1: Syntax"),
    ("aag 0 0 0 0\n", 5, "1: Syntax"),
    ("aag  0 0 0 0 0\n", 5, "1: Syntax"),
    ("aag\t0 0 0 0 0\n", 5, "1: Syntax"),
    ("aag 0 0 0 0 0\r\n", 5, "1: Syntax"),
    ("aag +0 0 0 0 0\n", 5, "1: Syntax"),
    ("aig 0 0 0 0 0\n", 5, "1: Syntax"),
    ("aag 1 1 0 1 0\n2\n2", 5, "3: Syntax"),
    ("aag 1 1 0 1 0\n2\n", 5, "3: Syntax"),
    ("aag 1 1 0 1 0\n2\n2 \n", 5, "3: Syntax"),
    ("aag 1 1 0 1 0\n2\n2\r\n", 5, "3: Syntax"),
    ("aag 1 1 0 1 0\n2\n\n", 5, "3: Syntax"),
    (AND[:-1], 5, "4: Undefined"),
    (AND.replace("6 2 4", "6 2  4"), 5, "4: Undefined"),
    (AND.replace("6 2 4", "6\t2 4"), 5, "4: Undefined"),
    (AND.replace("6 2 4", "6 2  4").replace("\n6\n", "\n2\n"), 5, "5: Syntax"),
    (AND[:-1].replace("\n6\n", "\n2\n"), 5, "5: Syntax"),
    (AND.replace("6 2 4", "6 2"), 5, "4: Undefined"),
    (AND + "i0 a", 5, "6: Syntax"),
    (AND + "i0 \n", 5, "6: Syntax"),
    (AND + "i0a\n", 5, "6: Syntax"),
    (AND + "i2 a\n", 5, "6: Syntax"),
    (AND + "o1 a\n", 5, "6: Syntax"),
    (AND + f"i{BIG} a\n", 5, "6: Syntax"),
    (AND + "l0 a\n", 5, "6: Syntax"),
    (AND + "\n", 5, "6: Syntax"),
    (AND + "c", 5, "6: Syntax"),
    (AND + "c \n", 5, "6: Syntax"),
    (AND + "cc\n", 5, "6: Syntax"),
    (AND + "i0 a\nc\r\n", 5, "7: Syntax"),
    # Latches, and before TooMany
    ("aag 1 0 1 0 0\n2 3\n", 5, "1: Latches"),
    ("aag 1000001 0 1 0 0\n", 5, "1: Latches"),
    # TooMany; sums and numbers past 2^64 don't wrap
    ("aag 1000001 0 0 0 0\n", 5, "1: TooMany"),
    ("aag 0 0 0 1000001 0\n", 5, "1: TooMany"),
    ("aag 2 2 0 0 1\n", 5, "1: TooMany"),
    (f"aag 5 {BIG - 1} 0 0 1\n", 5, "1: TooMany"),
    (f"aag 5 {BIG - 1} 0 0 {BIG - 1}\n", 5, "1: TooMany"),
    (f"aag {BIG} 0 0 0 0\n", 5, "1: TooMany"),
    (f"aag 5 {BIG} 0 0 0\n", 5, "1: TooMany"),
    (f"aag 5 0 {BIG} 0 0\n", 5, "1: Latches"),
    ("aag 1000000 0 0 0 0\n", 0, ""),
    ("aag 0 0 0 1 0\n", 5, "2: Syntax"),
    ("aag 1000000 0 0 1000000 0\n", 5, "2: Syntax"),
    # Literal
    ("aag 1 1 0 0 0\n3\n", 5, "2: Literal"),
    ("aag 1 1 0 0 0\n0\n", 5, "2: Literal"),
    ("aag 1 1 0 0 0\n1\n", 5, "2: Literal"),
    ("aag 1 1 0 0 0\n4\n", 5, "2: Literal"),
    (f"aag 1 1 0 0 0\n{BIG + 2}\n", 5, "2: Literal"),
    ("aag 1 1 0 1 0\n2\n4\n", 5, "3: Literal"),
    (f"aag 1 1 0 1 0\n2\n{BIG + 2}\n", 5, "3: Literal"),
    (AND.replace("6 2 4", "7 2 4").replace("\n6\n", "\n2\n"), 5, "5: Literal"),
    (AND.replace("6 2 4", "6 8 4"), 5, "5: Literal"),
    (AND.replace("6 2 4", "6 2 9"), 5, "5: Literal"),
    (AND.replace("6 2 4", f"6 2 {BIG + 4}"), 5, "5: Literal"),
    # Twice, behind Literal and before Undefined
    ("aag 2 2 0 0 0\n2\n2\n", 5, "3: Twice"),
    ("aag 2 2 0 0 0\n2\n3\n", 5, "3: Literal"),
    (AND.replace("6 2 4", "2 2 4").replace("\n6\n", "\n2\n"), 5, "5: Twice"),
    (AND.replace("6 2 4", "2 6 6").replace("\n6\n", "\n2\n"), 5, "5: Twice"),
    (AND.replace("6 2 4", "2 8 6").replace("\n6\n", "\n2\n"), 5, "5: Literal"),
    # Undefined; an output is judged by all lines, whatever else is wrong with them
    (AND.replace("6 2 4", "6 2 6"), 5, "5: Undefined"),
    (AND.replace("6 2 4", "6 7 2"), 5, "5: Undefined"),
    ("aag 2 0 0 1 2\n4\n2 4 1\n4 1 1\n", 5, "3: Undefined"),
    ("aag 2 0 0 1 2\n4\n2 1 1\n4 2 3\n", 0, "o0 0"),
    ("aag 1 0 0 1 0\n2\n", 5, "2: Undefined"),
    ("aag 2 1 0 1 1\n2\n4\n", 5, "3: Undefined"),
    ("aag 2 1 0 1 1\n2\n4\n4 2\n", 5, "3: Undefined"),
    ("aag 2 1 0 1 1\n2\n4\n4 2 2", 5, "3: Undefined"),
    ("aag 2 1 0 1 1\n2\n4\n4 9 2\n", 5, "4: Literal"),
    ("aag 2 1 0 1 1\n2\n4\n5 2 2\n", 5, "3: Undefined"),
    ("aag 3 1 0 1 2\n2\n4\n4 6 2\n4 9 9\n", 5, "4: Undefined"),
    ("aag 2 2 0 1 0\n3\n2\n3\n", 5, "2: Literal"),
    ("aag 2 2 0 1 0\n4\n3\n3\n", 5, "3: Literal"),
]


def expected(status, said, name):
    """What goes to standard output, and to standard error."""
    return (said + "\n" if said else "", "") if status == 0 else ("", f"{name}:{said}\n")


def answer(came):
    return came.status, came.out.decode("latin-1"), came.err.decode("latin-1")


@cases((text[:100], text, status, said) for text, status, said in ROWS)
def test_text(row, y86):
    _, text, status, said = row
    came = y86("aigrun", "a.aag", "7", files={"a.aag": text.encode("latin-1")})
    same(answer(came), (status, *expected(status, said, "a.aag")))


# Each proper front of a text stops at the line where it ends, or at the output.
@pytest.mark.parametrize("cut", range(len(AND)))
def test_first_bytes(cut, y86):
    line = AND[:cut].count("\n") + 1
    said = "4: Undefined" if line == 5 else f"{line}: Syntax"
    same(answer(y86("aigrun", "a.aag", "7", files={"a.aag": AND[:cut]})), (5, "", f"a.aag:{said}\n"))


# More than nine inputs: draws, one for each further line, from SEED plus the vector's number.
WIDE = "aag 14 12 0 3 2\n" + "".join(f"{2 * k + 2}\n" for k in range(12)) + "28\n24\n27\n26 20 23\n28 26 4\n"


@pytest.mark.parametrize("seed", (0, 7, 2**64 - 1))
def test_draws(seed, y86):
    same(answer(y86("aigrun", "w.aag", str(seed), files={"w.aag": WIDE})), (0, counts(WIDE, seed), ""))


@cases((("no SEED", ()), ("a SEED of 2^64", (str(BIG),)), ("--full at aigrun", ("7", "--full"))))
def test_no_command(row, y86):
    same(y86("aigrun", "w.aag", *row[1], files={"w.aag": WIDE}).status, 2)


def test_no_file(y86):
    same(y86("aigrun", "none.aag", "7").status, 3)


EACH_DESIGN = [(f"{name} {' '.join(full)}".strip(), f"{DESIGNS}/{name}.hcl", full) for name in pipeline_designs() for full in ((), ("--full",))]


@cases(EACH_DESIGN)
def test_aig_writes(row, y86):
    _, path, full = row
    status, out, err = answer(y86("aig", path, *full))
    same((status, err, out[:4]), (0, "", "aag "))


@cases(EACH_DESIGN)
def test_symbols(row, y86):
    _, path, full = row
    text = answer(y86("aig", path, *full))[1]
    inputs = int(text.split(" ")[2])
    symbols = [f"i{k} x{k}" for k in range(inputs)] + [f"o{k} O{k + 1}" for k in range(27)]
    same(text.split("\n")[-len(symbols) - 1 :], [*symbols, ""])


@cases(EACH_DESIGN)
def test_counts(row, y86):
    _, path, full = row
    text = answer(y86("aig", path, *full))[1]
    same(answer(y86("aigrun", "d.aag", "7", files={"d.aag": text})), (0, counts(text, 7), ""))


@cases(EACH_DESIGN)
def test_outputs_agree_with_the_check(row, y86):
    """After a yes no output is ever 1; the situation of a no makes the output of its obligation 1, and none before it."""
    _, path, full = row
    text = answer(y86("aig", path, *full))[1]
    status, verdict, _ = answer(y86("check", "pipe", path, *full))
    if status == 0:
        same(answer(y86("aigrun", "d.aag", "7", files={"d.aag": text}))[1], "".join(f"o{k} 0\n" for k in range(27)))
    else:
        rule = int(verdict.split("\n")[0][4:])
        values = Aag(text).values(bits_of(verdict.split("\n")[1:-1]))
        same(values[:rule], [False] * (rule - 1) + [True])


@pytest.mark.parametrize("name", ("std", "stall_and_bubble"))
def test_solvers_agree(name, programs):
    """Solvers that are installed agree with the yes and with the no."""
    if not any(map(shutil.which, SOLVERS)):
        pytest.skip(f"no solver is installed: {', '.join(SOLVERS)}")
    words = [f"{TOP}/y86-lab", "aig", "confirm", f"{DESIGNS}/{name}.hcl", *[word for it in SOLVERS for word in ("--solver", it)]]
    done = subprocess.run(words, env={**os.environ, "Y86": programs("y86")}, capture_output=True, text=True, timeout=600, check=False)
    same((done.returncode, done.stdout.rstrip("\n").rpartition("\n")[2]), (0, "1 confirmed, 0 not"))
