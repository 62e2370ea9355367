"""Certificates of designs that aren't among the usual ones: `--cert` writes one for each design that `check pipe` accepts, short enough, and `recheck` accepts it."""
import os
import random
import sys

import pytest

from helpers.cases import cases, same
from helpers.paths import DESIGNS, EXAMPLES, TOP, pipeline_designs

sys.path.insert(0, f"{TOP}/bench")
from changed_files import changed, is_name, tokens, with_comparisons

# The most bytes of a certificate of a design whose comparisons aren't many.
MOST = 60_000_000

# A file of a few comparisons of registers, of the kind that made certificates long.
LONG = "compared_registers"

# A case more in front of those of `f_icode`. In the order with the registers one after another the certificate has 86 MB, and in that of
# four side by side 48 MB.
FETCHED = ("word f_icode = [", "(E_srcA == W_dstE || M_dstE == M_dstM && D_rA < d_srcB) : imem_icode;")


def read(path):
    with open(path, encoding="utf-8") as it:
        return it.read()


def certified(y86, folder, text, *words):
    """The line of a yes of the file, if it has one. Then a certificate of it is written, short enough, and accepted."""
    yes = y86("check", "pipe", "d.hcl", *words, files={"d.hcl": text})
    if yes.status:
        return None
    with open(os.path.join(folder, "d.crt"), "wb") as to:
        written = y86("check", "pipe", "d.hcl", "--cert", *words, stdout=to)
    same((written.status, written.err), (0, b""))
    assert os.path.getsize(os.path.join(folder, "d.crt")) <= MOST
    same(y86("recheck", "d.hcl", "d.crt", *words), (0, yes.out.replace(b"yes", b"holds"), b""))
    return yes.out


def test_compared_registers(y86, folder):
    assert certified(y86, folder, read(f"{EXAMPLES}/slow/{LONG}.hcl"))


@pytest.mark.slow
def test_compared_in_fetch(y86, folder):
    first, case = FETCHED
    text = read(f"{DESIGNS}/no_bypassing.hcl")
    assert first in text
    assert certified(y86, folder, text.replace(first, f"{first} {case}"))


def texts():
    return [read(f"{DESIGNS}/{name}.hcl") for name in pipeline_designs()]


def names():
    return sorted({t for text in texts() for t in tokens(text) if is_name(t) and not t.isupper()})


def compared(number):
    """A design with comparisons more, by its number."""
    rng = random.Random(f"comparisons {number}")
    return with_comparisons(rng, rng.choice(texts()))


# Some numbers whose design is accepted.
ACCEPTED = [1, 4, 15, 41, 60, 68]


@cases([(f"comparisons {number}", number) for number in ACCEPTED])
def test_comparisons(row, y86, folder):
    assert certified(y86, folder, compared(row[1]))


@pytest.mark.slow
@cases([(f"comparisons {20 * k} to {20 * k + 19}", range(20 * k, 20 * k + 20)) for k in range(20)])
def test_many_comparisons(row, y86, folder):
    for number in row[1]:
        certified(y86, folder, compared(number))


def changed_design(y86, number):
    """A design with one to eight changes that the check answers a yes or a no, by its number."""
    rng = random.Random(f"certificates {number}")
    while True:
        text = changed(rng, rng.choice(texts()), names())
        if y86("check", "pipe", "d.hcl", files={"d.hcl": text}).status in (0, 1):
            return text


@pytest.mark.slow
@cases([(f"changes {10 * k} to {10 * k + 9}", range(10 * k, 10 * k + 10)) for k in range(30)])
def test_changes(row, y86, folder):
    """Over both instruction sets."""
    for number in row[1]:
        text = changed_design(y86, number)
        certified(y86, folder, text)
        certified(y86, folder, text, "--full")
