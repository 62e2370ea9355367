"""`y86-lab explain` and `y86-lab witness` on the files of rows/obligations.txt, which break an obligation each.

`explain` names what is wrong in the situation of the answer, and `witness` finds a program that shows it. For the file of S1 no program differs, and
`witness` has to say so.
"""
import os
import re

import pytest

from helpers.cases import cases
from helpers.designs import example, replaced
from helpers.paths import TOP
from helpers.programs import Program
from helpers.rows import broken

UNSEEN = {"S1"}


@pytest.fixture
def lab(folder, programs):
    program = Program(f"{TOP}/y86-lab", folder)

    def call(command, base, definitions):
        files = {"mine.hcl": replaced(example(base), definitions)}
        came = program(command, "mine.hcl", files=files, env={**os.environ, "Y86": programs("y86"), "Y86_TELL": programs("y86_tell")}, timeout=600)
        return (came.out + came.err).decode()

    return call


@cases(broken())
def test_explain(row, lab):
    """The rule is named, with a signal that isn't what it has to be, or with what is wrong about how the registers move; and a place."""
    name, base, definitions, _ = row
    said = lab("explain", base, definitions)
    rule = name.split(" ")[0]
    assert said.startswith(f"no: {rule} is false somewhere.\n"), said
    joined = re.sub(r"\n {6,}", " ", said)
    signal = r"^    WRONG  (\w+) is .*\. It has to be .*\.$"
    moves = r"^WRONG: (?:\w is stalled and bubbled|The instruction in D|D keeps|An instruction|Nothing is ahead|The pipeline is empty)"
    assert re.search(signal if rule[0] == "S" or int(rule[1:]) < 23 else moves, joined, re.M), said
    assert re.search(rf"^    mine\.hcl:\d+:\d+: {rule}: ", said, re.M), said


@cases(broken())
def test_witness(row, lab):
    name, base, definitions, _ = row
    said = lab("witness", base, definitions)
    found = re.search(r"^(?:Program (\d+)|No program) shows it", said, re.M)
    assert found and bool(found[1]) != (name in UNSEEN), said
