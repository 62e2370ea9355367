"""Programs that write their own code: what a pipeline makes of a store one to five instructions ahead.

A program stores 2 over the constant of `irmovq $1, %rax`. By the instructions %rax is 2 at every distance. A pipeline may have fetched the
old constant where the distance is at most three, the number of the instructions in D, E and M. The numbers were worked out from the pipeline
diagrams: fetch and store fall into the same cycle at distance 3, and the store takes effect at its end.
"""
import re

from helpers.cases import cases, same
from helpers.paths import DESIGNS, pipeline_designs

REFUSED = {"stall_and_bubble"}
# %rax by distance, 1 to 5, on each accepted design. With one instruction at a time, fewer are in flight.
USUAL, FEWER = [1, 1, 1, 2, 2], [1, 2, 2, 2, 2]
ROWS = [(name, distance, (FEWER if name == "one_at_a_time" else USUAL)[distance - 1]) for name in pipeline_designs() if name not in REFUSED for distance in range(1, 6)]
TABLE = [(f"{name} at distance {distance}", name, distance, rax) for name, distance, rax in ROWS]


def patching(distance):
    """The program, with as many instructions between the store and its target as the distance asks for."""
    lines = ["irmovq target, %rbx", "irmovq $2, %rcx", "rmmovq %rcx, 2(%rbx)", *["nop"] * (distance - 1), "target: irmovq $1, %rax", "halt"]
    return "".join(f"{line}\n" for line in lines)


def rax(report):
    """%rax at the end, by the report."""
    return int(re.search(rb"^%rax:\t0x0{16}\t0x([0-9a-f]{16})$", report, re.M)[1], 16)


@cases(TABLE)
def test_patch(row, y86):
    _, name, distance, wanted = row
    listing = y86("yas", "p.ys", files={"p.ys": patching(distance)})
    ran = y86("psim", f"{DESIGNS}/{name}.hcl", "p.yo", files={"p.yo": listing.out})
    same((ran.status, rax(ran.out)), (0, wanted))


@cases([(f"distance {distance}", distance) for distance in range(1, 6)])
def test_by_instructions(row, y86):
    listing = y86("yas", "p.ys", files={"p.ys": patching(row[1])})
    same(rax(y86("yis", "p.yo", files={"p.yo": listing.out}).out), 2)
