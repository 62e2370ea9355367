"""A program under a design for PIPE, and as its instructions say."""
from helpers.cases import same
from helpers.designs import example


def comes_out_wrong(y86, hcl, source):
    """Whether a program comes out wrong: its trace or its report isn't that of the book's pipeline, whose report has to be that of the instructions."""
    files = {"m.hcl": hcl.encode(), "std.hcl": example("std").encode(), "p.ys": source.encode()}
    files["p.yo"] = y86("yas", "p.ys", files=files).out
    right, mine = (y86("psim", it, "p.yo", "--trace", files=files).out for it in ("std.hcl", "m.hcl"))
    same(right[right.index(b"Stopped") :], y86("yis", "p.yo", files=files).out)
    return mine != right
