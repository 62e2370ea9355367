"""Every program of examples/ under every pipeline design there that the check accepts."""
import pytest

from helpers.cases import cases, same
from helpers.paths import DESIGNS, PROGRAMS, names, pipeline_designs

# The design that makes a mistake.
REFUSED = "stall_and_bubble"
ACCEPTED = [name for name in pipeline_designs() if name != REFUSED]


@pytest.mark.parametrize("name", pipeline_designs())
def test_check(name, y86):
    answer = y86("check", "pipe", f"{DESIGNS}/{name}.hcl")
    same((answer.status, answer.out.split()[0]), (1, b"no") if name == REFUSED else (0, b"yes"))


@pytest.mark.parametrize("name", ACCEPTED)
def test_a_run_after_a_check(name, y86):
    """It prints the verdict and then the run."""
    words = ["psim", f"{DESIGNS}/{name}.hcl", f"{PROGRAMS}/add.yo"]
    same(y86(*words, "--checked").out, y86("check", "pipe", words[1]).out + y86(*words).out)


def traced(y86, design, program):
    """The trace of a run, the line of its cycles, and its report."""
    trace, ran, rest = y86("psim", f"{DESIGNS}/{design}.hcl", f"{PROGRAMS}/{program}.yo", "--trace").out.decode().partition("Ran ")
    line, _, report = rest.partition("\n")
    return trace, ran + line, report


@cases((f"{program} under {design}", design, program) for program in names(PROGRAMS, ".yo") for design in ACCEPTED)
def test_report_is_that_of_yis(row, y86):
    _, design, program = row
    same(traced(y86, design, program)[2], y86("yis", f"{PROGRAMS}/{program}.yo").out.decode())


@cases((f"{program} under {design}", design, program) for program in names(PROGRAMS, ".yo") for design in ACCEPTED)
def test_trace_is_that_of_the_books_pipeline(row, y86):
    _, design, program = row
    same(traced(y86, design, program)[0], traced(y86, "std", program)[0])


@pytest.mark.parametrize("name", names(PROGRAMS, ".ys"))
def test_object_file_is_what_yas_makes(name, y86):
    with open(f"{PROGRAMS}/{name}.yo", "rb") as it:
        same(y86("yas", f"{PROGRAMS}/{name}.ys"), (0, it.read(), b""))
