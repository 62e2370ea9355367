"""The crates' copies of files of examples/ are as `tests/helpers/copies.py` writes them."""
import re

from helpers.cases import cases, same
from helpers.copies import DESIGN, DESIGNS, PROGRAM, data, example_of, made, read, without_comments


@cases([(path, text) for path, text in made().items()])
def test_copy(row):
    path, text = row
    assert read(path) == text, "python3 tests/helpers/copies.py writes it anew"


def test_how_many_designs():
    names = [found[2] for found in DESIGN.finditer(read(DESIGNS))]
    same(len(names), 8)
    same(example_of("NB"), "examples/designs/no_bypassing.hcl")


def test_what_stored_runs_read():
    same([(path, example) for path, example in data().items() if example.endswith(".hcl")], [
        ("crates/y86_stages/data/std.hcl", "examples/designs/std.hcl"),
        ("crates/y86_tell/data/std.hcl", "examples/designs/std.hcl"),
    ])


def test_comments():
    same(without_comments("# What it is,\n# in two lines\n\n# of a\nword a = 1;\n\nword b = [\n  1 : 2; ];\n"), "# What it is,\n# in two lines\nword a = 1;\nword b = [\n  1 : 2; ];\n")


def test_size_of_the_image_of_call():
    text = read(PROGRAM)
    code = re.search(r"^call_bytes = (.*) ∷ \[\]$", text, flags=re.M)[1].split(" ∷ ")
    zeros = re.search(r"^call_image = call_bytes \+\+ replicate (\d+) 0$", text, flags=re.M)[1]
    same(len(code) + int(zeros), 512)
