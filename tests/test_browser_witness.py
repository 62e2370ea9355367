"""The programs that the workbench tries on a refused processor are those of `y86-lab witness`, and the mistakes that it offers show in their programs."""
import json
import subprocess
import sys

import pytest

from helpers.both_ways import comes_out_wrong
from helpers.browser_build import node
from helpers.cases import same
from helpers.paths import TOP
from helpers.programs import Program
from y86lab import trial_programs

sys.path.insert(0, f"{TOP}/web")
# So many programs the page tries.
TRIES = 1200


def tried(count, *full):
    made = subprocess.run([node(), f"{TOP}/tests/browser/programs.mjs", str(count), *full], capture_output=True, text=True, check=True)
    return json.loads(made.stdout)


@pytest.mark.parametrize("full", [False, True])
def test_programs(full):
    """The programs that are made for a situation, and the pairs, one after another. (The random ones are drawn in another way.)"""
    wanted = [*trial_programs.special(), *trial_programs.pairs(full)]
    found = tried(TRIES, *(["full"] if full else []))
    same(found[: len(wanted)], wanted)
    assert len(found) == TRIES > len(wanted) + 200


def test_random_programs(y86):
    """Each is a program."""
    for lines in tried(TRIES)[-200::10]:
        text = "".join(f"{it}\n" if it.endswith(":") else f"    {it}\n" for it in lines).encode()
        same((lines, y86("yas", "p.ys", files={"p.ys": text}).status), (lines, 0))


def mistakes():
    from choices import examples

    groups = examples(TOP)
    return [it for name, group in groups["hcl"] if name == "Mistakes" for it in group], {it["name"]: it["text"] for _, group in groups["ys"] for it in group}


def test_mistakes(programs, folder):
    """Each mistake is refused, and comes out wrong in the program that is shown with it; a fault has no program."""
    y86, (offered, sources) = Program(programs("y86"), folder), mistakes()
    assert len(offered) > 8
    for it in offered:
        status = y86("check", "pipe", "m.hcl", files={"m.hcl": it["text"].encode()}).status
        assert status in (1, 5, 7), it["name"]
        if "program" in it:
            same((it["name"], status, comes_out_wrong(y86, it["text"], sources[it["program"]])), (it["name"], 1, True))
