"""What `y86-tell` says of changed files, by a second way.

Of `check pipe` the second way are the AIGER texts that `y86 aig` writes. At a counterexample the output of its obligation is 1. With what is wanted in
place of the signals that are marked wrong, there, it is 0; without one of them it is 1. With a stall or bubble signal inverted, there, the outputs of all
obligations on motion are 0 exactly where the signal is named as a repair. Of `run` the second way are the traces and reports of `psim` and `yis`.

More files: `Y86_CHANGED=2000 tests/run -m slow -k tell_changed`.
"""
import json
import os
import random
import re
import sys

import pytest

from helpers.aiger import Aag
from helpers.cases import same
from helpers.designs import changed
from helpers.paths import DESIGNS, TOP, pipeline_designs
from helpers.situations import FIELDS
from test_random_programs import program

sys.path.insert(0, f"{TOP}/bench")
from changed_files import changed as with_changes, is_name, tokens

KINDS = {"bubble": 0, "program": 1, "wrong path": 2}
# The fields of a situation that a signal can read.
READ = {"D": "stat icode ifun rA rB", "E": "stat icode ifun dstE dstM srcA srcB", "M": "stat icode ifun dstE dstM", "W": "stat icode dstE dstM"}
MOTION = ("O10", "O11", "O23", "O24", "O25", "O26", "O27")
MOVERS = [f"{stage}_{move}" for stage in "FDEMW" for move in ("stall", "bubble")]
LABELS = [f"O{k}" for k in range(1, 28)]
COUNT = int(os.environ.get("Y86_CHANGED", "200"))


def texts():
    found = []
    for name in pipeline_designs():
        with open(f"{DESIGNS}/{name}.hcl", encoding="utf-8") as it:
            found.append(it.read())
    return found


TEXTS = texts()
NAMES = sorted({t for text in TEXTS for t in tokens(text) if is_name(t) and not t.isupper()})


def answered(y86_tell, number):
    """A file of a number with one to eight changes that the check answers a yes or a no, and what is said of it."""
    rng = random.Random(f"tell {number}")
    while True:
        text = "\n".join(line.partition("#")[0] for line in with_changes(rng, rng.choice(TEXTS), NAMES).split("\n"))
        came = y86_tell("check", "pipe", "d.hcl", "--json", files={"d.hcl": text})
        if came.status in (0, 1):
            return text, json.loads(came.out)


def bits_at(situation):
    """The bits of a counterexample, then those of its comparisons."""
    bits = []
    for field, width in FIELDS:
        stage, name = field.split()
        number = KINDS[situation[stage]["kind"]] if name == "kind" else situation[stage][name]
        bits += [number >> k & 1 for k in range(width - 1, -1, -1)]
    return bits + [int(it["holds"]) for it in situation["comparisons"]]


def outputs(y86, text, bits):
    """The obligations that are false at these bits; None where the file is refused, or has other comparisons."""
    came = y86("aig", "a.hcl", files={"a.hcl": text})
    if came.status != 0:
        return None
    aag = Aag(came.out.decode())
    return {label for label, value in zip(LABELS, aag.values(bits)) if value} if len(aag.inputs) == len(bits) else None


def condition(situation):
    """That the pipeline registers have the fields of a situation."""
    return " && ".join(f"{stage}_{name} == {situation[stage][name]}" for stage, names in READ.items() for name in names.split())


def is_boolean(text, signal):
    return re.search(rf"^\s*bool\s+{signal}\s*=", text, flags=re.M) is not None


def put_there(text, signal, there, wanted):
    """The file with another value of a signal, there."""
    if not is_boolean(text, signal):
        return changed(text, **{signal: f"[ {there} : {wanted}; @ ]"})
    return changed(text, **{signal: f"({there}) || (@)" if wanted else f"!({there}) && (@)"})


def word(value):
    return value["name"] if "name" in value else value["number"]


def settings(y86_tell, text):
    came = y86_tell("check", "pipe", "s.hcl", "--json", files={"s.hcl": text})
    return json.loads(came.out)["settings"] if came.status in (0, 1) else None


def signals_agree(y86, y86_tell, text, said, refuted):
    """Whether the signals that are marked wrong could be compared, and then that they are those."""
    label, situation = refuted["obligation"]["label"], refuted["counterexample"]
    wrong = [it for it in refuted["signals"] if not it["right"]]
    names = [it["signal"] for it in refuted["signals"]]
    # (of a signal that has to be two words at once no value is right)
    if not wrong or any(it["wanted"] is None or names.count(it["signal"]) > 1 for it in wrong):
        return False
    bits, there = bits_at(situation), condition(situation)

    def with_wanted(signals):
        mended = text
        for it in signals:
            mended = put_there(mended, it["signal"], there, word(it["wanted"]))
        return mended

    mended = [with_wanted(wrong)] + [with_wanted([other for other in wrong if other is not it]) for it in wrong]
    for file, is_false in zip(mended, [False] + [True] * len(wrong)):
        false_there = outputs(y86, file, bits)
        if false_there is None or (label in false_there) != is_false and settings(y86_tell, file) != said["settings"]:
            return False
        same((label, label in false_there), (label, is_false))
    return True


def repairs_agree(y86, y86_tell, text, said, refuted):
    """Whether the repairs of an obligation on motion could be compared, and then that they are those."""
    situation, compared = refuted["counterexample"], 0
    bits, there = bits_at(situation), condition(situation)
    for signal in MOVERS:
        # (where another definition reads the signal, it would change too)
        if len(re.findall(rf"\b{signal}\b", text)) > 1:
            continue
        other = changed(text, **{signal: f"({there}) && !(@) || !({there}) && (@)"})
        false_there, is_repair = outputs(y86, other, bits), signal in refuted["motion"]["invert"]
        if false_there is None or is_repair == bool(false_there.intersection(MOTION)) and settings(y86_tell, other) != said["settings"]:
            continue
        same((signal, not false_there.intersection(MOTION)), (signal, is_repair))
        compared += 1
    return compared > 0


@pytest.mark.slow
@pytest.mark.parametrize("first", range(0, COUNT, 10))
def test_refusals(first, y86, y86_tell):
    """In ten files at least half of what is said can be compared."""
    asked = compared = 0
    for number in range(first, min(first + 10, COUNT)):
        text, said = answered(y86_tell, number)
        same(y86("check", "pipe", "d.hcl", files={"d.hcl": text}).status, 0 if said["verdict"] == "yes" else 1)
        labels = [it["obligation"]["label"] for it in said.get("refuted", [])]
        for refuted in said.get("refuted", []):
            label = refuted["obligation"]["label"]
            false_there = outputs(y86, text, bits_at(refuted["counterexample"]))
            assert label in false_there and false_there <= set(labels), (number, label, false_there)
            asked += 1
            if label in MOTION and refuted["motion"] is not None and not refuted["signals"]:
                compared += repairs_agree(y86, y86_tell, text, said, refuted)
            else:
                compared += signals_agree(y86, y86_tell, text, said, refuted)
    assert 2 * compared >= asked, (asked, compared)


def parts_of(y86, command, *files):
    """The lines of a trace, what is said of the run, and the changes."""
    out = y86(command, *files, *(["--trace"] if command == "psim" else [])).out.decode().split("\n")
    at = next(k for k, line in enumerate(out) if line.startswith(("Ran ", "Stopped ")))
    end = next(k for k, line in enumerate(out) if line.startswith("Changes "))
    return out[:at], out[at:end], out[end:]


def status_of(ran):
    """The status with which a run stopped."""
    return re.search(r"Status '(\w+)'", ran[-1])[1]


@pytest.mark.slow
@pytest.mark.parametrize("first", range(0, COUNT, 10))
def test_runs(first, y86, y86_tell):
    """No program of these is one that the theorem doesn't cover, so the book's pipeline retires what the instructions say."""
    with open(f"{DESIGNS}/std.hcl", encoding="utf-8") as it:
        book = it.read()
    for number in range(first, min(first + 10, COUNT)):
        text, _ = answered(y86_tell, number)
        source = program(random.Random(f"tell {number}"))
        listing = y86("yas", "p.ys", files={"p.ys": source, "book.hcl": book, "d.hcl": text}).out
        said = json.loads(y86_tell("run", "d.hcl", "p.yo", "--json", files={"p.yo": listing}).out)
        right, _, after = parts_of(y86, "psim", "book.hcl", "p.yo")
        _, stepped, by_steps = parts_of(y86, "yis", "p.yo")
        same(by_steps, after)
        trace, ran, came = parts_of(y86, "psim", "d.hcl", "p.yo")
        alike = next((k for k, lines in enumerate(zip(trace, right)) if lines[0] != lines[1]), min(len(trace), len(right)))
        assert said["outcome"] == "limit" or said["instructions"] == alike, (number, said, alike)
        if said["outcome"] == "same":
            assert (trace, came) == (right, after) and f"Ran {said['cycles']} cycles, retired {said['instructions']} instructions" == ran[0], (number, said, ran)
        elif said["outcome"] == "state":
            # (a pipeline may stop before the program does; what it has retired is right)
            assert trace == right[: len(trace)], (number, said)
            if status_of(ran) != status_of(stepped):
                same((said["wrong"], said["is"]), (["status"], status_of(ran)))
        elif said["outcome"] == "instruction":
            assert trace != right, (number, said)
