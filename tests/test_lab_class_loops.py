"""`y86-lab archlab` of a whole folder: its table, the curves as CSV and as plots, and hand-ins that try to do harm; the shell that runs many calls; the bar."""
import csv
import io
import os
import pty
import re
import subprocess
import sys
import time
import xml.etree.ElementTree as tree

import pytest

from helpers.cases import same
from helpers.designs import changed, design, example
from helpers.paths import TOP
from helpers.programs import put
from y86lab.calls import Limits, Programs
from y86lab.curves import HEIGHT, LEFT, TOP as ABOVE, WIDTH, Curve, Scale, plot, scale_of, table_of_all, table_of_one
from y86lab.progress import all_results

LAB, SVG = f"{TOP}/y86-lab", "{http://www.w3.org/2000/svg}"
# What y86-tell says of the text `word`.
NO_NAME = "The file ends in the midst of an item: a name is missing after `word`."


@pytest.fixture
def lab(programs, folder):
    def call(*words, **how):
        done = subprocess.run([LAB, *words], cwd=folder, stdin=subprocess.DEVNULL, capture_output=True, text=True, timeout=600, check=False,
            env={**os.environ, "Y86": programs("y86"), "Y86_TELL": programs("y86_tell")}, **how)
        return done.returncode, done.stdout, done.stderr

    return call


def text_of(path):
    with open(path, encoding="utf-8") as file:
        return file.read()


def put_class(folder, hand_ins):
    for name, files in hand_ins.items():
        os.makedirs(f"{folder}/{name}")
        put(f"{folder}/{name}", files)


LOOP = text_of(f"{TOP}/examples/copy/ncopy.ys")
# The cycles of this loop on std.hcl, as docs/LAB.md has them, and their mean over all lengths.
CYCLES, MEAN = {1: 33, 2: 45, 3: 61, 4: 77, 8: 125, 16: 257, 32: 453, 64: 889}, "15.43"
REFUSED = changed(design("std"), Stat="W_stat")


def test_class(lab, folder):
    """A row for each, whatever its files do: a loop that is right, one that never ends, one that copies too much, one that is too long, a file that is none, and no file."""
    put_class(f"{folder}/in", {
        "ann": {"ncopy.ys": LOOP, "pipe.hcl": example("std")},
        "bob": {"ncopy.ys": LOOP, "pipe.hcl": REFUSED},
        "cy": {"ncopy.ys": LOOP},
        "dee": {"ncopy.ys": LOOP.replace("jg next", "jmp next"), "pipe.hcl": example("std")},
        "eve": {"ncopy.ys": LOOP.replace("done:", "done:\n    mrmovq (%rdi), %r8\n    rmmovq %r8, (%rsi)"), "pipe.hcl": example("std")},
        "fay": {"ncopy.ys": LOOP + "    .quad 0\n" * 120, "pipe.hcl": example("std")},
        "gus": {"ncopy.ys": bytes(range(256)), "pipe.hcl": example("std")},
        "=hal": {"ncopy.ys": LOOP, "pipe.hcl": "word\n"},
        "$(touch harm)'\"": {"ncopy.ys": LOOP, "pipe.hcl": example("std")},
    })
    status, out, err = lab("archlab", "in", "--curves", "curves", "--jobs", "2")
    same((status, err, os.path.exists(f"{folder}/harm")), (0, "", False))
    rows = {row["name"]: row for row in csv.DictReader(io.StringIO(out))}
    same(list(rows), ["$(touch harm)'\"", "'=hal", "ann", "bob", "cy", "dee", "eve", "fay", "gus"])
    for name in ("ann", "$(touch harm)'\""):
        same((rows[name]["mean"], rows[name]["bytes"], rows[name]["why"], rows[name]["score"]), (MEAN, "94", "", "0.0"))
        same({length: int(rows[name][str(length)]) for length in CYCLES}, CYCLES)
    assert re.fullmatch("length 0, yis: it writes at 0x[0-9a-f]+, outside the copy and the stack", rows["eve"]["why"])
    same({name: rows[name]["why"] for name in ("bob", "cy", "dee", "fay", "'=hal")}, {
        "bob": "the pipeline isn't accepted: no O22",
        "cy": "pipe.hcl: it is missing",
        "dee": "length 1, yis: it doesn't end within 2000 steps",
        "fay": "the function is too long",
        "'=hal": f"the pipeline has a fault: pipe.hcl:2:1: {NO_NAME}",
    })
    same((rows["fay"]["bytes"], rows["fay"]["score"], rows["bob"]["64"], rows["gus"]["64"]), ("1054", "0.0", "", ""))
    same(sorted(os.listdir(f"{folder}/curves")), ["all.csv", "all.svg", "ann.csv", "ann.svg", "fay.csv", "fay.svg", "touch_harm.csv", "touch_harm.svg"])
    same(text_of(f"{folder}/curves/all.csv"), out)


def test_curves_of_one_loop(lab, folder):
    """The table has a row for each length, and the plot a curve of 64 points."""
    put(folder, {"mine.ys": LOOP, "std.hcl": example("std")})
    status, _, err = lab("archlab", "mine.ys", "std.hcl", "--curves", "curves")
    same((status, err, sorted(os.listdir(f"{folder}/curves"))), (0, "", ["mine.csv", "mine.svg"]))
    rows = list(csv.DictReader(io.StringIO(text_of(f"{folder}/curves/mine.csv"))))
    same([int(row["length"]) for row in rows], list(range(1, 65)))
    same({length: (int(rows[length - 1]["cycles"]), rows[length - 1]["per element"]) for length in CYCLES},
        {length: (cycles, f"{cycles / length:.2f}") for length, cycles in CYCLES.items()})
    (line,) = tree.parse(f"{folder}/curves/mine.svg").getroot().iter(f"{SVG}polyline")
    same((len(line.get("points").split()), line.find(f"{SVG}title").text), (64, f"mine: {MEAN} cycles per element"))


def test_all_on_one_pipeline(lab, folder):
    """Then a hand-in needs no pipeline; one that isn't accepted ends the command."""
    put_class(folder, {"in/ann": {"ncopy.ys": LOOP}})
    put(folder, {"std.hcl": example("std"), "wrong.hcl": REFUSED, "none.hcl": "word\n"})
    status, out, err = lab("archlab", "in", "std.hcl")
    same((status, err, [row[:5] for row in csv.reader(io.StringIO(out))][1]), (0, "", ["ann", "0.0", MEAN, "94", ""]))
    same(lab("archlab", "in", "wrong.hcl"), (1, "", "wrong.hcl: the pipeline isn't accepted: no O22\n"))
    same(lab("archlab", "in", "none.hcl"), (5, "", f"none.hcl: the pipeline has a fault: none.hcl:2:1: {NO_NAME}\n"))


def test_wrong_arguments(lab, folder):
    os.mkdir(f"{folder}/none")
    put(folder, {"mine.ys": LOOP})
    same(lab("archlab", "none"), (2, "", "none: it has no hand-in\n"))
    same(lab("archlab", "mine.ys"), (2, "", "mine.ys: on which pipeline? An HCL file is missing\n"))
    same(lab("archlab", "mine.ys", "std.hcl", "--curves", "mine.ys")[::2], (1, "mine.ys: File exists\n"))


# The tables and the plots.


def curve(name, each, **more):
    """A curve with so many cycles for each element, at every length."""
    return Curve(name, {length: each * length for length in range(1, 65)}, 100, **more)


def test_tables():
    curves = [curve("ann", 9), Curve("-bob", {}, 0, "=it is missing"), curve("cy", 8, why="the function is too long")]
    rows = list(csv.reader(io.StringIO(table_of_all(curves))))
    same([row[:6] for row in rows], [["name", "score", "mean", "bytes", "why", "1"], ["ann", "30.0", "9.00", "100", "", "9"], ["'-bob", "0.0", "", "", "'=it is missing", ""],
        ["cy", "0.0", "8.00", "100", "the function is too long", "8"]])
    same({len(row) for row in rows}, {5 + 64})
    same(table_of_one(curves[0]).splitlines()[:3], ["length,cycles,per element", "1,9,9.00", "2,18,9.00"])


def test_scale():
    """The marks below and above the values; the lowest is at the bottom, the highest at the top, and equal ratios are equally far apart."""
    scale = scale_of([curve("a", 6), curve("b", 31)])
    same((scale, scale_of([])), (Scale(5, 50), Scale(1, 2)))
    same((scale.across(1), scale.across(64), scale.down(5), scale.down(50)), (LEFT, LEFT + WIDTH, ABOVE + HEIGHT, ABOVE))
    same(round(scale.down(5) - scale.down(10), 6), round(scale.down(20) - scale.down(40), 6))


def words_in(svg):
    return [each.text for each in tree.fromstring(svg).iter(f"{SVG}text")]


def test_plot_of_some():
    """The best is first in the legend, and a name is no markup."""
    svg = plot("a & b", [curve("ann<script>\0", 9), curve("bob", 8)])
    same([each for each in words_in(svg) if ":" in each], ["bob: 8.00", "ann<script>\ufffd: 9.00"])
    same((words_in(svg)[0], "<script" in svg), ("a & b", False))


def test_plot_of_many():
    """Three of them have a colour and a place in the legend."""
    svg = plot("All", [curve(f"s{number}", 6 + number) for number in range(11)])
    same([each for each in words_in(svg) if ":" in each], ["best: s0: 6.00", "median: s5: 11.00", "worst: s10: 16.00"])
    same(len(list(tree.fromstring(svg).iter(f"{SVG}polyline"))), 11 + 3)


# Many calls in one shell.


@pytest.fixture
def stand_in(folder):
    """A y86 that is a script, and how long it was run."""

    def programs(script):
        put(folder, {"y86": f"#!/bin/sh\n{script}\n"})
        os.chmod(f"{folder}/y86", 0o755)
        return Programs(TOP, {"Y86": f"{folder}/y86"})

    return programs


def test_calls_in_one_shell(stand_in):
    """Each call has its words as they are, its status, and its own output, also without a line's end."""
    programs = stand_in('printf "%s" "$1"; exit "$2"')
    words = ["a b", "$(exit 9)", "'", '"', "new\nline", "*", "\\", ""]
    answers = programs.run_all([[word, str(number)] for number, word in enumerate(words)], Limits(10), 99)
    same([(answer.out, answer.status) for answer in answers], [(word, number) for number, word in enumerate(words)])


def test_calls_end_after_the_failures_that_are_allowed(stand_in):
    programs = stand_in('exit "$1"')
    calls = [["0"], ["1"], ["0"], ["7"], ["0"]]
    same([answer.status for answer in programs.run_all(calls, Limits(10), 2)], [0, 1, 0, 7])
    same([answer.status for answer in programs.run_all(calls, Limits(10), 1)], [0, 1])


@pytest.mark.parametrize("limits", [Limits(1), Limits(1, 2000)], ids=["in all", "of the processor"])
def test_calls_end_in_time(limits, stand_in, folder):
    """What hangs is ended, and nothing of it runs on."""
    programs = stand_in('[ "$1" = stop ] || exit 0\n' + ("sleep 600" if limits.megabytes is None else "while :; do :; done"))
    start = time.monotonic()
    answers = programs.run_all([["go"], ["stop"], ["go"]], limits, 1)
    same(([answer.status for answer in answers], time.monotonic() - start < 30), ([0, None], True))
    left = subprocess.run(["pgrep", "-f", f"{folder}/y86"], capture_output=True, text=True, check=False).stdout
    same(left, "")


# The bar.


def test_results_come_in_their_order():
    same(all_results(lambda number: time.sleep(0.01 * (5 - number)) or number * number, range(5), 5), [0, 1, 4, 9, 16])


@pytest.mark.skipif(sys.version_info < (3, 11), reason="a rubric needs Python 3.11 or later")
def test_bar_on_a_terminal(programs):
    """A terminal shows it on standard error; a pipe shows nothing (see the other tests)."""
    ours, theirs = pty.openpty()
    words = [LAB, "grade", f"{TOP}/examples/class/hand_ins/seq", "--rubric", f"{TOP}/examples/class/seq.toml"]
    done = subprocess.run(words, stdout=subprocess.PIPE, stderr=theirs, text=True, check=False, env={**os.environ, "Y86": programs("y86"), "Y86_TELL": programs("y86_tell")})
    os.close(theirs)
    shown = b""
    while True:
        try:
            part = os.read(ours, 4096)
        except OSError:
            part = b""
        if not part:
            break
        shown += part
    os.close(ours)
    same((done.returncode, done.stdout.partition("\n")[0]), (0, "name,points,of,fetch,decode,execute,memory and the rest"))
    bars = shown.decode().replace("\r\n", "\n").split("\r")
    same(bars, ["", *[f"[{'#' * 10 * number}{' ' * (40 - 10 * number)}] {number} of 4" + ("\n" if number == 4 else "") for number in range(1, 5)]])
