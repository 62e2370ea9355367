"""Processors of a class that try to do harm, graded with feedback: each gets its line and its page, and all of it ends in the time that is told."""
import csv
import io
import os
import re
import subprocess
import sys
import time

import pytest

from helpers.cases import same
from helpers.designs import design, example
from helpers.paths import TOP
from helpers.programs import put
from y86lab.grading.feedback import picture

LAB = f"{TOP}/y86-lab"
pytestmark = pytest.mark.skipif(sys.version_info < (3, 11), reason="a rubric needs Python 3.11 or later")
RUBRIC = 'name = "<b>Forwarding</b>"\n[[item]]\nname = "forwarding"\npoints = 6\nfile = "pipe.hcl"\nobligations = ["decode and forwarding"]\n'


@pytest.fixture
def lab(programs, folder):
    def call(*words):
        start = time.monotonic()
        done = subprocess.run([LAB, *words], cwd=folder, stdin=subprocess.DEVNULL, capture_output=True, text=True, timeout=600, check=False,
            env={**os.environ, "Y86": programs("y86"), "Y86_TELL": programs("y86_tell")})
        return (done.returncode, done.stdout, done.stderr), time.monotonic() - start

    return call


def text_of(path):
    with open(path, encoding="utf-8") as file:
        return file.read()


def growing():
    """A file whose diagrams grow without end (docs/HCL.md, Limits)."""
    pairs = "".join(f" || D_valC == {number} && E_valC == {number}" for number in range(1, 31))
    words = "".join(f" || D_valC == {number}" for number in range(1, 31))
    text = re.sub(r"^bool F_stall = ", f"bool F_stall = 0 && (0{words}) || ", design("std"), flags=re.M)
    return re.sub(r"^bool F_bubble = 0", f"bool F_bubble = 0{pairs}", text, flags=re.M)


DEEP = "word f_pc = " + "(" * 60000
FILES = {
    "binary": bytes(range(256)),
    "deep": DEEP,
    "empty": "",
    "growing": growing(),
    "markup": example("std").replace("M_valE", "nothing").replace("# ", "# </pre><script>alert(1)</script> "),
    "right": example("std"),
    "wrong": design("std").replace("d_srcA == e_dstE : e_valE;", "d_srcA == E_dstE : e_valE;"),
}


def test_processors_that_try_to_do_harm(lab, folder):
    """A FIFO, a file that is huge, no text, too deep or hard to check, a folder in place of a file, and links: the grade of those that have no verdict is 0."""
    for name in (*FILES, "fifo", "huge", "inside", "missing", "out", "folder/pipe.hcl"):
        os.makedirs(f"{folder}/in/{name}")
    for name, text in FILES.items():
        put(f"{folder}/in/{name}", {"pipe.hcl": text})
    os.mkfifo(f"{folder}/in/fifo/pipe.hcl")
    with open(f"{folder}/in/huge/pipe.hcl", "wb") as file:
        file.truncate(1 << 32)
    put(folder, {"r.toml": RUBRIC, "secret.hcl": example("std")})
    os.symlink("../../secret.hcl", f"{folder}/in/out/pipe.hcl")
    os.symlink("../right/pipe.hcl", f"{folder}/in/inside/pipe.hcl")
    (status, out, err), seconds = lab("grade", "in", "--rubric", "r.toml", "--feedback", "pages", "--jobs", "2", "--seconds", "2")
    grades = {row[0]: float(row[1]) for row in list(csv.reader(io.StringIO(out)))[1:]}
    points = {name: 0.0 for name in (*FILES, "fifo", "folder", "huge", "inside", "missing", "out")} | {"right": 6.0, "inside": 6.0, "wrong": 5.0}
    same((status, err, grades), (0, "", dict(sorted(points.items()))))
    # Two calls decide each file, and each may take two seconds of a processor, or twenty in all.
    assert seconds < 400
    pages = {name: text_of(f"{folder}/pages/{name}.html") for name in grades}
    same([name for name, page in pages.items() if "<script" in page or "<b>Forwarding" in page or "of 6 points" not in page], [])
    whys = {"fifo": "it is no regular file", "folder": "it is no regular file", "missing": "it is missing", "out": "it is a link out of the folder",
        "growing": "the check gave no answer in time", "huge": "TooLong"}
    same([name for name, why in whys.items() if why not in pages[name]], [])
    same([name for name in ("right", "inside") if "<h2>" in pages[name]], [])


def test_page_shows_what_y86_tell_says(lab, folder):
    """The five stages, the youngest first, the words of y86-tell, and a program."""
    os.makedirs(f"{folder}/in/wrong")
    put(f"{folder}/in/wrong", {"pipe.hcl": FILES["wrong"]})
    put(folder, {"r.toml": RUBRIC})
    (status, out, err), _ = lab("grade", "in", "--rubric", "r.toml", "--feedback", "pages")
    same((status, out, err), (0, "name,points,of,forwarding\nwrong,5,6,5\n", ""))
    page = text_of(f"{folder}/pages/wrong.html")
    boxes = re.findall(r'<div class="(\w+)"><b>(\w) [\w-]+</b>(.*?)</div>', page)
    # (a conditional move whose condition fails is in E, and what it would write is read in D)
    same([(kind, stage) for kind, stage, _ in boxes], [("good", "F"), ("good", "D"), ("good", "E"), ("bubble", "M"), ("bubble", "W")])
    same((boxes[1][2].partition("<br>")[0], "its condition fails" in boxes[2][2]), ("rrmovq", True))
    for text in ("no: O10 is false somewhere.", "WRONG  d_valA is e_valE. It has to be d_rvalA.", " of the program, and does it wrong:"):
        assert text in page, page
    assert folder not in page


def test_picture_of_a_sequential_processor():
    """One box, or two for SEQ+; a text of y86-tell without a counterexample has none."""
    said = "    The instruction before: jXX, its condition fails\n    The instruction: <halt>\n"
    boxes = '<div class="good"><b>The instruction before</b>jXX<br>its condition fails</div><div class="good"><b>The instruction</b>&lt;halt&gt;</div>'
    same((picture(said), picture("pipe.hcl:1:10: No `[` is open here\n")), (f'<div class="stages">{boxes}</div>\n', ""))
