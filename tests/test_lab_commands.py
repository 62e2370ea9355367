"""What `explain --places`, `watch`, `swap -i` and `witness` do with files: the places, the answers at each save, what is written, and when they stop."""
import os
import re
import stat
import subprocess
import time

import pytest

from helpers.cases import same
from helpers.designs import changed, design, example
from helpers.paths import TOP
from helpers.programs import put

LAB = f"{TOP}/y86-lab"


@pytest.fixture
def lab(programs, folder):
    """The command `y86-lab` over the tested program: its status and both streams."""

    def call(*words, files=None, **environment):
        put(folder, files or {})
        done = subprocess.run([LAB, *words], cwd=folder, stdin=subprocess.DEVNULL, capture_output=True, text=True, timeout=300, check=False,
            env={**os.environ, "Y86": programs("y86"), "Y86_TELL": programs("y86_tell"), **environment})
        return done.returncode, done.stdout, done.stderr

    return call


NO_NAME = "`{}` is neither a signal nor a constant of PIPE."
WRONG = changed(design("std"), d_valA="[ D_icode in { ICALL, IJXX } : D_valP; d_srcA == M_dstE : M_valE; @ ]")
PLACES = [
    (example("std"), 0, "a.hcl: yes\n"),
    (changed(design("std"), set_cc="0"), 1, "a.hcl:71:1: O15: set_cc is 0. It has to be 1.\n"),
    ("bool x = ];\n", 5, "a.hcl:1:10: No `[` is open here: this `]` is one too many.\n"),
    ("word aluA = nothing;\n", 5, f"a.hcl:1:13: {NO_NAME.format('nothing')}\n"),
    ("# nothing\nwordsig nothing 'nothing'\nword aluA = 1; word aluB = [ 1 : nothing; ];\n", 5, f"a.hcl:2:9: {NO_NAME.format('nothing')}\n"),
    ("word mine = 0;\nword aluA = mine;\n", 5, f"a.hcl:1:6: {NO_NAME.format('mine')}\n"),
    ("bool aluA = 0;\n", 5, "a.hcl:1:6: `aluA` is a word: its definition begins with `word`.\n"),
    ("word aluA = 0;\nword aluA = 0;\n", 5, "a.hcl:2:6: `aluA` is defined a second time; its first definition is in line 1.\n"),
    ("", 5, ""),
]


@pytest.mark.parametrize("text,status,out", PLACES, ids=[out.strip().partition(": ")[2][:30] for _, _, out in PLACES])
def test_places(text, status, out, lab):
    """One line a place; the caret of `explain` stands at the same place. Last come the signals that are missing."""
    came, said, err = lab("explain", "--places", "a.hcl", files={"a.hcl": text})
    same((came, re.sub(r"^a\.hcl: `\w+` has no definition: .*\n", "", said, flags=re.M), err), (status, out, ""))
    shown = lab("explain", "a.hcl")[1]
    for fault, line in re.findall(r"^(a\.hcl:(\d+):\d+: (?!O\d).*)$", out, re.M):
        assert f"{fault}\n\n    {line:>4} | " in shown
    same([len(mark) for mark in re.findall(r"^         \|( *)\^$", shown, re.M)], [int(column) for column in re.findall(r":\d+:(\d+): (?!O\d)", out)])


def test_a_missing_signal_has_no_place(lab):
    same(lab("explain", "--places", "a.hcl", files={"a.hcl": ""})[1].partition("\n")[0], "a.hcl: `f_pc` has no definition: every file for PIPE defines it.")


def test_places_of_all_that_is_false(lab):
    """docs/TELL.md: a forgotten `dmem_error` in `m_stat` makes `set_cc` and `M_bubble` wrong too."""
    said = lab("explain", "--places", "a.hcl", files={"a.hcl": changed(design("std"), m_stat="M_stat")})[1].splitlines()
    same(said[:2], ["a.hcl:71:1: O15: set_cc is 1. It has to be 0.", "a.hcl:92:1: O20: m_stat is 1 (SAOK). It has to be 3 (SADR)."])
    same([re.sub(r": .*\. Inv", ": .. Inv", line) for line in said[2:]], ["a.hcl:139:1: .. Inverting M_bubble repairs it."])


def test_places_keep_their_folder(lab, folder):
    """A place is the path as it was given, so that a click opens it."""
    os.mkdir(f"{folder}/work")
    put(folder, {"work/a.hcl": changed(design("std"), m_stat="M_stat")})
    first = "work/a.hcl:71:1: O15: set_cc is 1. It has to be 0.\n"
    same(lab("explain", "--places", "work/a.hcl")[1][: len(first)], first)
    said = lab("explain", "work/a.hcl")[1]
    assert f"    {first}" in said and "    work/a.hcl:92:1: O20: m_stat is 1" in said


def test_swap_in_place(lab, folder):
    """It writes the file, keeps its mode, its line ends and its bytes, and prints nothing; a link goes on to its file."""
    text = b"bool F_bubble = 0; # \xe9\r\nbool F_stall = 0;\r\n"
    put(folder, {"a.hcl": text, "b.hcl": "bool F_bubble = 1 == 1;"})
    os.chmod(f"{folder}/a.hcl", 0o640)
    os.symlink("a.hcl", f"{folder}/link.hcl")
    same(lab("swap", "-i", "link.hcl", "b.hcl"), (0, "", ""))
    with open(f"{folder}/a.hcl", "rb") as file:
        same(file.read(), text.replace(b"= 0; #", b"= 1 == 1; #"))
    same((stat.S_IMODE(os.stat(f"{folder}/a.hcl").st_mode), os.path.islink(f"{folder}/link.hcl")), (0o640, True))
    same(sorted(os.listdir(folder)), ["a.hcl", "b.hcl", "link.hcl"])


def test_swap_in_place_of_a_fault_changes_nothing(lab, folder):
    put(folder, {"a.hcl": "bool F_bubble = 0;\n", "b.hcl": "bool F_bubble = ;"})
    same(lab("swap", "--in-place", "a.hcl", "b.hcl")[0], 5)
    with open(f"{folder}/a.hcl", encoding="ascii") as file:
        same(file.read(), "bool F_bubble = 0;\n")


def test_witness_writes_its_program(lab, y86):
    """What it writes is a program that shows the mistake: the reports of both runs differ."""
    status, out, err = lab("witness", "a.hcl", "-o", "shows.ys", files={"a.hcl": WRONG})
    same((status, out.splitlines()[-1], err), (0, "The program is in shows.ys.", ""))
    put(y86.folder, {"shows.yo": y86("yas", "shows.ys")[1]})
    by_instructions, on_the_pipeline = y86("yis", "shows.yo"), y86("psim", "a.hcl", "shows.yo")
    assert by_instructions[1] != on_the_pipeline[1].partition(b"\n")[2]


def test_witness_keeps_to_its_time(lab):
    """Of a mistake that no program shows it ends in the time that it tells: a jump in M never needs the second case, and the check asks for it."""
    refused = changed(design("early_jumps"), f_pc="[ E_icode == IJXX && !e_Cnd : E_valA; W_icode == IRET : W_valM; 1 : F_predPC; ]")
    start = time.monotonic()
    status, out, err = lab("witness", "a.hcl", "--seconds", "3", "--tries", "1000000", files={"a.hcl": refused})
    same((status, err, out.splitlines()[:2]), (1, "", ["a.hcl: no O25", "Trying up to 1000000 programs until one shows it, for at most 3 s."]))
    assert re.search(r"^None of the \d+ programs that 3 s were enough for shows the mistake\.", out, re.M), out
    assert time.monotonic() - start < 60


def test_watch(programs, folder):
    """It answers at once, again at each save, also where the file is taken away and put back, and ends after the answers that are asked for."""
    put(folder, {"a.hcl": "bool x = ];\n"})
    words = [LAB, "watch", "--places", "--times", "3", "a.hcl"]
    watching = subprocess.Popen(words, cwd=folder, stdout=subprocess.PIPE, text=True, env={**os.environ, "Y86": programs("y86"), "Y86_TELL": programs("y86_tell")})
    lines = []

    def until_told():
        while not lines or not lines[-1].startswith("-- again"):
            lines.append(watching.stdout.readline().rstrip("\n"))
            assert lines[-1] or watching.poll() is None, lines

    until_told()
    same([lines[0].partition(" at ")[0], *lines[1:]], ["-- a.hcl", "a.hcl:1:10: No `[` is open here: this `]` is one too many.", "-- again at the next save; Ctrl-C ends it"])
    lines.clear()
    os.remove(f"{folder}/a.hcl")
    time.sleep(0.5)
    put(folder, {"a.hcl": "word x = 10;\n"})
    until_told()
    same(lines[1], f"a.hcl:1:6: {NO_NAME.format('x')}")
    lines.clear()
    put(folder, {"next": example("std")})
    os.replace(f"{folder}/next", f"{folder}/a.hcl")
    out, _ = watching.communicate(timeout=120)
    same((watching.returncode, out.splitlines()[1:]), (0, ["a.hcl: yes"]))


def test_watch_of_assembly(lab):
    same(lab("watch", "--times", "1", "p.ys", files={"p.ys": "movq\n"})[1].splitlines()[1:], 
        ["p.ys:1:1: Y86-64 has no `movq`, but four moves: `rrmovq rA, rB`, `irmovq V, rB`, `rmmovq rA, D(rB)` and `mrmovq D(rB), rA`."])
    same(lab("watch", "--times", "1", "p.ys", files={"p.ys": "halt\n"})[1].splitlines()[1:], ["0x000: 00                   | halt", ""])


def test_watch_of_no_file(lab):
    same(lab("watch", "nowhere.hcl"), (3, "", "nowhere.hcl: No such file or directory\n"))
