"""`y86-lab` and `y86-recheck` with wrong arguments and wrong files: they print what is wrong and where, and never a traceback.

The pages have what they print of good files (docs/LAB.md, docs/TUTORIAL.md).
"""
import json
import os
import re
import shutil

import pytest

from helpers.cases import cases, same
from helpers.designs import changed, design
from helpers.paths import EXAMPLES, TOP
from helpers.programs import Program, put

HINT = "`./y86-lab witness mine.hcl` looks for a program that shows it."
IADDQ = "`iaddq` wasn't checked: `--full` checks it too."
NAMES_IADDQ = "The file names IIADDQ, but iaddq wasn't checked. --full checks it too."
DEEP = b"bool set_cc = " + b"(" * 30000 + b"1" + b")" * 30000 + b";\n"
TOO_DEEP = b"With this `(` more than 64 brackets and `!` are open at one place.\n"
UNPAIRED = b"bool F_bubble = 0\n\n# F waits\nbool F_stall = 1;\n"


def read(name):
    """A file of examples/."""
    with open(f"{EXAMPLES}/{name}", "rb") as it:
        return it.read()


def std(**bodies):
    return changed(design("std"), **bodies)


@pytest.fixture
def lab(folder, programs):
    """`y86-lab`, called in the test's folder."""
    program = Program(f"{TOP}/y86-lab", folder)
    environment = {**os.environ, **{it.upper(): programs(it) for it in ("y86", "y86_stages", "y86_tell")}}

    def call(*words, files=None, **more):
        return program(*words, files=files, env={**environment, **more})

    return call


@pytest.fixture
def explain(lab):
    """The status of `explain` of a file, the lines that it prints, and what comes on standard error."""

    def call(text, *flags):
        status, out, err = lab("explain", "mine.hcl", *flags, files={"mine.hcl": text})
        return status, out.decode().splitlines(), err

    return call


# ---- what `explain` shows below a no

WITHOUT_FLAGS = changed(design("with_iaddq"), set_cc="0")


def test_the_hint_has_full(explain):
    same(explain(WITHOUT_FLAGS, "--full")[1][-1], HINT.replace("mine.hcl", "mine.hcl --full"))


def test_iaddq_is_not_asked_in_a_no(explain):
    same(explain(WITHOUT_FLAGS)[1][-3:], [HINT, "", IADDQ])


def test_iaddq_is_not_asked_in_a_yes(explain):
    """y86-tell says it, once."""
    status, lines, _ = explain(design("with_iaddq"))
    same((status, lines[-1], [it for it in lines if "iaddq" in it]), (0, NAMES_IADDQ, [NAMES_IADDQ]))


def test_iaddq_in_a_comment(explain):
    same([it for it in explain("# IIADDQ\n" + design("std"))[1] if "iaddq" in it], [])


REACHES_M = ["WRONG: An instruction on the wrong path reaches M, where it changes something.", "",
    "A repair: each of these changes alone makes O10, O11 and O23 to O27 hold in this situation.", "    Invert M_bubble."]
HALT_ALONE = "m_stat in { SHLT } || W_stat in { SHLT }"
SKIPPED = "D doesn't load the program's next instruction, and F goes on: that instruction is skipped."
SKIPPED_LINES = ["WRONG: D doesn't load the program's next instruction, and F goes on: that instruction is", "       skipped."]
LOST = "The instruction in D doesn't go on to E, and D doesn't keep it: it is lost."
SET_CC = ["    WRONG  set_cc is 1. It has to be 0.", "           It reads E_icode = 6 (IOPQ), m_stat = 1 (SAOK), W_stat = 0 (SBUB)."]
MEND_FIRST = "Mend {} first: its wrong signals don't depend on the wrong signals of another obligation."
D_VALA = ["    WRONG  d_valA is e_valE. It has to be d_rvalA.", "           It takes case 2 of its definition, at line 49, column 54:",
    "               d_srcA == e_dstE : e_valE;"]
WITHOUT_RET = "f_icode in { INOP, IHALT, IRRMOVQ, IIRMOVQ, IRMMOVQ, IMRMOVQ,\n IOPQ, IJXX, ICALL, IPUSHQ, IPOPQ }"
F_STAT = ["    WRONG  f_stat is 4 (SINS). It has to be 1 (SAOK).", "           It takes case 2 of its definition, at line 20, column 36:",
    "               !instr_valid : SINS;", "           It reads imem_error = 0, instr_valid = 0, f_icode = 9 (IRET)."]
# The changed definition of std.hcl; lines that are shown, one after another; and the places: of each the line, the column, and what begins the message.
SHOWN_LINES = [
    ("M isn't bubbled", {"M_bubble": "0"}, REACHES_M, ["139:1: O25: An instruction on the wrong path reaches M"]),
    ("M is bubbled for a halt alone", {"M_bubble": HALT_ALONE}, REACHES_M, ["139:1: O25: An instruction on the wrong path reaches M"]),
    ("F isn't stalled", {"F_stall": "0"}, SKIPPED_LINES, [f"117:1: O25: {SKIPPED} Inverting F_stall repairs it."]),
    # (in a cycle without a right predicted PC, D takes what was fetched on the wrong path)
    ("D isn't stalled", {"D_stall": "0"}, [f"WRONG: {LOST}"], [f"121:1: O24: {LOST} Inverting D_stall repairs it.", "121:1: O25: "]),
    # (the rule's own signal is right by a wrong one that it reads)
    ("m_stat without dmem_error", {"m_stat": "M_stat"}, SET_CC,
        ["71:1: O15: set_cc is 1. It has to be 0.", "92:1: O20: m_stat is 1 (SAOK). It has to be 3 (SADR).", "139:1: O25: "]),
    ("m_stat is to be mended first", {"m_stat": "M_stat"}, [MEND_FIRST.format("O20")], ["71:1: O15: ", "92:1: O20: ", "139:1: O25: "]),
    ("e_dstE without the condition", {"e_dstE": "E_dstE"}, D_VALA,
        ["49:54: O10: d_valA is e_valE. It has to be d_rvalA.", "54:17: O11: d_valB is e_valE. It has to be d_rvalB.",
            "77:1: O17: e_dstE is 0 (%rax). It has to be 15 (RNONE)."]),
    ("e_dstE is to be mended first", {"e_dstE": "E_dstE"}, [MEND_FIRST.format("O17")], ["49:54: O10: ", "54:17: O11: ", "77:1: O17: "]),
    ("no ret is valid", {"instr_valid": WITHOUT_RET}, F_STAT, ["20:36: O2: f_stat is 4 (SINS). It has to be 1 (SAOK)."]),
]


@cases(SHOWN_LINES)
def test_shown(row, explain):
    """The sentences of y86-tell; below them the place of each wrong signal, and of each signal that repairs a motion."""
    _, bodies, wanted, places = row
    status, lines, err = explain(std(**bodies))
    assert any(lines[at : at + len(wanted)] == wanted for at in range(len(lines))), "\n".join(lines)
    same((status, err, lines[-1]), (1, b"", HINT))
    joined = re.sub(r"\n {8}", " ", "\n".join(lines[lines.index("The places in the file:") + 2 : -2])).split("\n")
    same(len(joined), len(places))
    for line, place in zip(joined, places):
        same(line[: len(place) + 13], f"    mine.hcl:{place}")


def test_the_page_of_a_no(lab):
    same(lab("page", "mine.hcl", "-o", "no.html", files={"mine.hcl": std(m_stat="M_stat")}), (0, b"no.html: no, O15 doesn't hold\n", b""))


def test_the_values_on_the_page_of_a_no(lab, folder):
    lab("page", "mine.hcl", "-o", "no.html", files={"mine.hcl": std(m_stat="M_stat")})
    with open(f"{folder}/no.html", encoding="utf-8") as it:
        data = re.search(r'<script type="application/json" id="data">(.*?)</script>', it.read(), re.S)[1]
    finding = json.loads(json.loads(data)["viewer"]["told"])["refuted"][0]["signals"][0]
    same(finding["signal"], "set_cc")
    same([it["value"]["constant"] for it in finding["reads"] if it["signal"] == "m_stat"], ["SAOK"])


# ---- files with a fault

def towering():
    """std.hcl with Booleans of which each stands on the next one, below 62 `!`."""
    text = design("std")
    names = "D_stall E_bubble set_cc mem_read mem_write F_stall F_bubble D_bubble E_stall M_stall M_bubble W_stall W_bubble need_valC need_regids".split()
    for name, below in zip([*names, "instr_valid"], [*names[1:], "instr_valid", "imem_error"]):
        text = changed(text, **{name: "!" * 62 + f"(0 || {below})"})
    return text


def test_30000_brackets_explained(lab):
    status, out, err = lab("explain", "deep.hcl", files={"deep.hcl": DEEP})
    same((status, out.split(b"\n")[0] + b"\n", err), (5, b"deep.hcl:1:79: " + TOO_DEEP, b""))


@pytest.mark.parametrize("command", ("witness", "page"))
def test_30000_brackets(command, lab):
    same(lab(command, "deep.hcl", files={"deep.hcl": DEEP}), (5, b"", b"deep.hcl:1:79: " + TOO_DEEP))


def test_definitions_as_a_tower(explain):
    status, _, err = explain(towering())
    same((status, err), (1, b""))


def test_5000_digits(explain):
    same(explain(f"word aluA = {'1' * 5000};\n")[1][0], f"mine.hcl:1:13: `{'1' * 5000}` is out of range: numbers go from -2^63 to 2^63-1.")


def test_an_empty_file(explain):
    """Each signal that is missing, in the order of the table."""
    status, lines, err = explain("")
    same((status, lines[0], len(lines), err), (5, "mine.hcl: `f_pc` has no definition: every file for PIPE defines it.", 39, b""))


def test_no_such_character_in_the_locale(lab):
    text = "bool F_stall = \u201c0;\n"
    status, out, err = lab("explain", "mine.hcl", files={"mine.hcl": text}, PYTHONCOERCECLOCALE="0", LC_ALL="C", PYTHONUTF8="0")
    lines = [b"mine.hcl:1:16: The byte here is no printable ASCII.", b"", b"       1 | bool F_stall = ?0;", b"         |                ^"]
    same((status, [out.splitlines()[0].partition(b" Outside ")[0], *out.splitlines()[1:4]], err), (5, lines, b""))


def test_a_name_that_is_no_text(lab):
    same(lab("explain", "\udce9.hcl", files={"\udce9.hcl": ""}).text(), (2, "?.hcl: its name isn't UTF-8\n", ""))


MANY = "D_valC == 0" + "".join(f" || D_valC == {it}" for it in range(1, 65))
WRONG = ["mine.hcl:1:6: `F_bubble` is a Boolean: its definition begins with `bool`.", "", "       1 | word F_bubble = 0;", "         |      ^"]
FIRST_LINES = [
    ("65 comparisons", std(F_bubble=MANY),
        ["mine.hcl: the definitions compare more than 64 different pairs of words, and the check takes 64 at most."]),
    ("a wrong declaration", "wordsig M_Cnd 'M'\n" + design("std"),
        ["mine.hcl:1:9: `M_Cnd` is a Boolean: its declaration begins with `boolsig`.", "", "       1 | wordsig M_Cnd 'M'", "         |         ^"]),
    ("a wrong definition", "word F_bubble = 0;\nboolsig F_bubble 'F'\n", WRONG),
]


@cases(FIRST_LINES)
def test_first_lines(row, explain):
    _, text, wanted = row
    same(explain(text)[1][: len(wanted)], wanted)


def test_a_file_that_is_too_long(explain):
    same(explain("#" * 65537), (7, ["mine.hcl: the file is too long: over 65,536 bytes for HCL, over 1,048,576 for others"], b""))


# ---- `swap` over files with a fault, and behind a last line without a line feed

SWAPPED = {"good.hcl": b"bool F_bubble = 0;\n# the end", "bad.hcl": UNPAIRED, "new.hcl": b"bool F_stall = 1;", "deep.hcl": DEEP}
SWAPPED["deep.txt"] = DEEP
SWAPPED["twice.hcl"] = b"bool F_stall = 1;\nbool F_stall = 0;\n"
SWAPS = [
    ("good.hcl new.hcl", 0, b"bool F_bubble = 0;\n# the end\nbool F_stall = 1;\n", b""),
    ("good.hcl bad.hcl", 5, b"", b"bad.hcl:4:1: The definition before ends without `;`. Put one after `0` in line 1.\n"),
    ("bad.hcl new.hcl", 5, b"", b"bad.hcl:4:1: The definition before ends without `;`. Put one after `0` in line 1.\n"),
    ("good.hcl twice.hcl", 5, b"", b"twice.hcl:2:6: `F_stall` is defined a second time; its first definition is in line 1.\n"),
    ("good.hcl deep.hcl", 5, b"", b"deep.hcl:1:79: " + TOO_DEEP),
    ("good.hcl deep.txt", 5, b"", b"deep.txt:1:79: " + TOO_DEEP),
    ("good.hcl p.ys", 2, b"", b"p.ys is a program, not HCL. The call is `y86-lab swap HCL DEFINITIONS`.\n"),
    ("good.hcl none.hcl", 3, b"", b"none.hcl: No such file or directory\n"),
]


@cases(SWAPS)
def test_swap(row, lab):
    words, *wanted = row
    same(lab("swap", *words.split(), files=SWAPPED), tuple(wanted))


# ---- `page` of files that have none, and the usage of each command

ALONE = "the page of a run is there for PIPE alone"
NO_PAGE = [
    ("page seq.hcl", "seq.hcl: yes, so there is no situation to draw; with an object file the page shows its run"),
    ("page std.hcl", "std.hcl: yes, so there is no situation to draw; with an object file the page shows its run"),
    ("page seq.hcl a.yo", f"seq.hcl: {ALONE}, and this file is one for SEQ"),
    ("page seq_plus.hcl a.yo", f"seq_plus.hcl: {ALONE}, and this file is one for SEQ+"),
]


@cases(NO_PAGE)
def test_no_page(row, lab, y86_stages):
    words, wanted = row
    answer = 1, b"", f"{wanted}\n".encode()
    if words.endswith(".yo") and y86_stages("none.hcl", "a.yo", "--seq").status != 2:
        # (a y86-stages that knows SEQ reads the object file, which isn't there)
        answer = 3, b"", b"read fault a.yo\n"
    same(lab(*words.split(), files={f"{it}.hcl": design(it) for it in ("seq", "seq_plus", "std")}), answer)


@pytest.mark.parametrize("words", ("explain --help", "explain mine.hcl -h", "page --help", "swap --help", "witness --help"))
def test_help(words, lab):
    line = f"usage: y86-lab {words.split()[0]} [-h]".encode()
    status, out, err = lab(*words.split())
    same((status, out[: len(line)], err), (0, line, b""))


def test_help_of_y86_lab(lab):
    status, out, err = lab("--help")
    same((status, out.split(b"\n")[0], err), (0, b"usage: y86-lab COMMAND ..", b""))


def test_y86_lab_without_arguments(lab):
    same(lab(), (2, *lab("--help")[1:]))


def test_a_misspelt_command(lab):
    said = b"usage: y86-lab COMMAND ..\ny86-lab: error: there is no command `explian`; did you mean `explain`?\n"
    same(lab("explian", "std.hcl"), (2, b"", said))


# ---- `witness`, `archlab`, `class`, `cycles` and `y86-recheck`

YES = b"yes pt=1111111 pb=1111111 tv=0 lf=0 je=0 rm=0\n"
USAGE_WITNESS = b"usage: y86-lab witness [-h] [--full] [-o FILE] [--tries N] [--seconds N] [--seed N] HCL\ny86-lab witness: error: "
# The words, the status and both streams.
WITNESS = [
    (("witness", "flags.hcl"), 0, b"flags.hcl: " + YES + b"So no program without `iaddq` in which no instruction overwrites one of the next three shows a mistake.\n"
        b"`iaddq` wasn't checked: `--full` checks it too.\n", b""),
    (("witness", "unseen.hcl", "--tries", "1"), 1, b"unseen.hcl: no O25\nTrying up to 1 programs until one shows it, for at most 60 s.\n"
        b"None of 1 programs shows the mistake. The obligation fails all the same: a program that shows it may be rare,\n"
        b"or there is none. A `no` promises that the obligation fails in the situation that it shows, and no more.\n", b""),
    (("witness", "stall_and_bubble.hcl", "--tries", "0"), 2, b"", USAGE_WITNESS + b"argument --tries: 0: a number from 1 to 1000000 is wanted\n"),
    (("witness", "stall_and_bubble.hcl", "--tries", "9" * 20), 2, b"",
        USAGE_WITNESS + b"argument --tries: 99999999999999999999: a number from 1 to 1000000 is wanted\n"),
]
USAGE_CYCLES = b"usage: y86-lab cycles [-h] [--sum] [--full] [--mem N] [--limit N] HCL OBJ\ny86-lab cycles: error: "
CYCLES = [
    (("cycles", "std.hcl", "add.yo", "--limit", "7"), 0, b"cycle  waits  instruction\n"
        b"    5     +4  0x000: irmovq $10, %rdx         filling the pipeline\n"
        b"    6         0x00a: irmovq $3, %rax\n"
        b"    7         0x014: addq %rdx, %rax\n\n"
        b"where the cycles went:\n      3  an instruction each\n      4  filling the pipeline\n"
        b"      7  cycles for 3 instructions, cut off at the limit: 2.33 cycles per instruction\n", b""),
    (("cycles", "seq_plus.hcl", "add.yo", "--limit", "2"), 0,
        b"2 cycles for 2 instructions, cut off at the limit: a sequential processor takes one cycle for each\n", b""),
    # (its last byte is at 0x16)
    (("cycles", "std.hcl", "add.yo", "--mem", "64", "--limit", "100000000", "--sum"), 0, b"where the cycles went:\n      4  an instruction each\n"
        b"      4  filling the pipeline\n      8  cycles for 4 instructions, to the end with HLT: 2.00 cycles per instruction\n", b""),
    (("cycles", "std.hcl", "add.yo", "--limit", "0"), 2, b"", USAGE_CYCLES + b"argument --limit: 0: a number from 1 to 100000000 is wanted\n"),
    (("cycles", "std.hcl", "add.yo", "--mem", "12"), 2, b"",
        USAGE_CYCLES + b"argument --mem: 12: a multiple of 8 from 64 to 1048576 is wanted\n"),
    (("cycles", "std.hcl", "nofile.yo"), 3, b"", b"read fault nofile.yo\n"),
]
# A load and its use at once, a jump that isn't taken, a call and its return.
CAUSES = b"""0x000: 30f48000000000000000 | irmovq $0x80, %rsp
0x00a: 50303000000000000000 | mrmovq 48(%rax), %rbx
0x014: 6033 | addq %rbx, %rbx
0x016: 732800000000000000 | je 0x28
0x01f: 803800000000000000 | call 0x38
0x028: 00 | halt
0x030: 0500000000000000 |
0x038: 90 | ret
"""
# Each instruction retires in the cycle after the one before, or later by the bubbles: 1, 2 and 3 (CS:APP 3e, section 4.5.8).
WAITS = b"""cycle  waits  instruction
    5     +4  0x000: irmovq $0x80, %rsp       filling the pipeline
    6         0x00a: mrmovq 48(%rax), %rbx
    8     +1  0x014: addq %rbx, %rbx          load/use: %rbx
    9         0x016: je 0x28
   12     +2  0x01f: call 0x38                mispredicted jump
   13         0x038: ret
   17     +3  0x028: halt                     return

where the cycles went:
      7  an instruction each
      4  filling the pipeline
      1  load/use
      2  mispredicted jumps
      3  returns
     17  cycles for 7 instructions, to the end with HLT: 2.43 cycles per instruction
"""
# An instruction is fetched when the one before has left write-back. The first wait is for the sum's register, too; the second for none.
ONE_AT_A_TIME = b"""cycle  waits  instruction
    5     +4  0x000: irmovq $7, %rax          filling the pipeline
    9     +3  0x00a: addq %rax, %rax          no forwarding: %rax
   13     +3  0x00c: halt                     other

where the cycles went:
      3  an instruction each
      4  filling the pipeline
      3  no forwarding
      3  other
     13  cycles for 3 instructions, to the end with HLT: 4.33 cycles per instruction
"""
CYCLES += [
    (("cycles", "std.hcl", "causes.yo"), 0, WAITS, b""),
    (("cycles", "one_at_a_time.hcl", "sum.yo"), 0, ONE_AT_A_TIME, b""),
]
# Files with a fault: the sentences of `y86-tell fault`.
NO_SEMICOLON = b"semicolon.hcl:117:1: The definition before ends without `;`. Put one after `0` in line 114.\n"
NO_NAME = b"unknown.hcl:24:13: `icod` is neither a signal nor a constant of SEQ.\n"
NO_HALF = b"half.yo:1: The bytes have a hex digit too few: each byte has two.\n"
NO_IADDQ = b"iadd.ys:1:1: `iaddq` is an instruction with `--full` alone. Without it, load the number by `irmovq` and use `addq`.\n"
FAULTS = [
    (tuple(words.split()), 5, b"", said)
    for words, said in (
        ("try iadd.ys std.hcl", NO_IADDQ),
        ("try half.yo std.hcl", NO_HALF),
        ("try half.yo seq.hcl", NO_HALF),
        ("try add.yo semicolon.hcl", NO_SEMICOLON),
        ("try add.yo unknown.hcl", NO_NAME),
        ("page semicolon.hcl", NO_SEMICOLON),
        ("page semicolon.hcl add.yo", NO_SEMICOLON),
        ("page unknown.hcl add.yo", NO_NAME),
        ("page std.hcl half.yo", NO_HALF),
        ("cycles semicolon.hcl add.yo", NO_SEMICOLON),
        ("cycles unknown.hcl add.yo", NO_NAME),
        ("cycles seq.hcl half.yo", NO_HALF),
        ("witness semicolon.hcl", NO_SEMICOLON),
        ("witness many.hcl", b"many.hcl: the definitions compare more than 64 different pairs of words, and the check takes 64 at most.\n"),
    )
]
# Files in the wrong order, and others than HCL.
ORDER = [
    (tuple(words.split()), 2, b"", said)
    for words, said in (
        ("explain add.yo", b"add.yo is an object file, not HCL. The call is `y86-lab explain HCL`.\n"),
        ("witness add.ys", b"add.ys is a program, not HCL. The call is `y86-lab witness HCL`.\n"),
        ("watch add.yo", b"add.yo is an object file, not HCL. The call is `y86-lab watch HCL`.\n"),
        ("page add.yo std.hcl", b"add.yo is an object file, not HCL. The call is `y86-lab page HCL [OBJ]`.\n"),
        ("draw add.yo std.hcl", b"add.yo is an object file, not HCL. The call is `y86-lab draw HCL OBJ`.\n"),
        ("cycles add.ys std.hcl", b"add.ys is a program, not HCL. The call is `y86-lab cycles HCL OBJ`.\n"),
        ("try add.ys add.yo", b"add.yo is an object file, not HCL. The call is `y86-lab try PROGRAM HCL`.\n"),
    )
]
ORDER += [(("try", *files), 0, b"add.yo comes out right on std.hcl.\n", b"") for files in (("add.yo", "std.hcl"), ("std.hcl", "add.yo"))]
# (a program with iaddq ends at it without --full, on every right processor)
PLUS = b"It ends at 0x0 with status INS, and not at a halt. iaddq is an instruction only with --full.\n"
ORDER += [(("try", "plus.yo", name), 0, b"plus.yo comes out right on " + name.encode() + b".\n" + PLUS, b"") for name in ("std.hcl", "seq.hcl")]
USAGE_CLASS = b"usage: y86-lab class [-h] [--jobs N] [--seconds N] [--megabytes N] [--no-head] [--full]\n                     FOLDER [FOLDER ...]\n"
USAGE_CLASS += b"y86-lab class: error: "
CLASS = [
    (("class", "nodir"), 2, b"", b"nodir: no such folder or file\n"),
    (("class", "std.hcl", "--jobs", "0"), 2, b"", USAGE_CLASS + b"argument --jobs: 0: a number from 1 to 1000000 is wanted\n"),
    (("class", "std.hcl", "--seconds", "9" * 20), 2, b"",
        USAGE_CLASS + b"argument --seconds: 99999999999999999999: a number from 1 to 1000000 is wanted\n"),
]
# The input is x, and each of the 27 outputs is "x and not x".
AIG = b"aag 2 1 0 27 1\n2\n" + b"4\n" * 27 + b"4 2 3\n"
RIGHT = b"right: 4 terms, 6 claims, 4 gates"
SHOWN = b"; all 27 outputs are 0 at every input\n"


def with_text(name, text, status, out, err):
    """A row of `y86-recheck` with the small certificate and another AIGER file."""
    return [(name, text)], ("tiny.crt", name), status, out, err


TINY = read("certificates/tiny.crt")
# The files, the words, the status and both streams.
RECHECK = [
    ([], ("nofile",), 5, b"", b"nofile: No such file or directory\n"),
    ([], (".",), 5, b"", b".: Is a directory\n"),
    ([("empty.crt", b"")], ("empty.crt",), 5, b"", b"empty.crt:1: Syntax\n"),
    ([], ("tiny.crt",), 0, RIGHT + b"\n", b""),
    ([("x.aag", AIG)], ("tiny.crt", "x.aag"), 0, RIGHT + SHOWN, b""),
    # (it doesn't know the settings, so it prints none)
    ([("tv.crt", TINY.replace(b"tv=0", b"tv=1"))], ("tv.crt", "x.aag"), 0, RIGHT + SHOWN, b""),
    ([], ("nofile", "x.aag"), 5, b"", b"nofile: No such file or directory\n"),
    ([], ("tiny.crt", "std.hcl"), 5, b"", b"std.hcl:1: Syntax\n"),
    with_text("x.aag", b"", 5, b"", b"x.aag:1: Syntax\n"),
    with_text("x.aag", b"\xff\n", 5, b"", b"x.aag:1: Syntax\n"),
    # no output, one, 26, 28
    with_text("x.aag", b"aag 0 0 0 0 0\n", 5, b"", b"x.aag:1: Syntax\n"),
    with_text("x.aag", b"aag 2 1 0 1 1\n2\n4\n4 2 3\n", 5, b"", b"x.aag:1: Syntax\n"),
    with_text("x.aag", AIG.replace(b"27", b"26"), 5, b"", b"x.aag:1: Syntax\n"),
    with_text("x.aag", AIG.replace(b"27", b"28"), 5, b"", b"x.aag:1: Syntax\n"),
    # a file that ends early: in an output, before its line end, before the gate's
    with_text("x.aag", AIG[:18], 5, b"", b"x.aag:3: Syntax\n"),
    with_text("x.aag", AIG[:-7], 5, b"", b"x.aag:29: Syntax\n"),
    with_text("x.aag", AIG[:-1], 5, b"", b"x.aag:30: Syntax\n"),
    with_text("x.aag", AIG.replace(b"4 2 3", b"4 2 x"), 5, b"", b"x.aag:30: Syntax\n"),
    with_text("x.aag", b"aag 900000000 1 0 27 900000000\n2\n" + b"4\n" * 27, 5, b"", b"x.aag:30: Syntax\n"),
    # an input that is odd, the constant, or there twice; a gate that is odd, the constant, an input, or there twice
    with_text("x.aag", AIG.replace(b"\n2\n", b"\n3\n", 1), 5, b"", b"x.aag:2: Syntax\n"),
    with_text("x.aag", AIG.replace(b"\n2\n", b"\n0\n", 1), 5, b"", b"x.aag:2: Syntax\n"),
    with_text("x.aag", b"aag 2 2 0 27 0\n2\n2\n" + b"0\n" * 27, 5, b"", b"x.aag:3: Syntax\n"),
    with_text("x.aag", AIG.replace(b"4 2 3", b"5 2 3"), 5, b"", b"x.aag:30: Syntax\n"),
    with_text("x.aag", AIG.replace(b"4 2 3", b"0 2 3"), 5, b"", b"x.aag:30: Syntax\n"),
    with_text("x.aag", AIG.replace(b"4 2 3", b"2 2 3"), 5, b"", b"x.aag:30: Syntax\n"),
    with_text("x.aag", AIG.replace(b"27 1\n", b"27 2\n") + b"4 2 3\n", 5, b"", b"x.aag:31: Syntax\n"),
    # (literal 6 is nobody's; x itself isn't 0; one output of the 27 isn't)
    with_text("x.aag", AIG.replace(b"\n4\n", b"\n6\n", 1), 5, b"", b"x.aag: an output isn't shown to be 0\n"),
    with_text("x.aag", AIG.replace(b"\n4\n", b"\n2\n", 1), 5, b"", b"x.aag: an output isn't shown to be 0\n"),
    with_text("x.aag", AIG[:-8] + b"2\n4 2 3\n", 5, b"", b"x.aag: an output isn't shown to be 0\n"),
]
NCOPY = read("copy/ncopy.ys")
ENDLESS = (b"std.hcl: " + YES + b"length 1, yis: it doesn't end within 2000 steps\n"
    b"length 1, psim: it doesn't end within 2000 cycles\nlength 2, yis: it doesn't end within 3000 steps\n"
    b"length 2, psim: it doesn't end within 3000 cycles\nlength 3, yis: it doesn't end within 4000 steps\n"
    b"correct for lengths 0 to 64 and 128, 192, 256: no\nbytes of the function: 94, of 1000 at most\n"
    b"score: 0 of 60, for the results are wrong\n")
ARCHLAB = [
    (("archlab", "endless.ys", "std.hcl"), 1, ENDLESS, b""),
    (("archlab", "other.ys", "std.hcl"), 1, b"", b"other.ys: it defines no label `ncopy`\n"),
    (("archlab", "std.hcl", "ncopy.ys"), 1, b"", b"std.hcl: it defines no label `ncopy`\n"),
    (("archlab", "twice.ys", "std.hcl"), 1, b"", b"twice.ys: with the labels `lab_..` and the data that follow it: LabelTwice\n"),
    (("archlab", "ncopy_iaddq.ys", "std.hcl"), 1, b"", b"the function, line 8: Syntax (`iaddq` needs `--full`)\n"),
    (("archlab", "ncopy.ys", "nofile.hcl"), 3, b"", b"read fault nofile.hcl\n"),
    (("archlab", "ncopy.ys", "seq.hcl"), 5, b"",
        b"seq.hcl:6:6: This is a file for SEQ, not for PIPE: SEQ has all its names, and PIPE lacks 17 of them, `icode` first.\n"),
]
# (its first statement is on line 3; as object text it would be an empty program)
SOURCE = b"ncopy.ys:3: This is a source and no object file: assemble it by `yas` first. As an object file it puts no byte anywhere.\n"
SOURCES = [((name, "std.hcl", "ncopy.ys"), 5, b"", SOURCE) for name in ("cycles", "page")]
# (`yas` leaves such a file of a source that it refuses)
EMPTY = b"empty.yo: No line puts a byte anywhere. If `yas` refused the source, mend it and assemble it again.\n"
SOURCES += [((name, "std.hcl", "empty.yo"), 5, b"", EMPTY) for name in ("cycles", "page", "try")]
FILES = {f"{name}.hcl": design(name) for name in ("std", "seq_plus", "seq", "stall_and_bubble", "one_at_a_time")}
FILES["semicolon.hcl"] = design("std").replace("bool F_bubble = 0;", "bool F_bubble = 0")
FILES["unknown.hcl"] = changed(design("seq"), srcA="icod")
FILES["many.hcl"] = std(F_bubble=MANY)
FILES |= {"plus.yo": "0x000: c0f00100000000000000 | iaddq $1, %rax\n0x00a: 00 | halt\n"}
FILES |= {"causes.yo": CAUSES, "empty.yo": "", "half.yo": "0x000: 1\n", "iadd.ys": "iaddq $1, %rax\n"}
FILES["sum.yo"] = "0x000: 30f00700000000000000 | irmovq $7, %rax\n0x00a: 6000 | addq %rax, %rax\n0x00c: 00 | halt\n"
# (of iaddq it forgets the flags)
FILES["flags.hcl"] = changed(design("with_iaddq"), set_cc="E_icode == IOPQ && !m_stat in { SADR, SINS, SHLT } && !W_stat in { SADR, SINS, SHLT }")
# (a jump in M never needs the second case, and the check asks for it)
FILES["unseen.hcl"] = changed(design("early_jumps"), f_pc="[ E_icode == IJXX && !e_Cnd : E_valA; W_icode == IRET : W_valM; 1 : F_predPC; ]")
FILES |= {"add.yo": read("programs/add.yo"), "ncopy.ys": NCOPY, "ncopy_iaddq.ys": read("copy/ncopy_iaddq.ys")}
FILES |= {"endless.ys": NCOPY.replace(b"jg next", b"jmp next"), "other.ys": NCOPY.replace(b"ncopy:", b"copy:"), "twice.ys": NCOPY + b"lab_to:\n"}


@cases((" ".join(words), words, status, out, err) for words, status, out, err in (*WITNESS, *CYCLES, *FAULTS, *ORDER, *ARCHLAB, *SOURCES, *CLASS))
def test_command(row, lab):
    _, words, *wanted = row
    same(lab(*words, files=FILES), tuple(wanted))


@cases((f"{number} {' '.join(words)}", files, words, status, out, err) for number, (files, words, status, out, err) in enumerate(RECHECK))
def test_recheck(row, folder):
    _, files, words, *wanted = row
    recheck = Program(f"{TOP}/tools/y86-recheck", folder)
    same(recheck(*words, files={"tiny.crt": TINY, "std.hcl": design("std"), "x.aag": AIG, **dict(files)}), tuple(wanted))


# ---- `class`, on a folder of all that isn't a good file, and on a program that gives no answer; without the seconds, which differ

# (it asks nothing of iaddq, and breaks O15 besides)
ODD = changed(design("with_iaddq"), set_cc="E_icode == IIADDQ")
CLASS_FILES = {f"{name}.hcl": "bool x = ];\n" + design(name) for name in ("std", "seq_plus", "seq")}
CLASS_FILES |= {"flags.hcl": ODD, "PIPE.HCL": ODD, "pipe.txt": ODD, "junk.hcl": "%%\n", "empty.hcl": "", "long.hcl": " " * 65537}
CLASS_FILES |= {"deep.hcl": "bool f_icode = " + "(" * 3000, "l\udce9.hcl": ODD}
CLASS_ROWS = {
    b"file": b"datapath,verdict,obligation,fault,settings,cycles,seconds",
    b"deep.hcl": b"pipe,fault,,1:80: DepthOver64,,", b"empty.hcl": b",fault,,Missing f_pc,,", b"flags.hcl": b"pipe,no,O15,,,",
    b"junk.hcl": b",fault,,1:1: Syntax,,", b"link.hcl": b",unreadable,,,,", b"long.hcl": b",fault,,TooLong 65536,,", b"l\xe9.hcl": b",unreadable,,,,",
    b"pipe.hcl": b",unreadable,,,,", b"seq.hcl": b"seq,fault,,1:10: Syntax,,",
    b"seq_plus.hcl": b"seqplus,fault,,1:10: Syntax,,", b"std.hcl": b"pipe,fault,,1:10: Syntax,,",
}
PASSED_OVER = b"PIPE.HCL: passed over, for its name doesn't end with `.hcl`\npipe.txt: passed over, for its name doesn't end with `.hcl`\n"
PASSED_OVER += b"flags.hcl: `iaddq` wasn't checked: `--full` checks it too.\n"


@pytest.fixture
def odd_class(lab, folder):
    os.mkdir(f"{folder}/class")
    os.mkfifo(f"{folder}/class/pipe.hcl")
    os.symlink("nothing", f"{folder}/class/link.hcl")
    put(f"{folder}/class", CLASS_FILES)
    return lab("class", "class", "--jobs", "2")


def test_class_status_and_standard_error(odd_class):
    same((odd_class.status, odd_class.err), (3, PASSED_OVER))


def test_class_rows(odd_class):
    same(dict(it.partition(b",")[::2] for it in re.sub(rb",[\d.]+$", b"", odd_class.out, flags=re.M).splitlines()), CLASS_ROWS)


def test_class_stopped(lab):
    status, out, err = lab("class", "std.hcl", "--no-head", files={"std.hcl": design("std")}, Y86=shutil.which("false"))
    same((status, out.rpartition(b",")[0], err), (3, b"std.hcl,pipe,stopped,,,,", b""))


GRADED = {"std.hcl": design("std"), "no.hcl": std(set_cc="0"), "fault.hcl": "%%\n"}


@cases([("std.hcl", 0), ("std.hcl no.hcl", 1), ("std.hcl fault.hcl", 1), ("no.hcl fault.hcl", 1)])
def test_class_status(row, lab):
    names, status = row
    came = lab("class", *names.split(), files=GRADED)
    same((came.status, came.err), (status, b""))


# A file's name is no formula.
FORMULAS = ("=cmd|' calc'!A0.hcl", "+1.hcl", "@sum.hcl", "\t1.hcl")


def class_row(lab, *words, files):
    out = lab("class", "--no-head", *words, files=files).out
    return out[: out.rindex(b",") + 1]


@cases((name,) for name in FORMULAS)
def test_class_of_a_file_named(row, lab):
    name = row[0]
    same(class_row(lab, f"./{name}", files={name: "%%\n"}), b"./" + name.encode() + b",,fault,,1:1: Syntax,,,")


@cases((name,) for name in FORMULAS)
def test_class_of_a_folder_with_a_file_named(row, lab, folder):
    name = row[0]
    os.mkdir(f"{folder}/folder")
    same(class_row(lab, "folder", files={f"folder/{name}": "%%\n"}), b"'" + name.encode() + b",,fault,,1:1: Syntax,,,")


def test_class_of_a_file_named_as_an_option(lab):
    same(class_row(lab, "--", "-1.hcl", files={"-1.hcl": "%%\n"}), b"'-1.hcl,,fault,,1:1: Syntax,,,")
