"""What calls of `y86-tell` answer by their words: each option, what is taken without it, and the exit statuses.

The expected values are worked out by hand: from the rules of docs/COMMANDS.md and docs/TELL.md, and by counting bytes and steps of the programs. The
sentences are those of the tables in the crates `program_report` (`specs/`), `fault_report` and `tell_cli`.
"""
import json

import pytest

from helpers.cases import cases, same
from helpers.designs import changed, design, example

STOPS = (
    "The program stops in step {}.\nNo instruction fetches a byte that one of the three instructions before it stored.\n"
    "Under every HCL file that `y86 check pipe` accepts, `y86 psim` therefore reports what `y86 yis` reports.\n"
    "All three need the same --full; the runs need the same --mem, and `y86 psim` a --limit of at least five cycles for each step.\n"
)
OPEN = (
    "The program hasn't stopped by the end of step {}.\nSo far no instruction has fetched a byte that one of the three instructions before it stored.\n"
    "A larger --limit may decide.\n"
)
MEETS = (
    "The instruction at {} fetches a byte that the instruction at 0x014 stored {} before.\n"
    "The store writes the 8 bytes from {} on. Steps before the fetch: {}.\n"
    "A pipeline may have fetched the old byte, so the theorem about accepted HCL files doesn't cover this program.\n"
    "These two would be no reason if at least three other instructions ran between them.\n"
)
# The third instruction, of 10 bytes as the first two, stores into the constant of the one at `target`.
PATCH = " irmovq target, %rbx\n irmovq $2, %rcx\n rmmovq %rcx, 2(%rbx)\n{}target: irmovq $1, %rax\n halt\n"
LOOP = "loop: jmp loop\n"
LOAD = " irmovq ${}, %rax\n mrmovq (%rax), %rbx\n halt\n"
ADDS = " irmovq $2, %rax\n iaddq $3, %rax\n halt\n"
# A program, the options, the status, and what `program` says.
PROGRAMS = [
    ("stored one step before", PATCH.format(""), (), 1, MEETS.format("0x01e", "one step", "0x020", 3)),
    ("stored two steps before", PATCH.format(" nop\n"), (), 1, MEETS.format("0x01f", "two steps", "0x021", 4)),
    ("stored three steps before", PATCH.format(2 * " nop\n"), (), 1, MEETS.format("0x020", "three steps", "0x022", 5)),
    ("stored four steps before", PATCH.format(3 * " nop\n"), (), 0, STOPS.format(8)),
    ("the most steps without --limit", LOOP, (), 1, OPEN.format(10000)),
    ("--limit", LOOP, ("--limit", "7"), 1, OPEN.format(7)),
    ("the last step of the limit", " nop\n halt\n", ("--limit", "2"), 0, STOPS.format(2)),
    ("a step less", " nop\n halt\n", ("--limit", "1"), 1, OPEN.format(1)),
    # without --full the iaddq is no instruction, which ends the program
    ("--full", ADDS, ("--full",), 0, STOPS.format(3)),
    ("iaddq without --full", ADDS, (), 0, STOPS.format(2)),
    # a load from outside the memory ends the program
    ("--mem", LOAD.format(64), ("--mem", "64"), 0, STOPS.format(2)),
    ("a word more of memory", LOAD.format(64), ("--mem", "72"), 0, STOPS.format(3)),
    ("the last word of memory without --mem", LOAD.format(8184), (), 0, STOPS.format(3)),
    ("a byte behind it", LOAD.format(8185), (), 0, STOPS.format(2)),
    ("the largest memory", LOAD.format(1048568), ("--mem", "1048576"), 0, STOPS.format(3)),
    ("the largest limit", " halt\n", ("--limit", "100000000"), 0, STOPS.format(1)),
]


@pytest.fixture
def assembled(y86):
    return lambda source: y86("yas", "p.ys", "--full", files={"p.ys": source}).out


@cases(PROGRAMS)
def test_program(row, assembled, y86_tell):
    _, source, options, status, wanted = row
    same(y86_tell("program", "p.yo", *options, files={"p.yo": assembled(source)}).text(), (status, wanted, ""))


# A program, the options, the status of `run`, and some of what it says: from cycle 5 on a jump retires in each cycle.
RUNS = [
    ("the most cycles", LOOP, (), 1, {"outcome": "limit", "cycles": 10000, "instructions": 9996}),
    ("the last word of memory", LOAD.format(8184), (), 0, {"outcome": "same", "status": "HLT"}),
    ("a byte behind it", LOAD.format(8185), (), 0, {"outcome": "same", "status": "ADR"}),
    ("the smallest memory", LOAD.format(56), ("--mem", "64"), 0, {"outcome": "same", "status": "HLT"}),
    ("the largest limit", " halt\n", ("--limit", "100000000"), 0, {"outcome": "same", "status": "HLT"}),
]


@cases(RUNS)
def test_run(row, assembled, y86_tell):
    _, source, options, status, wanted = row
    answer = y86_tell("run", "d.hcl", "p.yo", "--json", *options, files={"d.hcl": example("std"), "p.yo": assembled(source)})
    said = json.loads(answer.out)
    same((answer.status, {name: said.get(name) for name in wanted}), (status, wanted))


NO_FAULT = (0, "no fault\n")
IADDQ = "f.ys:1:2: `iaddq` is an instruction with `--full` alone. Without it, load the number by `irmovq` and use `addq`.\n"
PAST = "f.ys:2: The line goes past the end of the memory, which has {} bytes (`--mem`).\n"
PAST_OBJECT = "f.yo:1: A byte of this line is past the end of the memory, which has {} bytes (`--mem`).\n"
# A file, its text, the words behind it, and the status and what `fault` says.
FAULTS = [
    ("assembly behind the memory", "f.ys", " .pos 64\n halt\n", ("--mem", "64"), (5, PAST.format(64))),
    ("assembly in a larger one", "f.ys", " .pos 64\n halt\n", ("--mem", "72"), NO_FAULT),
    ("assembly behind the memory without --mem", "f.ys", " .pos 8192\n halt\n", (), (5, PAST.format(8192))),
    ("assembly at its end", "f.ys", " .pos 8191\n halt\n", (), NO_FAULT),
    ("object text behind the memory", "f.yo", "0x040: 00 |\n", ("--mem", "64"), (5, PAST_OBJECT.format(64))),
    ("object text in a larger one", "f.yo", "0x040: 00 |\n", ("--mem", "72"), NO_FAULT),
    ("object text behind the memory without --mem", "f.yo", "0x2000: 00 |\n", (), (5, PAST_OBJECT.format(8192))),
    ("object text at its end", "f.yo", "0x1fff: 00 |\n", (), NO_FAULT),
    ("iaddq", "f.ys", " iaddq $1, %rax\n", (), (5, IADDQ)),
    ("iaddq with --full", "f.ys", " iaddq $1, %rax\n", ("--full",), NO_FAULT),
    ("a file for SEQ", "f.hcl", example("seq"), ("seq",), NO_FAULT),
    ("a file for SEQ+", "f.hcl", example("seq_plus"), ("seqplus",), NO_FAULT),
    ("a file for PIPE", "f.hcl", example("std"), ("pipe",), NO_FAULT),
    # the other's own names are `new_pc`, and `pIcode`, `pCnd`, `pValC`, `pValM` and `pValP`
    ("a file for SEQ as one for SEQ+", "f.hcl", "word new_pc = valP;\n", ("seqplus",),
        (5, "f.hcl:1:6: This is a file for SEQ, not for SEQ+: SEQ has all its names, and SEQ+ lacks 1 of them, `new_pc` first.\n")),
    ("a file for SEQ+ as one for SEQ", "f.hcl", example("seq_plus"), ("seq",),
        (5, "f.hcl:6:13: This is a file for SEQ+, not for SEQ: SEQ+ has all its names, and SEQ lacks 5 of them, `pIcode` first.\n")),
    ("the longest file of HCL", "f.hcl", example("std").ljust(65536, "#"), ("pipe",), NO_FAULT),
    ("the longest source", "f.ys", "#" * 1048576, (), NO_FAULT),
    ("the longest object text", "f.yo", "0x000: 00 |".ljust(1048576, "#"), (), NO_FAULT),
    # as HCL, or as object text, it would have a fault
    ("a name without an ending", "hcl", " halt\n", (), NO_FAULT),
    ("another ending", "f.HCL", " halt\n", (), NO_FAULT),
]


@cases(FAULTS)
def test_fault(row, y86_tell):
    _, name, text, words, wanted = row
    answer = y86_tell("fault", name, *words, files={name: text}).text()
    same((answer[:2], answer[2]), (wanted, ""))


# A text, the words behind its name, and the processor that it is taken for.
TAKEN = [
    ("SEQ is named", "", ("seq",), "SEQ"),
    ("SEQ+ is named", "", ("seqplus",), "SEQ+"),
    ("PIPE is named", "", ("pipe",), "PIPE"),
    ("a file for SEQ", example("seq"), (), "SEQ"),
    ("a file for SEQ+", example("seq_plus"), (), "SEQ+"),
    ("a file for PIPE", example("std"), (), "PIPE"),
]


@cases(TAKEN)
def test_datapath(row, y86_tell):
    _, text, words, wanted = row
    same(json.loads(y86_tell("fault", "f.hcl", *words, "--json", files={"f.hcl": text}).out)["datapath"], wanted)


MIXED = (
    "d.hcl: `{}` joins a code (an icode, a register number, a status) with a word of 64 bits. The check can't decide that: compare codes with codes, "
    "and words with words.\n"
)
OVER_64 = "d.hcl: the definitions compare more than 64 different pairs of words, and the check takes 64 at most.\n"
MANY = f"valA in {{ {', '.join(str(number) for number in range(2, 67))} }}"
# A design, what is changed, and what `check` says.
NO_VERDICT = [
    ("a code beside a word: PIPE", "pipe", "std", {"F_bubble": "0 && D_icode == D_valP"}, MIXED.format("F_bubble")),
    ("a code beside a word: SEQ", "seq", "seq", {"set_cc": "icode == valA"}, MIXED.format("set_cc")),
    ("a code for a word: SEQ+", "seqplus", "seq_plus", {"pc": "[ 1 : pIcode; ]"}, MIXED.format("pc")),
    ("65 comparisons: PIPE", "pipe", "std", {"F_bubble": f"0 && E_{MANY}"}, OVER_64),
    ("65 comparisons: SEQ", "seq", "seq", {"set_cc": MANY}, OVER_64),
    ("65 comparisons: SEQ+", "seqplus", "seq_plus", {"set_cc": MANY}, OVER_64),
]


@cases(NO_VERDICT)
def test_no_verdict(row, y86_tell):
    _, path, name, bodies, wanted = row
    same(y86_tell("check", path, "d.hcl", files={"d.hcl": changed(design(name), **bodies)}).text(), (5, "", wanted))


# Exercises 4.51 and 4.52: a design for SEQ or SEQ+ with iaddq.
WITH_IADDQ = {
    **dict.fromkeys(("instr_valid", "need_regids", "need_valC", "set_cc"), "@ || icode == IIADDQ"),
    **dict.fromkeys(("srcB", "dstE"), "[ icode == IIADDQ : rB; @ ]"),
    "aluA": "[ icode == IIADDQ : valC; @ ]", "aluB": "[ icode == IIADDQ : valB; @ ]",
}
# A file that is accepted, its datapath, the options, whether iaddq was checked, and whether the file names its code.
ACCEPTED = [
    ("PIPE", example("std"), "pipe", (), False, False),
    ("PIPE, with iaddq", example("with_iaddq"), "pipe", (), False, True),
    ("PIPE, --full", example("with_iaddq"), "pipe", ("--full",), True, True),
    ("SEQ", example("seq"), "seq", (), False, False),
    ("SEQ, with iaddq", changed(design("seq"), **WITH_IADDQ), "seq", (), False, True),
    ("SEQ, --full", changed(design("seq"), **WITH_IADDQ), "seq", ("--full",), True, True),
    ("SEQ+, with iaddq", changed(design("seq_plus"), **WITH_IADDQ), "seqplus", (), False, True),
    ("SEQ+, --full", changed(design("seq_plus"), **WITH_IADDQ), "seqplus", ("--full",), True, True),
]


@cases(ACCEPTED)
def test_accepted(row, y86_tell):
    _, text, path, options, is_full, is_named = row
    status, out, err = y86_tell("check", path, "d.hcl", *options, files={"d.hcl": text}).text()
    same((status, err), (0, ""))
    same("--full checks it too" in out, is_named and not is_full)
    said = json.loads(y86_tell("check", path, "d.hcl", "--json", *options).out)
    same((said["verdict"], said["full"], said["names_iaddq"]), ("yes", is_full, is_named))


ODD_SIZE = "--mem takes a multiple of 8 from 64 to 1048576\n"
NO_FILE = ": the file can't be read\n"
TOO_LONG = ": the file is too long: over 65,536 bytes for HCL, over 1,048,576 for others\n"
FILES = {"p.yo": "0x000: 00 |\n", "odd.yo": "0x000: 000 |\n", "std.hcl": example("std"), "long.hcl": "#" * 65537}
FILES |= {"long.yo": "#" * 1048577, "long.ys": "#" * 1048577}
# The words of a call, the status, and how standard error begins.
REFUSED = [
    ("", 2, "error: "),
    ("program", 2, "error: "),
    ("program p.yo p.yo", 2, "error: "),
    ("program p.yo --json", 2, "error: "),
    ("program p.yo --full --full", 2, "error: "),
    ("program p.yo --mem 65", 2, ODD_SIZE),
    ("program p.yo --mem 56", 2, "error: "),
    ("program p.yo --mem 1048584", 2, "error: "),
    ("program p.yo --limit 0", 2, "error: "),
    ("program p.yo --limit 100000001", 2, "error: "),
    ("program no.yo", 3, "no.yo" + NO_FILE),
    ("program odd.yo", 5, "odd.yo:1: The bytes have a hex digit too few: each byte has two.\n"),
    ("program long.yo", 7, "long.yo" + TOO_LONG),
    ("run std.hcl p.yo --mem 65", 2, ODD_SIZE),
    ("run std.hcl p.yo --limit 100000001", 2, "error: "),
    ("run std.hcl long.yo", 7, "long.yo" + TOO_LONG),
    ("fault", 2, "error: "),
    ("fault p.yo sequential", 2, "error: "),
    ("fault p.yo --limit 7", 2, "error: "),
    ("fault p.yo --mem 65", 2, ODD_SIZE),
    ("fault no.hcl", 3, "no.hcl" + NO_FILE),
    ("fault long.yo", 7, "long.yo" + TOO_LONG),
    ("fault long.ys", 7, "long.ys" + TOO_LONG),
    ("fault long.hcl", 7, "long.hcl" + TOO_LONG),
    ("check std.hcl", 2, "error: "),
    ("check pipe", 2, "error: "),
    ("check pipe std.hcl --mem 64", 2, "error: "),
    ("check seq no.hcl", 3, "no.hcl" + NO_FILE),
    ("check seqplus no.hcl", 3, "no.hcl" + NO_FILE),
    ("check pipe no.hcl", 3, "no.hcl" + NO_FILE),
    ("check seq long.hcl", 7, "long.hcl" + TOO_LONG),
    ("check pipe long.hcl", 7, "long.hcl" + TOO_LONG),
    ("show O1 O2", 2, "error: "),
    ("explain O1", 2, "error: "),
]


@cases(REFUSED)
def test_refused(row, y86_tell):
    words, status, begins = row
    came = y86_tell(*words.split(), files={name: FILES[name] for name in words.split() if name in FILES}).text()
    same((came[0], came[1], came[2][: len(begins)]), (status, "", begins))


# Two calls that say the same: options may be anywhere behind the command.
ALIKE = [
    ("program --limit 1 --mem 64 p.yo", "program p.yo --mem 64 --limit 1"),
    ("run --unchecked std.hcl --json p.yo", "run std.hcl p.yo --json --unchecked"),
    ("fault --json std.hcl --full pipe", "fault std.hcl pipe --full --json"),
    ("check --json pipe --full std.hcl", "check pipe std.hcl --full --json"),
    ("show --json O1", "show O1 --json"),
]


@cases(ALIKE)
def test_order(row, y86_tell):
    mixed, plain = (y86_tell(*words.split(), files={name: FILES[name] for name in ("p.yo", "std.hcl")}).text() for words in row)
    same(mixed, plain)
    assert mixed[0] in (0, 1) and mixed[2] == ""
