"""What the lab says of situations, runs and results: its tables by the book, and its sentences."""
import itertools
import json

import pytest

from helpers.cases import cases, same
from helpers.designs import changed, design
from helpers.paths import TOP
from y86lab.aig.broken import broken_files
from y86lab.aig.confirm import bits_of
from y86lab.aig.network import blif, clauses_below, clauses_of, network_of
from y86lab.commands.classroom import Row, cell, set_verdict, status_of
from y86lab.calls import Answer, Programs
from y86lab.copy_loop import data_of, result_fault, score, words_of
from y86lab.counterexample import programs_of
from y86lab.places import messages, value_in_words
from y86lab.tell import Table, unasked
from y86lab.trial import shows_mistake
from y86lab.trial_programs import at_random, pairs, special

# CS:APP 3e, figures 4.18 to 4.21: srcA, srcB, dstE, dstM of each instruction.
REGISTERS = {
    "halt": (None, None, None, None),
    "nop": (None, None, None, None),
    "rrmovq": ("rA", None, "rB", None),
    "irmovq": (None, None, "rB", None),
    "rmmovq": ("rA", "rB", None, None),
    "mrmovq": (None, "rB", None, "rA"),
    "addq": ("rA", "rB", "rB", None),
    "jmp": (None, None, None, None),
    "call": (None, "%rsp", "%rsp", None),
    "ret": ("%rsp", "%rsp", "%rsp", None),
    "pushq": ("rA", "%rsp", "%rsp", None),
    "popq": ("%rsp", "%rsp", "%rsp", "rA"),
    "iaddq": (None, "rB", "rB", None),
}
# The same figures: aluA and aluB.
OPERANDS = {
    "halt": (None, None),
    "rrmovq": ("valA", 0),
    "irmovq": ("valC", 0),
    "rmmovq": ("valC", "valB"),
    "mrmovq": ("valC", "valB"),
    "addq": ("valA", "valB"),
    "jmp": (None, None),
    "call": (-8, "valB"),
    "ret": (8, "valB"),
    "pushq": (-8, "valB"),
    "popq": (8, "valB"),
    "iaddq": ("valC", "valB"),
}
# Figure 4.3, and figure 3.15 for the conditions.
MNEMONICS = {
    (6, 0): "addq", (6, 1): "subq", (6, 2): "andq", (6, 3): "xorq",
    (7, 0): "jmp", (7, 1): "jle", (7, 2): "jl", (7, 3): "je", (7, 4): "jne", (7, 5): "jge", (7, 6): "jg",
    (2, 0): "rrmovq", (2, 1): "cmovle", (2, 2): "cmovl", (2, 3): "cmove", (2, 4): "cmovne", (2, 5): "cmovge", (2, 6): "cmovg",
    (0, 0): "halt", (1, 0): "nop", (3, 0): "irmovq", (4, 0): "rmmovq", (5, 0): "mrmovq", (8, 0): "call", (9, 0): "ret",
    (10, 0): "pushq", (11, 0): "popq", (12, 0): "iaddq",
}


@pytest.fixture(scope="module")
def table(programs):
    """What y86-tell shows of the machine: the lab has no instruction and no obligation of its own."""
    return Table(Programs(TOP, {"Y86_TELL": programs("y86_tell")}))


@pytest.fixture(scope="module")
def rows(table):
    return {row.name: row for row in table.instructions()}


@pytest.mark.parametrize("name", REGISTERS)
def test_registers_of_an_instruction(name, rows):
    row = rows[name]
    same((row.srcA, row.srcB, row.dstE, row.dstM), REGISTERS[name])


@pytest.mark.parametrize("name", OPERANDS)
def test_operands_of_an_instruction(name, table):
    same([(each["aluA"], each["aluB"]) for each in table.shown["instructions"] if each["name"] == name], [OPERANDS[name]])


def test_a_move_whose_condition_fails_writes_nothing(table):
    """The moves alone write by their condition; so a move whose condition fails writes nothing."""
    moves = ["rrmovq", *(f"cmov{condition}" for condition in "le l e ne ge g".split())]
    same([each["name"] for each in table.shown["instructions"] if each["conditional"]], moves)


def test_mnemonics(rows):
    same({(row.icode, row.ifun): row.name for row in rows.values()}, MNEMONICS)
    same([row.name for row in rows.values() if row.needs_full], ["iaddq"])


def test_how_instructions_go_on(rows):
    """Figures 4.18 to 4.21, the PC update: what a program of a counterexample needs of a row."""
    ways = {name: row.goes_on for name, row in rows.items() if row.goes_on != "valP"}
    same(ways, {"halt": None, "call": "valC", "ret": "valM", **dict.fromkeys("jmp jle jl je jne jge jg".split(), "branch")})
    same([name for name, row in rows.items() if row.has_access], ["rmmovq", "mrmovq", "call", "ret", "pushq", "popq"])


# Values of signals in a counterexample: what y86-tell says of std.hcl with other definitions.

WITH_REGISTERS = "IRRMOVQ, IOPQ, IPUSHQ, IPOPQ, IIRMOVQ, IRMMOVQ, IMRMOVQ"


@pytest.fixture
def told(y86_tell):
    """The first obligation that is false of std.hcl with other definitions."""

    def call(**bodies):
        answer = y86_tell("check", "pipe", "--json", "mine.hcl", files={"mine.hcl": changed(design("std"), **bodies)})
        return json.loads(answer.out)["refuted"][0]

    return call


def finding(refuted, signal):
    return next(each for each in refuted["signals"] if each["signal"] == signal)


# The signal, its body, its value in the counterexample by hand, and what it has to be: its register byte is there or not.
VALUES = [
    ("need_regids", "0", 0, 1),
    ("need_regids", "1", 1, 0),
    ("need_regids", f"f_icode in {{ {WITH_REGISTERS.replace(', IMRMOVQ', '')} }}", 0, 1),
    # (the first part decides; both of its parts; neither)
    ("need_regids", f"f_icode == IRET || f_icode in {{ {WITH_REGISTERS} }}", 1, 0),
    ("need_regids", f"f_icode == IRET && !imem_error || f_icode in {{ {WITH_REGISTERS} }}", 1, 0),
    ("need_regids", f"f_icode == IRET && f_icode == INOP || f_icode in {{ {WITH_REGISTERS.replace('IOPQ, ', '')} }}", 0, 1),
    ("need_valC", "!(f_icode == IJXX)", 1, 0),
]


@pytest.mark.parametrize("signal,body,value,wanted", VALUES, ids=[f"{signal} {body}"[:60] for signal, body, *_ in VALUES])
def test_values(signal, body, value, wanted, told):
    found = finding(told(**{signal: body}), signal)
    same((found["right"], found["value"], found["wanted"]), (False, {"number": value}, {"number": wanted}))


def test_taken_cases(told):
    """The first case whose guard holds; none where no guard holds, and the value is 0 then."""
    body = "[ imem_error : FNONE; f_icode == IHALT : 7; f_icode == IHALT : 8; 1 : imem_ifun; ]"
    found = finding(told(f_ifun=body), "f_ifun")
    same((found["case"]["number"], found["case"]["text"], found["value"]), (2, "f_icode == IHALT : 7;", {"number": 7}))
    found = finding(told(f_ifun="[ imem_icode == 16 : 1; ]"), "f_ifun")
    same((found["case"], found["value"]), (None, {"number": 0}))


def test_what_is_read(told):
    """Each name of the definition once, with its value: not a constant, and not a word that is known by its name alone."""
    found = finding(told(d_valA="[ D_icode in { ICALL, IJXX } : D_valP; d_srcA == e_dstE : e_valE; d_srcA == e_dstE : e_valE; 1 : d_rvalA; ]"), "d_valA")
    same([each["signal"] for each in found["reads"]], ["D_icode", "d_srcA", "e_dstE"])


@pytest.mark.parametrize("sign", ("==", "!=", "<", ">=", ">", "<="))
def test_comparisons_of_words(sign, told):
    """What a comparison of two words gives is what the situation says of them: `f_predPC` is wrong for a `nop`, and picks f_valC where it holds."""
    refuted = told(f_predPC=f"[ f_valC {sign} f_valP : f_valC; f_icode in {{ ICALL, IJXX }} : f_valC; 1 : f_valP; ]")
    same(refuted["obligation"]["label"], "O5")
    same([finding(refuted, "f_predPC")[key] for key in ("value", "wanted")], [{"name": "f_valC"}, {"name": "f_valP"}])
    same(finding(refuted, "f_predPC")["case"]["number"], 1)
    [said] = refuted["counterexample"]["comparisons"]
    pair, holds = (said["left"], said["right"]), said["holds"]
    truths = {"==": holds, "!=": not holds} if said["sign"] == "==" else {"<": holds, ">=": not holds} if pair == ("f_valC", "f_valP") else {">": holds, "<=": not holds}
    same(truths.get(sign), True)


def test_equality_is_symmetric(told):
    """Written the other way round it is the same comparison."""
    refuted = told(f_predPC="[ f_valC == f_valP && f_valP != f_valC : f_valP; f_valP == f_valC : f_valC; f_icode in { ICALL, IJXX } : f_valC; 1 : f_valP; ]")
    same((finding(refuted, "f_predPC")["case"]["number"], len(refuted["counterexample"]["comparisons"])), (2, 1))


def test_values_as_people_write_them():
    """A constant and a register with its number; a word by its name."""
    values = [{"number": 4, "constant": "SINS"}, {"number": 4, "constant": "%rsp"}, {"number": 4, "constant": "IRMMOVQ"}, {"number": 4}, {"name": "e_valE"}]
    same([value_in_words(value) for value in values], ["4 (SINS)", "4 (%rsp)", "4 (IRMMOVQ)", "4", "e_valE"])


def refuted_with(signals=(), motion=None):
    return {"obligation": {"label": "O24"}, "signals": list(signals), "motion": motion}


def test_messages():
    """A wrong signal with its value and the right one; each change that repairs a motion; right signals aren't named."""
    wrong = {"signal": "d_valA", "right": False, "value": {"name": "e_valE"}, "wanted": {"name": "d_rvalA"}}
    same(list(messages(refuted_with([wrong, {**wrong, "right": True}]))), [("d_valA", "d_valA is e_valE. It has to be d_rvalA.")])
    motion = {"faults": ["It is lost."], "invert": ["D_stall", "E_bubble"], "f_pc": []}
    repairs = [("D_stall", "It is lost. Inverting D_stall repairs it."), ("E_bubble", "It is lost. Inverting E_bubble repairs it.")]
    same(list(messages(refuted_with(motion=motion))), repairs)
    same(list(messages(refuted_with(motion={**motion, "invert": [], "f_pc": ["M_valA", "M_valE"]}))),
        [("f_pc", "It is lost. Letting f_pc be M_valA or M_valE repairs it.")])
    pairs = {**motion, "invert": [], "invert_both": [["F_stall", "D_stall"]], "invert_and_f_pc": [{"invert": "D_bubble", "f_pc": "W_valM"}]}
    same(list(messages(refuted_with(motion=pairs))), [("F_stall", "It is lost. Inverting F_stall and D_stall repairs it."),
        ("D_bubble", "It is lost. Inverting D_bubble and letting f_pc be W_valM repairs it.")])
    # (no change repairs it: what the file asks for)
    still = {stage: {"stall": stage == "D", "bubble": stage == "E"} for stage in "FDEMW"}
    same(list(messages(refuted_with(motion={**motion, **still, "invert": []}))), [("D_stall", "It is lost. D_stall is 1."), ("E_bubble", "It is lost. E_bubble is 1.")])
    waits = list(messages(refuted_with([{**wrong, "wanted": None}], {**motion, "faults": []})))
    same(waits[0], ("d_valA", "d_valA is e_valE. No value is right: D has to wait."))
    same(waits[1:], [("D_stall", "Inverting D_stall repairs it."), ("E_bubble", "Inverting E_bubble repairs it.")])


def test_datapaths(table):
    """Also of a text that isn't HCL; by none that is in a comment."""
    same([table.datapath_by_names(text) for text in ("bool F_stall = 0;", "word new_pc = 1;", "word pc = 1;", "word x = 1;", "")],
        ["pipe", "seq", "seqplus", "", ""])
    same(table.datapath_by_names("word new_pc = ;"), "seq")
    same(table.datapath_by_names("word x = ; # new_pc"), "")


def test_iaddq_that_isnt_asked():
    note = "`iaddq` wasn't checked: `--full` checks it too."
    same([unasked(text, full) for text, full in (("IIADDQ", False), ("IIADDQ", True), ("# IIADDQ", False), ("IIADDQS", False))], [note, "", "", ""])


def test_settings_in_words(y86_tell):
    """The sentences of a yes: of the jumps the predicted ones, and a sentence for each other setting."""
    said = y86_tell("check", "pipe", "a.hcl", files={"a.hcl": design("all_shortcuts")}).out.decode()
    lines = [line.strip() for line in said[said.index("Its settings:") :].splitlines()[2:8]]
    same(lines[0], "Forward jumps that it predicts as taken: jmp.")
    same(lines[1], "Backward jumps that it predicts as taken: jmp, jle, jl, je, jne, jge, jg.")
    same(len(lines), 6)
    same(lines[4].rpartition(": ")[2], "it may then cost only one bubble.")


# Programs for the witness.

BUBBLE = {"kind": "bubble", "stat": 0, "icode": 1, "ifun": 0, "dstE": 15, "dstM": 15, "srcA": 15, "srcB": 15}
HALT = {"error": 0, "icode": 0, "ifun": 0, "taken": 0, "stops": 0, "back": 0}


def counterexample_of(**stages):
    return {"F": HALT, "D": BUBBLE, "E": BUBBLE, "M": BUBBLE, "W": BUBBLE, "comparisons": [], **stages}


def made_lines(table, full=False, **stages):
    """The lines of the first program that is made from a counterexample, after its setup and before its data."""
    made = list(programs_of(counterexample_of(**stages), table.instructions(), full))
    lines = made[0]
    return lines[lines.index("nop") + 4 : next(number for number, line in enumerate(lines) if line.startswith(".pos"))]


def stage(icode, ifun=0, **fields):
    return {"kind": "program", "stat": 1, "icode": icode, "ifun": ifun, **fields}


END = ["end:", "halt", "far:", "halt"]
# The stages of a counterexample, and the instructions by hand: the oldest first, with the registers that the fields name.
MADE = [
    ("popq and its use", {"M": stage(11, dstE=4, dstM=4), "D": stage(2, rA=4, rB=0)}, ["popq %rsp", "rrmovq %rsp, %rax", "halt", *END]),
    ("a load and its use", {"E": stage(5, dstE=15, dstM=3, srcA=15, srcB=6), "D": stage(6, rA=3, rB=7)},
        ["mrmovq 8(%rsi), %rbx", "addq %rbx, %rdi", "halt", *END]),
    ("a store, by what it reads", {"E": stage(4, dstE=15, dstM=15, srcA=8, srcB=9)}, ["rmmovq %r8, 8(%r9)", "halt", *END]),
    ("a constant", {"W": stage(3, dstE=14, dstM=15)}, ["irmovq $7, %r14", "halt", *END]),
    ("a jump: the younger ones are on both of its ways", {"E": stage(7, 1, dstE=15, dstM=15, srcA=15, srcB=15), "D": stage(1, rA=15, rB=15)},
        ["jle far", "nop", "halt", "end:", "halt", "far:", "nop", "halt", "halt"]),
    ("a call and a ret go to what is next", {"E": stage(8), "D": stage(9, rA=15, rB=15)}, ["call near2", "near2:", "ret", "near_ret3:", "halt", *END]),
    ("no such instruction", {"D": stage(15, 3, rA=15, rB=15)}, [".byte 0xf3", "halt", *END]),
    ("an address that fails", {"M": {**stage(5, dstE=15, dstM=0), "error": 1}}, ["mrmovq 0x100000(%rdx), %rax", "halt", *END]),
    ("a fetch that fails", {"F": {**HALT, "icode": 1, "error": 1}}, ["jmp 0x100000", *END]),
    ("a halt in M", {"M": stage(0, stat=2, dstE=15, dstM=15)}, ["halt", "halt", *END]),
    ("iaddq without --full", {"D": stage(12, rA=15, rB=0)}, [".byte 0xc0", "halt", *END]),
]


@pytest.mark.parametrize("stages,wanted", [row[1:] for row in MADE], ids=[row[0] for row in MADE])
def test_programs_of_a_counterexample(stages, wanted, table):
    same(made_lines(table, **stages), wanted)


def test_iaddq_in_a_counterexample(table):
    same(made_lines(table, full=True, D=stage(12, rA=15, rB=0))[0], "iaddq $7, %rax")


def test_the_words_behind_a_ret(table):
    """Each word of the stack is the address behind the `ret`, so that it goes on there."""
    lines = next(programs_of(counterexample_of(D=stage(9, rA=15, rB=15)), table.instructions(), False))
    same({line for line in lines if line.startswith(".quad")}, {".quad near_ret3"})


def test_a_bubble_is_a_nop_or_nothing(table):
    made = list(programs_of(counterexample_of(), table.instructions(), False))
    same([lines.count("nop") for lines in made], [4, 4, 4, 8, 8, 8])


def test_programs_of_a_counterexample_of_seq(table):
    """Of SEQ+ the instruction before comes first; SEQ has the instruction alone."""
    of_seq = {"S": {"error": 0, "icode": 6, "ifun": 1, "rA": 0, "rB": 3, "cnd": 1, "derror": 0}, "comparisons": []}
    for counterexample, wanted in ((of_seq, ["subq %rax, %rbx"]), ({"P": {"icode": 9, "cnd": 1}, **of_seq}, ["ret", "near_ret0:", "subq %rax, %rbx"])):
        lines = next(programs_of(counterexample, table.instructions(), False))
        start = lines.index("nop") + 4
        same(lines[start : start + len(wanted)], wanted)


def test_drawn_programs_are_the_same_at_each_call():
    first, second = (list(itertools.islice(at_random(7, True), 50)) for _ in range(2))
    same(first, second)
    assert first != list(itertools.islice(at_random(8, True), 50))


def test_iaddq_is_drawn_with_full_alone():
    for full in (False, True):
        lines = [line for program in itertools.chain(special(), pairs(full), itertools.islice(at_random(7, full), 200)) for line in program]
        same(any(line.startswith("iaddq") for line in lines), full)


# What a run came to, whether the program meets the theorem's premise, its steps, and whether it shows a mistake.
RUNS = [
    ("another instruction", "instruction", "holds", 9, True),
    ("another state", "state", "holds", 9, True),
    ("no end in five cycles for each step", "limit", "holds", 2000, True),
    ("too many steps for the limit", "limit", "holds", 2001, False),
    ("no end of the program", "limit", "open", 10000, False),
    ("code that is stored too late", "instruction", "fails", 9, False),
    ("agreement", "same", "holds", 9, False),
]


@cases(RUNS)
def test_runs_that_show_a_mistake(row):
    _, outcome, premise, steps, wanted = row
    same(shows_mistake(json.dumps({"outcome": outcome, "premise": premise, "steps": steps})), wanted)


# The copy loop.


def test_score():
    """The book's lab: 0 above 10.5 cycles per element, 60 below 7.5, and 20 for each cycle between."""
    same([round(score(mean), 1) for mean in (10.6, 10.5, 10.0, 9.0, 7.5, 7.4)], [0.0, 0.0, 10.0, 30.0, 60.0, 60.0])


def test_data_of_the_driver():
    """The words, a guard in each place after them, and the untouched places for the copy, each of eight bytes from the low one on."""
    held = bytes.fromhex(data_of(3))
    places = [int.from_bytes(held[at : at + 8], "little", signed=True) for at in range(0, len(held), 8)]
    same((places[:3], places[3:257], places[257:]), (words_of(3), [0xBCDEFA] * 254, [0xCDEFAB] * 257))
    same([abs(word) for word in words_of(3)], [1, 2, 3])


def report(status="HLT", rax=None, words=None, more=()):
    words = words_of(2) if words is None else words
    count = sum(word > 0 for word in words_of(2)) if rax is None else rax
    lines = [f"Stopped in 9 steps at PC = 0x0.  Status '{status}', CC Z=1 S=0 O=0", f"%rax:\t0x0\t0x{count:016x}"]
    lines += [f"0x{0x100 + 8 * number:04x}:\t0x{0xCDEFAB:016x}\t0x{word % 2**64:016x}" for number, word in enumerate(words)]
    return "\n".join([*lines, *more]) + "\n"


def test_right_results():
    same(result_fault(report(), 2, 0x100), None)
    same(result_fault(report(more=["0x7ff8:\t0x0\t0x1"]), 2, 0x100), None)


def test_wrong_results():
    positive = sum(word > 0 for word in words_of(2))
    same(result_fault(report("ADR"), 2, 0x100), "it ends with ADR")
    same(result_fault("", 2, 0x100), "it ends with no report")
    same(result_fault(report(rax=7), 2, 0x100), f"%rax is 7, and {positive} words are positive")
    same(result_fault(report(words=[words_of(2)[0], 99]), 2, 0x100), "word 1 isn't copied")
    same(result_fault(report(more=["0x0110:\t0x0\t0x1"]), 2, 0x100), "it writes at 0x110, outside the copy and the stack")


# The table of a class.


def test_cells_are_no_formulas():
    same([cell(text) for text in ("=1+1", "+1", "-1", "@sum", "\t=1", "\r=1", "ann/=1", "", "no")],
        ["'=1+1", "'+1", "'-1", "'@sum", "'\t=1", "'\r=1", "ann/=1", "", "no"])


def test_status_of_a_class():
    rows = [({"yes"}, 0), (set(), 0), ({"yes", "no"}, 1), ({"fault"}, 1), ({"no", "time"}, 3), ({"unreadable"}, 3), ({"stopped", "yes"}, 3)]
    same([status_of(verdicts) for verdicts, _ in rows], [status for _, status in rows])


ANSWERS = [
    (Answer(0, "yes pt=1111111 rm=0\n", ""), ("yes", "", "", "pt=1111111 rm=0")),
    (Answer(1, "no O10\nF ..\n", ""), ("no", "O10", "", "")),
    (Answer(5, "", "a/b.hcl:117:1: Syntax\n"), ("fault", "", "117:1: Syntax", "")),
    (Answer(5, "", "b.hcl: Unknown e_destE\n"), ("fault", "", "Unknown e_destE", "")),
    (Answer(7, "", "b.hcl: TooLong 65536\n"), ("fault", "", "TooLong 65536", "")),
    (Answer(None, "", ""), ("time", "", "", "")),
    (Answer(3, "", "read fault b.hcl\n"), ("unreadable", "", "", "")),
    (Answer(6, "", ""), ("memory", "", "", "")),
    (Answer(1, "", ""), ("stopped", "", "", "")),
    (Answer(-11, "", ""), ("stopped", "", "", "")),
]


@pytest.mark.parametrize("answer,wanted", ANSWERS, ids=[f"{answer.status} {answer.out[:6].strip()}" for answer, _ in ANSWERS])
def test_verdicts(answer, wanted):
    row = Row("b.hcl")
    set_verdict(row, answer)
    same((row.verdict, row.obligation, row.fault, row.settings), wanted)


# AIGER.

# o0 is "x and not y", o1 its negation, o2 is false; there is a gate that none needs.
AAG = "aag 4 2 0 3 2\n2\n4\n6\n7\n0\n6 2 5\n8 2 4\ni0 x\ni1 y\no0 O1\no1 O2\no2 O3\nc\n"


def satisfied(clauses, assignment):
    return all(any((literal > 0) == assignment[abs(literal)] for literal in clause) for clause in clauses)


def test_values_of_a_network():
    network = network_of(AAG)
    same([network.values(bits) for bits in ((0, 0), (1, 0), (0, 1), (1, 1))],
        [[False, True, False], [True, False, False], [False, True, False], [False, True, False]])
    same((network.output_named("O2"), len(network.cone([6])), network.names["i1"]), (1, 1, "y"))


@pytest.mark.parametrize("output", range(3))
def test_clauses_of_an_output(output):
    """They can be met at just the inputs at which the output is 1."""
    network = network_of(AAG)
    clauses = clauses_of(network, output)
    for bits in itertools.product((False, True), repeat=2):
        rest = itertools.product((False, True), repeat=3)
        can_be_met = any(satisfied(clauses, {1: constant, 2: bits[0], 3: bits[1], 4: gate, 5: other}) for constant, gate, other in rest)
        same((bits, can_be_met), (bits, network.values(bits)[output]))


@pytest.mark.parametrize("bits", list(itertools.product((0, 1), repeat=2)))
def test_clauses_of_lesser_inputs(bits):
    """They can be met at just the inputs that come before."""
    network = network_of(AAG)
    clauses, variables = clauses_below(network, bits)
    more = range(6, variables + 1)
    for tried in itertools.product((0, 1), repeat=2):
        choices = ({1: False, 2: bool(tried[0]), 3: bool(tried[1]), 4: False, 5: False, **dict(zip(more, rest))}
            for rest in itertools.product((False, True), repeat=len(more)))
        same((tried, any(satisfied(clauses, choice) for choice in choices)), (tried, tried < bits))


def test_blif():
    lines = blif(network_of(AAG)).splitlines()
    same(lines[:4], [".model aag", ".inputs v1 v2", ".outputs o0 o1 o2", ".names v0"])
    same(lines[4:6], [".names v1 v2 v3", "10 1"])
    same(lines[-5:], [".names v3 o1", "0 1", ".names v0 o2", "1 1", ".end"])


def test_bits_of_a_number():
    same(bits_of(10, 4), [1, 0, 1, 0])


ROWS = """\
## Files that break an obligation each.

# O3: what is wrong: a
design d.hcl std
|word a = 1;
|  bool b = 0;
$ check pipe d.hcl
no O3
= 1

# S16 of SEQ+: the next PC
design d.hcl seq_plus
|word pc = 1;
file p.yo
|0x000: 00 | halt
$ check seqplus d.hcl
no S16
= 1

# other rows
design d.hcl std
|word x = 1;
$ check pipe d.hcl
= 0
"""


def test_broken_files_of_rows():
    same([(each.obligation, each.base, each.definitions) for each in broken_files(ROWS)],
        [("O3", "std.hcl", "word a = 1;\n  bool b = 0;"), ("S16 of SEQ+", "seq_plus.hcl", "word pc = 1;")])
