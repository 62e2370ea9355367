"""What `y86-tell check seq` and `check seqplus` say: of each file of rows/obligations.txt the obligation, the wrong signals with what is wanted.

The expected values are worked out by hand, from the situations in the rows and from CS:APP 3e, figures 4.18 to 4.21.
"""
import json
import re

import pytest

from helpers.cases import cases, same
from helpers.designs import changed, design, example, replaced
from helpers.rows import broken, datapath

# The row, the instruction of the counterexample, and the wrong signal as the page of a refusal says it.
SIGNALS = [
    # a failed fetch counts as a nop, whose code is 1
    ("S1", "the fetch fails, so it counts as a nop", "icode is 0 (IHALT). It has to be 1 (INOP)."),
    ("S2", "pushq, rA %rax, rB %rax", "need_regids is 0. It has to be 1."),
    ("S3", "call", "need_valC is 0. It has to be 1."),
    ("S4", "popq, rA %rax, rB %rax", "srcA is 0 (%rax). It has to be 4 (%rsp)."),
    ("S5", "ret", "srcB is 15 (RNONE). It has to be 4 (%rsp)."),
    ("S6", "cmovle, rA %rax, rB %rax, its condition fails", "dstE is 0 (%rax). It has to be 15 (RNONE)."),
    ("S7", "popq, rA %rax, rB %rax", "dstM is 15 (RNONE). It has to be 0 (%rax)."),
    # -8 as an unsigned word
    ("S8", "popq, rA %rax, rB %rax", "aluA is 18446744073709551608. It has to be 8."),
    # no case of the list is taken, so it is 0
    ("S9", "rmmovq, rA %rax, rB %rax", "aluB is 0. It has to be valB."),
    ("S10", "cmovle, rA %rax, rB %rax, its condition fails", "alufun is 1. It has to be 0."),
    ("S11", "addq, rA %rax, rB %rax", "set_cc is 0. It has to be 1."),
    ("S12", "popq, rA %rax, rB %rax", "mem_addr is valE. It has to be valA."),
    ("S13", "ret", "mem_read is 0. It has to be 1."),
    ("S14", "call", "mem_data is valA. It has to be valP."),
    ("S15", "rmmovq, rA %rax, rB %rax, its access to memory fails", "Stat is 1 (SAOK). It has to be 3 (SADR)."),
    ("S16", "jle, its condition fails", "new_pc is valC. It has to be valP."),
    ("S16 of SEQ+", "halt", "pc is pValP. It has to be pValM."),
]
SHOWN = {row[0]: row for row in broken() if row[0][0] == "S"}


def flat(text):
    return " ".join(text.split())


def refusal(y86_tell, section, *options):
    _, base, definitions, _ = SHOWN[section]
    return y86_tell("check", datapath(section, base), "d.hcl", *options, files={"d.hcl": replaced(design(base), definitions)})


def wrong_lines(text):
    """What a page says of the wrong signals, without the case that is taken and what it reads."""
    first = text.split("\nAlso false somewhere")[0].split("\nAll other obligations")[0]
    return [flat(it) for it in re.findall(r"^    WRONG  (.*?\.)(?=\n           [A-Z]|\n    |\n\n|\n\Z)", first, flags=re.M | re.S)]


def test_all_sections():
    assert set(SHOWN) == {row[0] for row in SIGNALS}


@cases(SIGNALS)
def test_signals(row, y86_tell):
    section, instruction, wanted = row
    status, out, err = refusal(y86_tell, section).text()
    assert (status, err) == (1, "")
    assert out.startswith(f"no: {section.split()[0]} is false somewhere.\n")
    assert f"\n    The instruction: {instruction}\n" in out
    assert wrong_lines(out) == [wanted]
    assert out.endswith("\nAll other obligations hold.\n\nA file that works may be refused, too: perhaps no program reaches this situation.\n")


@pytest.mark.parametrize("section", SHOWN)
def test_situations_agree(section, y86_tell):
    """The counterexample of the JSON is that of `check`, which the row has."""
    _, base, _, answer = SHOWN[section]
    first = json.loads(refusal(y86_tell, section, "--json").out)["refuted"][0]
    lines = answer.split("\n")
    assert first["obligation"]["label"] == lines[0].split()[1]
    assert first["motion"] is None
    said = {line[0]: {name: int(value) for name, value in re.findall(r"(\w+)=(\d+)", line)} for line in lines[1:] if line[:2] in ("S ", "P ")}
    assert {name: first["counterexample"][name] for name in said} == said
    assert ("P" in said) == (datapath(section, base) == "seqplus")


def test_what_was_before(y86_tell):
    out = refusal(y86_tell, "S16 of SEQ+").text()[1]
    assert "\n    The instruction before: ret\n    The instruction: halt\n" in out


# A datapath, a change of the book's design, and what is said of the smallest counterexample above its signals.
SITUATIONS = [
    ("two registers", "seq", {"set_cc": "@ && !(rA == RRCX && rB == RRDX)"}, ["The instruction: addq, rA %rcx, rB %rdx"]),
    ("rA isn't named", "seq", {"dstE": "[ icode == IIRMOVQ && rA == RNONE : RRSP; @ ]"}, ["The instruction: irmovq, rB %rax"]),
    ("an invalid instruction", "seq", {"Stat": "[ icode == 15 : SAOK; @ ]"}, ["The instruction: an invalid one"]),
    ("a jump that is taken", "seq", {"new_pc": "[ icode == IJXX && ifun != UNCOND : valP; @ ]"}, ["The instruction: jle, its condition holds"]),
    ("a move that is done", "seq", {"dstE": "[ icode == IRRMOVQ && ifun == 3 : RNONE; @ ]"}, ["The instruction: cmove, rA %rax, rB %rax, its condition holds"]),
    # a jmp has no condition
    ("a jmp", "seq", {"new_pc": "[ icode == IJXX : valP; @ ]"}, ["The instruction: jmp"]),
    ("one word is below another", "seq", {"set_cc": "@ && !(valA < valB)"}, ["The instruction: addq, rA %rax, rB %rax", "valA is below valB"]),
    ("one word isn't below another", "seq", {"set_cc": "@ && valA < valB"}, ["The instruction: addq, rA %rax, rB %rax", "valA isn't below valB"]),
    ("two words differ", "seq", {"set_cc": "@ && valA == valB"}, ["The instruction: addq, rA %rax, rB %rax", "valA doesn't equal valB"]),
    ("before it a jump that isn't taken", "seqplus", {"pc": "[ pIcode == IJXX : pValC; @ ]"},
        ["The instruction before: jXX, its condition fails", "The instruction: halt"]),
    ("before it a jump that is taken", "seqplus", {"pc": "[ pIcode == IJXX : pValP; @ ]"},
        ["The instruction before: jXX, its condition holds", "The instruction: halt"]),
    # (of a move nothing says whether it was conditional)
    ("before it a move", "seqplus", {"pc": "[ pIcode == IRRMOVQ : pValC; @ ]"}, ["The instruction before: rrmovq", "The instruction: halt"]),
]


def changed_book(path, bodies):
    return changed(design({"seq": "seq", "seqplus": "seq_plus"}[path]), **bodies)


@cases(SITUATIONS)
def test_situation(row, y86_tell):
    _, path, bodies, wanted = row
    out = y86_tell("check", path, "d.hcl", files={"d.hcl": changed_book(path, bodies)}).text()[1]
    same(out.partition("\nThe smallest counterexample:\n\n")[2].partition("\n\n")[0], "\n".join(f"    {it}" for it in wanted))


# A datapath, a change of the book's design, and all that is said of the signals.
FINDINGS = [
    ("a register is read", "seq", {"set_cc": "@ && !(rA == RRCX && rB == RRDX)"}, """\
    WRONG  set_cc is 0. It has to be 1.
           It reads icode = 6 (IOPQ), rA = 1 (%rcx), rB = 2 (%rdx).
"""),
    ("one of two signals is right", "seq", {"mem_read": "icode in { IMRMOVQ, IPOPQ }"}, """\
    WRONG  mem_read is 0. It has to be 1.
           It reads icode = 9 (IRET).
    right  mem_write is 0, as it has to be.
"""),
    ("an invalid instruction", "seq", {"Stat": "[ imem_error || dmem_error : SADR; icode == IHALT : SHLT; 1 : SAOK; ]"}, """\
    WRONG  Stat is 1 (SAOK). It has to be 4 (SINS).
           It takes case 3 of its definition, at line 70, column 71:
               1 : SAOK;
           It reads imem_error = 0, dmem_error = 0, icode = 15.
"""),
    ("the instruction before", "seqplus", {"pc": "[ pIcode == IJXX : pValC; @ ]"}, """\
    WRONG  pc is pValC. It has to be pValP.
           It takes case 1 of its definition, at line 6, column 13:
               pIcode == IJXX : pValC;
           It reads pIcode = 7 (IJXX), pCnd = 0.
"""),
]


@cases(FINDINGS)
def test_findings(row, y86_tell):
    _, path, bodies, wanted = row
    out = y86_tell("check", path, "d.hcl", files={"d.hcl": changed_book(path, bodies)}).text()[1]
    same(out.partition("\nThe signals there:\n\n")[2].partition("\nAll other obligations hold.\n")[0], wanted)


# The names by their numbers (CS:APP 3e, figures 4.2 to 4.4).
INSTRUCTIONS = "halt nop rrmovq irmovq rmmovq mrmovq addq jmp call ret pushq popq".split()
CODES = "IHALT INOP IRRMOVQ IIRMOVQ IRMMOVQ IMRMOVQ IOPQ IJXX ICALL IRET IPUSHQ IPOPQ".split()
FUNCTIONS = {2: "cmovle cmovl cmove cmovne cmovge cmovg", 6: "subq andq xorq", 7: "jle jl je jne jge jg"}
REGISTERS = "%rax %rcx %rdx %rbx %rsp %rbp %rsi %rdi %r8 %r9 %r10 %r11 %r12 %r13 %r14".split()
MNEMONICS = [(name, icode, 0) for icode, name in enumerate(INSTRUCTIONS)]
MNEMONICS += [(name, icode, ifun) for icode, names in FUNCTIONS.items() for ifun, name in enumerate(names.split(), 1)]


@cases(MNEMONICS)
def test_names_of_instructions(row, y86_tell):
    """Of one instruction alone the status is wrong."""
    name, icode, ifun = row
    files = {"d.hcl": changed(design("seq"), Stat=f"[ icode == {icode} && ifun == {ifun} : SADR; @ ]")}
    out = flat(y86_tell("check", "seq", "d.hcl", files=files).text()[1])
    same(re.search(r"The instruction: (\w+)", out)[1], name)
    same(re.search(r"It reads (icode = .*?, ifun = .*?),", out)[1], f"icode = {icode} ({CODES[icode]}), ifun = {ifun}")


@pytest.mark.parametrize("number", range(15))
def test_names_of_registers(number, y86_tell):
    """An `addq` of one register alone doesn't set the flags."""
    out = y86_tell("check", "seq", "d.hcl", files={"d.hcl": changed(design("seq"), set_cc=f"@ && rA != {number}")}).text()[1]
    name = REGISTERS[number]
    assert f"    The instruction: addq, rA {name}, rB %rax\n" in out
    assert f"           It reads icode = 6 (IOPQ), rA = {number} ({name}).\n" in out


def test_case_and_reads(y86_tell):
    """`popq` reads rA in the place of `%rsp`: the first case is taken, behind the design's own lines."""
    text = replaced(design("seq"), SHOWN["S4"][2])
    found = json.loads(refusal(y86_tell, "S4", "--json").out)["refuted"][0]["signals"][0]
    number, line = next((number, line) for number, line in enumerate(text.split("\n"), 1) if line.startswith("word srcA"))
    case = "icode in { IRRMOVQ, IRMMOVQ, IOPQ, IPUSHQ, IPOPQ } : rA;"
    assert found == {
        "signal": "srcA", "right": False, "value": {"number": 0, "constant": "%rax"}, "wanted": {"number": 4, "constant": "%rsp"},
        "case": {"number": 1, "line": number, "column": line.index(case) + 1, "text": case},
        "reads": [{"signal": "icode", "value": {"number": 11, "constant": "IPOPQ"}}, {"signal": "rA", "value": {"number": 0, "constant": "%rax"}}],
    }


def test_comparisons(y86_tell):
    """A comparison of words may hold or not, so the flags may be kept where the file compares."""
    files = {"d.hcl": replaced(design("seq"), "bool set_cc = icode == IOPQ && valA != valB;")}
    status, out, _ = y86_tell("check", "seq", "d.hcl", files=files).text()
    assert status == 1
    assert "\n    The instruction: addq, rA %rax, rB %rax\n    valA equals valB\n" in out
    first = json.loads(y86_tell("check", "seq", "d.hcl", "--json", files=files).out)["refuted"][0]
    assert first["counterexample"]["comparisons"] == [{"left": "valA", "sign": "==", "right": "valB", "holds": True}]


# A condition that keeps the flags, and the comparison of words where it doesn't hold: its sign, and whether it holds.
COMPARISONS = [("valA < valB", "<", False), ("!(valA < valB)", "<", True), ("valA == valB", "==", False)]


@cases(COMPARISONS)
def test_comparisons_in_the_json(row, y86_tell):
    condition, sign, holds = row
    answer = y86_tell("check", "seq", "d.hcl", "--json", files={"d.hcl": changed(design("seq"), set_cc=f"@ && {condition}")})
    wanted = [{"left": "valA", "sign": sign, "right": "valB", "holds": holds}]
    same(json.loads(answer.out)["refuted"][0]["counterexample"]["comparisons"], wanted)


# A change of seq.hcl, what is said of the obligations that are false somewhere beside the first one, the first one, and the one to mend first.
OTHERS = [
    ("no instruction at all", "word icode = [ 1 : INOP; ];", """\
    S2: need_regids is 0. It has to be 1.
    S3: need_valC is 0. It has to be 1.
    S4: srcA is 15 (RNONE). It has to be 0 (%rax).
    S5: srcB is 15 (RNONE). It has to be 0 (%rax).
    S6: dstE is 15 (RNONE). It has to be 0 (%rax).
    S7: dstM is 15 (RNONE). It has to be 0 (%rax).
    S8: aluA is 0. It has to be valA.
    S9: aluB is 0. It has to be valB.
    S10: alufun is 0. It has to be 1.
    S11: set_cc is 0. It has to be 1.
    S12: mem_addr is 0. It has to be valE.
    S13: mem_write is 0. It has to be 1.
    S14: mem_data is 0. It has to be valA.
    S15: Stat is 1 (SAOK). It has to be 2 (SHLT).
    S16: new_pc is valP. It has to be valC.
""", "S1", "S1"),
    ("two signals apart", "bool mem_read = icode in { IMRMOVQ, IPOPQ };\nbool need_valC = icode in { IIRMOVQ, IRMMOVQ, IMRMOVQ, IJXX };", """\
    S13: mem_read is 0. It has to be 1.
""", "S3", "S3"),
    ("two signals of one obligation", """bool mem_read = icode in { IMRMOVQ, IPOPQ, IRET, ICALL };
bool mem_write = icode in { IRMMOVQ, IPUSHQ };
bool need_valC = icode in { IIRMOVQ, IRMMOVQ, IMRMOVQ, IJXX };""", """\
    S13: mem_read is 1. It has to be 0. mem_write is 0. It has to be 1.
""", "S3", "S3"),
    # a store goes wrong in aluA as aluB does
    ("aluA by aluB", """word aluB = [ icode in { IMRMOVQ, IOPQ, ICALL, IPUSHQ, IRET, IPOPQ } : valB; icode in { IRRMOVQ, IIRMOVQ } : 0; ];
word aluA = [ icode == IRMMOVQ && aluB == 0 : valA; icode in { IRRMOVQ, IOPQ } : valA; icode in { IIRMOVQ, IRMMOVQ, IMRMOVQ } : valC;
  icode in { ICALL, IPUSHQ } : -8; icode in { IRET, IPOPQ } : 8; ];""", """\
    S9: aluB is 0. It has to be valB.
""", "S8", "S9"),
]


@cases(OTHERS)
def test_others(row, y86_tell):
    _, change, others, label, first = row
    files = {"d.hcl": replaced(design("seq"), change)}
    said = json.loads(y86_tell("check", "seq", "d.hcl", "--json", files=files).out)
    assert [it["obligation"]["label"] for it in said["refuted"]] == [label] + re.findall(r"S\d+", others)
    assert said["mend_first"] == first
    out = y86_tell("check", "seq", "d.hcl", files=files).text()[1]
    said = out.partition("\nAlso false somewhere, each in a situation of its own:\n\n")[2].partition("\nA file that works")[0]
    mend = f"Mend {first} first: its wrong signals don't depend on the wrong signals of another obligation.\n"
    same(said, f"{others}\nAll other obligations hold.\n{mend}")


def test_others_in_the_json(y86_tell):
    """Each obligation has a counterexample of its own, and the values there: `call` lacks its constant, and `ret` doesn't read memory."""
    files = {"d.hcl": replaced(design("seq"), OTHERS[1][1])}
    first, other = json.loads(y86_tell("check", "seq", "d.hcl", "--json", files=files).out)["refuted"]
    wanted = {"S": {"error": 0, "icode": 8, "ifun": 0, "rA": 15, "rB": 15, "cnd": 1, "derror": 0}, "comparisons": []}
    same(first["counterexample"], wanted)
    wanted["S"]["icode"] = 9
    same(other["counterexample"], wanted)
    same([(it["signal"], it["right"], it["value"], it["wanted"]) for it in other["signals"]],
        [("mem_read", False, {"number": 0}, {"number": 1}), ("mem_write", True, {"number": 0}, {"number": 0})])
    same([it["reads"] for it in other["signals"]], [[{"signal": "icode", "value": {"number": 9, "constant": "IRET"}}]] * 2)


# An example, its datapath, and what the processor is called.
ACCEPTED = [("seq", "seq", "SEQ"), ("seq_plus", "seqplus", "SEQ+")]


@cases(ACCEPTED)
def test_yes(row, y86_tell):
    name, path, called = row
    files = {"d.hcl": example(name)}
    status, out, err = y86_tell("check", path, "d.hcl", files=files).text()
    assert (status, err) == (0, "")
    assert out == f"yes: all 16 obligations hold.\n\nThis {called} does what the instructions mean, for every program.\n"
    assert json.loads(y86_tell("check", path, "d.hcl", "--json", files=files).out) == {"verdict": "yes", "full": False, "names_iaddq": False}


def test_iaddq(y86_tell):
    """The book's file doesn't know `iaddq`; a file that knows half of it has a yes without `--full` alone."""
    assert y86_tell("check", "seq", "d.hcl", "--full", files={"d.hcl": example("seq")}).text()[1].startswith("no: S2 is false somewhere.\n")
    half = {"d.hcl": replaced(design("seq"), "bool need_regids = icode in { IRRMOVQ, IOPQ, IPUSHQ, IPOPQ, IIRMOVQ, IRMMOVQ, IMRMOVQ, IIADDQ };")}
    status, out, _ = y86_tell("check", "seq", "d.hcl", files=half).text()
    assert status == 0
    assert out.endswith("\n\nThe file names IIADDQ, but iaddq wasn't checked. --full checks it too.\n")
    assert json.loads(y86_tell("check", "seq", "d.hcl", "--json", files=half).out)["names_iaddq"]
    status, out, _ = y86_tell("check", "seq", "d.hcl", "--full", files=half).text()
    assert (status, wrong_lines(out)) == (1, ["need_valC is 0. It has to be 1."])
    assert "\n    The instruction: iaddq, " in out


def test_iaddq_of_pipe(y86_tell):
    files = {"d.hcl": example("with_iaddq")}
    out = y86_tell("check", "pipe", "d.hcl", files=files).text()[1]
    assert out.endswith("\n\nThe file names IIADDQ, but iaddq wasn't checked. --full checks it too.\n")
    assert "IIADDQ" not in y86_tell("check", "pipe", "d.hcl", "--full", files=files).text()[1]


# A datapath, a text, and what is said of its fault.
FAULTS = [
    ("an expression is missing", "seq", "word new_pc = ;\n", "d.hcl:1:15: An operand is missing after `=`"),
    ("a file for SEQ where SEQ+ was asked", "seqplus", example("seq"), ": This is a file for SEQ, not for SEQ+: SEQ has all its names, and SEQ+ lacks 1 of them"),
]


@cases(FAULTS)
def test_faults(row, y86_tell):
    _, path, text, said = row
    status, out, err = y86_tell("check", path, "d.hcl", files={"d.hcl": text}).text()
    assert (status, out) == (5, "")
    assert said in err
