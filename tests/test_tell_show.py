"""What `y86-tell show` says of obligations, instructions, signals and faults, and that the pages say the same.

What instructions do is compared with CS:APP 3e, figures 4.2 and 4.18 to 4.21, and for iaddq with exercises 4.51 and 4.52.
"""
import glob
import json
import re
import textwrap

import pytest

from helpers import obligations_page
from helpers.cases import cases, same
from helpers.pages import lines_of
from helpers.paths import TOP

ENDINGS = {"HCL": "hcl", "assembly": "ys", "object text": "yo"}
# A name, and its group in the JSON.
NAMES = [("O1", "obligations"), ("O27", "obligations"), ("S1", "obligations"), ("d_valA", "signals"), ("new_pc", "signals"),
    ("mrmovq", "instructions"), ("iaddq", "instructions"), ("hcl.semicolon", "faults"), ("asm.operand", "faults"), ("yo.source", "faults")]
# A name, its group in the JSON, and how the entry of each that has it begins.
SHARED = [
    ("jXX", "instructions", ["jmp V", "jle V", "jl V", "je V", "jne V", "jge V", "jg V"]),
    ("cmovXX", "instructions", ["cmovle rA, rB", "cmovl rA, rB", "cmove rA, rB", "cmovne rA, rB", "cmovge rA, rB", "cmovg rA, rB"]),
    ("OPq", "instructions", ["addq rA, rB", "subq rA, rB", "andq rA, rB", "xorq rA, rB"]),
    ("rrmovq", "instructions", ["rrmovq rA, rB"]),
    ("S16", "obligations", ["S16 of SEQ", "S16 of SEQ+"]),
]
# An instruction, and what each stage does.
STAGES = [
    ("mrmovq", "mrmovq D(rB), rA: rA = the word at rB + D.\nBytes: 50 rA:rB D", [
        "fetch       icode:ifun <- M1[PC]", "            rA:rB <- M1[PC + 1]", "            valC <- M8[PC + 2]", "            valP <- PC + 10",
        "decode      valB <- R[rB]", "execute     valE <- valB + valC", "memory      valM <- M8[valE]", "write-back  R[rA] <- valM", "PC update   PC <- valP"]),
    ("subq", "subq rA, rB: rB = rB - rA, and the flags are set.\nBytes: 61 rA:rB\n", [
        "fetch       icode:ifun <- M1[PC]", "            rA:rB <- M1[PC + 1]", "            valP <- PC + 2", "decode      valA <- R[rA]", "            valB <- R[rB]",
        "execute     valE <- valB OP valA", "            Set CC", "memory      nothing", "write-back  R[rB] <- valE", "PC update   PC <- valP"]),
    ("cmovge", "cmovge rA, rB: rB = rA if the condition holds.\nBytes: 25 rA:rB\n", [
        "fetch       icode:ifun <- M1[PC]", "            rA:rB <- M1[PC + 1]", "            valP <- PC + 2", "decode      valA <- R[rA]",
        "execute     valE <- 0 + valA", "            Cnd <- Cond(CC, ifun)", "memory      nothing", "write-back  if (Cnd) R[rB] <- valE", "PC update   PC <- valP"]),
    ("irmovq", "irmovq V, rB: rB = V.\nBytes: 30 F:rB V (the constant has 8 bytes, the lowest first)\n", [
        "fetch       icode:ifun <- M1[PC]", "            rA:rB <- M1[PC + 1]", "            valC <- M8[PC + 2]", "            valP <- PC + 10",
        "decode      nothing", "execute     valE <- 0 + valC", "memory      nothing", "write-back  R[rB] <- valE", "PC update   PC <- valP"]),
    ("rmmovq", "rmmovq rA, D(rB): the word at rB + D = rA.\nBytes: 40 rA:rB D (the constant has 8 bytes, the lowest first)\n", [
        "fetch       icode:ifun <- M1[PC]", "            rA:rB <- M1[PC + 1]", "            valC <- M8[PC + 2]", "            valP <- PC + 10",
        "decode      valA <- R[rA]", "            valB <- R[rB]", "execute     valE <- valB + valC", "memory      M8[valE] <- valA",
        "write-back  nothing", "PC update   PC <- valP"]),
    ("pushq", "pushq rA: %rsp = %rsp - 8, and the word there = rA (pushq %rsp stores the old value).\nBytes: a0 rA:F\n", [
        "fetch       icode:ifun <- M1[PC]", "            rA:rB <- M1[PC + 1]", "            valP <- PC + 2",
        "decode      valA <- R[rA]", "            valB <- R[%rsp]", "execute     valE <- valB + (-8)", "memory      M8[valE] <- valA",
        "write-back  R[%rsp] <- valE", "PC update   PC <- valP"]),
    ("popq", "popq rA: rA = the word at %rsp, and %rsp = %rsp + 8 (popq %rsp leaves the word that was read).\nBytes: b0 rA:F\n", [
        "fetch       icode:ifun <- M1[PC]", "            rA:rB <- M1[PC + 1]", "            valP <- PC + 2", "decode      valA <- R[%rsp]", "            valB <- R[%rsp]",
        "execute     valE <- valB + 8", "memory      valM <- M8[valA]", "write-back  R[%rsp] <- valE", "            R[rA] <- valM", "PC update   PC <- valP"]),
    ("call", "call V: pushes the address of the next instruction and goes on at V.\nBytes: 80 V", [
        "fetch       icode:ifun <- M1[PC]", "            valC <- M8[PC + 1]", "            valP <- PC + 9", "decode      valB <- R[%rsp]",
        "execute     valE <- valB + (-8)", "memory      M8[valE] <- valP", "write-back  R[%rsp] <- valE", "PC update   PC <- valC"]),
    ("ret", "ret: pops an address and goes on there.\nBytes: 90\n", [
        "fetch       icode:ifun <- M1[PC]", "            valP <- PC + 1", "decode      valA <- R[%rsp]", "            valB <- R[%rsp]",
        "execute     valE <- valB + 8", "memory      valM <- M8[valA]", "write-back  R[%rsp] <- valE", "PC update   PC <- valM"]),
    # (figure 4.18 has no Cnd for it)
    ("rrmovq", "rrmovq rA, rB: rB = rA.\nBytes: 20 rA:rB\n", [
        "fetch       icode:ifun <- M1[PC]", "            rA:rB <- M1[PC + 1]", "            valP <- PC + 2", "decode      valA <- R[rA]",
        "execute     valE <- 0 + valA", "memory      nothing", "write-back  R[rB] <- valE", "PC update   PC <- valP"]),
    ("jmp", "jmp V: goes on at V.\nBytes: 70 V", [
        "fetch       icode:ifun <- M1[PC]", "            valC <- M8[PC + 1]", "            valP <- PC + 9", "decode      nothing",
        "execute     nothing", "memory      nothing", "write-back  nothing", "PC update   PC <- valC"]),
    ("jne", "jne V: goes on at V if the condition holds.\nBytes: 74 V", [
        "fetch       icode:ifun <- M1[PC]", "            valC <- M8[PC + 1]", "            valP <- PC + 9", "decode      nothing",
        "execute     Cnd <- Cond(CC, ifun)", "memory      nothing", "write-back  nothing", "PC update   PC <- Cnd ? valC : valP"]),
    ("iaddq", "iaddq V, rB: rB = rB + V, and the flags are set. This instruction is there with --full alone.\nBytes: c0 F:rB V", [
        "fetch       icode:ifun <- M1[PC]", "            rA:rB <- M1[PC + 1]", "            valC <- M8[PC + 2]", "            valP <- PC + 10", "decode      valB <- R[rB]",
        "execute     valE <- valB + valC", "            Set CC", "memory      nothing", "write-back  R[rB] <- valE", "PC update   PC <- valP"]),
    ("halt", "halt: ends the program with status HLT.\nBytes: 00\n", [
        "fetch       icode:ifun <- M1[PC]", "            valP <- PC + 1", "decode      nothing", "execute     nothing", "memory      nothing", "write-back  nothing",
        "PC update   the machine stops with status HLT"]),
    ("nop", "nop: nothing.\nBytes: 10\n", [
        "fetch       icode:ifun <- M1[PC]", "            valP <- PC + 1", "decode      nothing", "execute     nothing",
        "memory      nothing", "write-back  nothing", "PC update   PC <- valP"]),
]
# The encodings of CS:APP 3e, figures 4.2 and 4.3: a mnemonic, its operands, its bytes, the constant of its code, its group, and the largest function of
# the code (15 if any function will do).
CODES = [
    ("halt", "", "00", "IHALT", "halt", 15),
    ("nop", "", "10", "INOP", "nop", 15),
    ("rrmovq", "rA, rB", "20 rA:rB", "IRRMOVQ", "rrmovq", 6),
    ("cmovge", "rA, rB", "25 rA:rB", "IRRMOVQ", "cmovXX", 6),
    ("irmovq", "V, rB", "30 F:rB V", "IIRMOVQ", "irmovq", 15),
    ("rmmovq", "rA, D(rB)", "40 rA:rB D", "IRMMOVQ", "rmmovq", 15),
    ("mrmovq", "D(rB), rA", "50 rA:rB D", "IMRMOVQ", "mrmovq", 15),
    ("andq", "rA, rB", "62 rA:rB", "IOPQ", "OPq", 3),
    ("jmp", "V", "70 V", "IJXX", "jXX", 6),
    ("jg", "V", "76 V", "IJXX", "jXX", 6),
    ("call", "V", "80 V", "ICALL", "call", 15),
    ("ret", "", "90", "IRET", "ret", 15),
    ("pushq", "rA", "a0 rA:F", "IPUSHQ", "pushq", 15),
    ("popq", "rA", "b0 rA:F", "IPOPQ", "popq", 15),
    ("iaddq", "V, rB", "c0 F:rB V", "IIADDQ", "iaddq", 15),
]
# The columns of CS:APP 3e, figures 4.18 to 4.21, in short: the mnemonic, srcA, srcB, dstE, dstM, aluA, aluB, mem_addr, mem_data and next.
COLUMNS = [
    ("rrmovq", "rA", None, "rB", None, "valA", 0, None, None, "valP"),
    ("irmovq", None, None, "rB", None, "valC", 0, None, None, "valP"),
    ("rmmovq", "rA", "rB", None, None, "valC", "valB", "valE", "valA", "valP"),
    ("mrmovq", None, "rB", None, "rA", "valC", "valB", "valE", None, "valP"),
    ("xorq", "rA", "rB", "rB", None, "valA", "valB", None, None, "valP"),
    ("jle", None, None, None, None, None, None, None, None, "branch"),
    ("call", None, "%rsp", "%rsp", None, -8, "valB", "valE", "valP", "valC"),
    ("ret", "%rsp", "%rsp", "%rsp", None, 8, "valB", "valA", None, "valM"),
    ("pushq", "rA", "%rsp", "%rsp", None, -8, "valB", "valE", "valA", "valP"),
    ("popq", "%rsp", "%rsp", "%rsp", "rA", 8, "valB", "valA", None, "valP"),
    ("iaddq", None, "rB", "rB", None, "valC", "valB", None, None, "valP"),
    ("halt", None, None, None, None, None, None, None, None, None),
    ("nop", None, None, None, None, None, None, None, None, "valP"),
]
# A signal, and the datapaths that have it.
DATAPATHS = [("aluA", ["seq", "seqplus", "pipe"]), ("d_valA", ["pipe"]), ("new_pc", ["seq"]), ("pIcode", ["seqplus"]), ("Stat", ["seq", "seqplus", "pipe"])]
# A signal, its stage, and what it is.
SIGNALS = [
    ("f_predPC", "fetch", "The predicted next PC, which F holds in the next cycle."),
    ("d_rvalB", "decode", "The word of `d_srcB` in the register file."),
    ("e_Cnd", "execute", "Whether the condition of a jump or a conditional move in E holds."),
    ("mem_write", "memory", "Whether memory is written. In PIPE the word is `M_valA`."),
    ("w_dstM", "write-back", "The register that `w_valM` is written to."),
    ("W_stall", "pipeline control", "The instruction that stops the machine stays in W."),
    ("pCnd", "fetch", "Whether the condition of the instruction before held."),
    ("srcA", "decode", "The register that is read as valA, or `RNONE`."),
    ("valE", "execute", "The result of the ALU."),
    ("mem_data", "memory", "The word that is written: `valA`, or `valP` for a `call`."),
    ("dstM", "write-back", "The register that valM is written to, or `RNONE`."),
    ("new_pc", "PC update", "The next PC: `valC` for a `call` and a jump that is taken, `valM` for a `ret`, and `valP` for all others."),
]
# The code of a kind of fault, its language, what is wrong, an example, the correction, and the sentences, each once.
FAULTS = [
    ("hcl.extra", "HCL", "A `;` is too many.", ["bool F_bubble = 0;;"], ["bool F_bubble = 0;"],
        ["One `;` is too many.", "No `;` belongs here: a declaration ends with its quoted text."]),
    ("hcl.hexadecimal", "HCL", "Numbers are decimal.", ["word aluA = 0x10;"], ["word aluA = 16;"], ["Numbers are decimal: `0<found>` is <number>."]),
    ("hcl.missing", "HCL", "A signal of the datapath has no definition. A file defines all of them.", ["bool F_bubble = 0;"], [],
        ["`<found>` has no definition: every file for <name> defines it."]),
    ("hcl.cycle", "HCL", "Definitions depend on each other in a circle.", [], [], ["`<found>` depends on itself: <wanted>."]),
    ("asm.overlap", "assembly", "A line puts a byte at an address that has one.", ["    nop", "    .pos 0", "    halt"], ["    nop", "    .pos 8", "    halt"],
        ["The line puts a byte at an address that has one already: a `.pos` before it goes back."]),
    ("asm.capital", "assembly", "Mnemonics, directives and registers have no capital letters.", ["    HALT"], ["    halt"],
        ["`<found>` is written in lower case: mnemonics, directives and registers have no capital letters."]),
    ("yo.outside", "object text", "A byte is past the end of the memory (`--mem`).", ["0x2000: 00"], ["0x1fff: 00"],
        ["A byte of this line is past the end of the memory, which has <number> bytes (`--mem`)."]),
]


def flat(text):
    return re.sub(r"\s+", " ", text)


@pytest.fixture(name="everything")
def shown_everything(y86_tell):
    """All that can be shown."""
    return json.loads(y86_tell("show", "--json").out)


@cases(NAMES)
def test_names(row, y86_tell):
    name, group = row
    status, out, err = y86_tell("show", name).text()
    assert (status, err) == (0, "")
    assert out.startswith(name)
    said = json.loads(y86_tell("show", name, "--json").out)
    assert [it for it in said if said[it]] == [group]
    assert len(said[group]) == 1


@cases(SHARED)
def test_shared_names(row, y86_tell):
    name, group, begins = row
    entries = y86_tell("show", name).text()[1].split("\n\n")
    assert [it.split(":")[0] for it in entries if not it.startswith(" ")] == begins
    said = json.loads(y86_tell("show", name, "--json").out)
    assert [it for it in said if said[it]] == [group]
    assert [it["name"] if group == "instructions" else it["label"] for it in said[group]] == [it.split(" ")[0] for it in begins]


def test_unknown_word(y86_tell):
    for word in ("O28", "S17", "mrmov", "hcl.", "O"):
        wanted = f"{word} is no obligation, no instruction, no signal that a file defines, and no code of a fault. y86-tell show lists these; docs/HCL.md has the other names.\n"
        same(y86_tell("show", word).text(), (1, wanted, ""))
    answer = y86_tell("show", "O28", "--json")
    assert (answer.status, json.loads(answer.out)) == (1, {"obligations": [], "instructions": [], "signals": [], "faults": []})


def test_list(y86_tell, everything):
    """Without a word `show` lists all names, and each of them can be shown."""
    status, out, err = y86_tell("show").text()
    assert (status, err) == (0, "")
    listed = out.split("\n", 1)[1].split()
    names = [it["label"] for it in everything["obligations"] if it["datapaths"] != ["seqplus"]]
    names += [it["name"] for it in [*everything["instructions"], *everything["signals"]]] + [it["code"] for it in everything["faults"]]
    assert [it for it in listed if it not in ("obligations", "instructions", "signals", "faults")] == names
    assert len(names) == len(set(names))


def test_counts(everything):
    """16 obligations of SEQ, the last one of SEQ+, 27 of PIPE; 28 mnemonics."""
    assert [it["label"] for it in everything["obligations"]] == [*(f"S{it}" for it in range(1, 17)), "S16", *(f"O{it}" for it in range(1, 28))]
    assert len(everything["instructions"]) == 28
    codes = [(it["icode"], it["ifun"]) for it in everything["instructions"]]
    assert codes == sorted(codes)


@cases(STAGES)
def test_stages(row, everything, y86_tell):
    name, begins, lines = row
    out = y86_tell("show", name).text()[1]
    assert flat(out).startswith(flat(begins))
    same([line[4:] for line in out.split("\n") if line.startswith("    ")], lines)
    stages = next(it for it in everything["instructions"] if it["name"] == name)["stages"]
    steps = [(it["stage"] if number == 0 else "", step) for it in stages for number, step in enumerate(it["does"] or ["nothing"])]
    same([f"{stage:<12}{step}" for stage, step in steps], lines)


@cases(CODES)
def test_codes(row, everything):
    name, usage, layout, constant, group, top = row
    has_byte, has_constant = ":" in layout, layout.endswith(("V", "D"))
    wanted = {
        "usage": usage, "icode": int(layout[0], 16), "ifun": int(layout[1], 16), "constant": constant, "group": group, "full": name == "iaddq",
        "length": 1 + has_byte + 8 * has_constant, "bytes": layout, "has_register_byte": has_byte, "has_constant": has_constant,
        "uses_rA": "rA" in layout, "uses_rB": "rB" in layout, "ifun_top": top,
    }
    it = next(it for it in everything["instructions"] if it["name"] == name)
    same({key: it[key] for key in wanted}, wanted)


@cases(COLUMNS)
def test_columns(row, everything):
    name, *wanted = row
    it = next(it for it in everything["instructions"] if it["name"] == name)
    assert [it[column] for column in ("srcA", "srcB", "dstE", "dstM", "aluA", "aluB", "mem_addr", "mem_data", "next")] == wanted
    assert it["mem_write"] == (it["mem_data"] is not None)
    assert it["mem_read"] == (it["mem_addr"] is not None and it["mem_data"] is None)
    assert it["alufun"] == (None if it["aluA"] is None else "ifun" if name == "xorq" else "ALUADD")
    assert it["sets_flags"] == (name in ("xorq", "iaddq"))


@cases(DATAPATHS)
def test_datapaths(row, everything):
    name, wanted = row
    assert next(it for it in everything["signals"] if it["name"] == name)["datapaths"] == wanted


@cases(SIGNALS)
def test_signals(row, everything, y86_tell):
    name, stage, meaning = row
    same(flat(y86_tell("show", name).text()[1]), f"{name} ({stage}): {meaning} ".replace("`", ""))
    it = next(it for it in everything["signals"] if it["name"] == name)
    same((it["stage"], it["meaning"]), (stage, meaning))


def test_signals_of_obligations(everything):
    """Each signal that an obligation names is one that can be shown."""
    known = {it["name"] for it in everything["signals"]}
    assert all(set(it["signals"]) <= known for it in everything["obligations"])


def test_page_of_obligations(everything):
    with open(obligations_page.PAGE, encoding="utf-8") as it:
        text = it.read()
    wanted = obligations_page.with_obligations(text, everything["obligations"])
    assert text == wanted, "python3 tests/helpers/obligations_page.py writes docs/OBLIGATIONS.md anew"


def test_an_obligation(y86_tell):
    wanted = """\
O1: f_icode is imem_icode, and f_ifun is imem_ifun.
Why: Everything after the fetch depends on these two numbers.
Signals: f_icode f_ifun
See CS:APP 3e, section 4.5.7 (PC selection and fetch).
"""
    same(y86_tell("show", "O1").text(), (0, wanted, ""))
    same(json.loads(y86_tell("show", "O1", "--json").out)["obligations"], [{
        "label": "O1", "datapaths": ["pipe"], "group": "fetch", "brief": "the instruction and its function are those that were fetched",
        "signals": ["f_icode", "f_ifun"], "demand": "`f_icode` is `imem_icode`, and `f_ifun` is `imem_ifun`.",
        "reason": "Everything after the fetch depends on these two numbers.", "book": "section 4.5.7 (PC selection and fetch)",
    }])


def test_obligations(everything, y86_tell):
    """In sentences they have all that they have in the JSON, which is compared with docs/OBLIGATIONS.md."""
    wanted = {}
    for it in everything["obligations"]:
        label = f"S16 of {'SEQ+' if it['datapaths'] == ['seqplus'] else 'SEQ'}" if it["label"] == "S16" else it["label"]
        parts = f"{label}: {it['demand']}", f"Why: {it['reason']}", f"Signals: {' '.join(it['signals'])}", f"See CS:APP 3e, {it['book']}."
        wanted.setdefault(it["label"], []).append(flat(" ".join(parts)).replace("`", ""))
    same({label: [flat(entry).strip() for entry in y86_tell("show", label).text()[1].split("\n\n")] for label in wanted}, wanted)


def test_page_of_instructions(everything):
    """docs/ASSEMBLY.md says of each instruction what `show` does."""
    said = {}
    for line in lines_of("docs/ASSEMBLY.md"):
        found = re.match(r"\| ((?:`[^`]*` ?)+) \| ([^|]*) \|$", line)
        for name in re.findall(r"`([a-z]\w*)", found[1]) if found else []:
            said[name] = found[2]
    for it in everything["instructions"]:
        sign = dict(addq="+", subq="-", andq="&", xorq="^").get(it["name"], "op")
        assert said[it["name"]].replace(" op ", f" {sign} ").removesuffix("; only with `--full`") == it["meaning"]


@cases(FAULTS)
def test_faults(row, everything, y86_tell):
    code, language, meaning, example, correction, sentences = row
    parts = [f"{code} ({language}): {meaning}"]
    in_lines = [textwrap.fill(it, 92) for it in sentences]
    for title, texts in (("An example:", example), ("The correction:", correction), ("What y86-tell says of it:", in_lines)):
        parts += [title, textwrap.indent("\n".join(texts), "    ")] if texts else []
    same(y86_tell("show", code).text(), (0, "\n\n".join(parts) + "\n", ""))
    wanted = {"code": code, "language": language, "meaning": meaning, "example": "\n".join(example), "mend": "\n".join(correction)}
    wanted["sentences"] = [re.sub("[<>]", "~", it) for it in sentences]
    same(next(it for it in everything["faults"] if it["code"] == code), wanted)


def test_examples_of_faults(everything, y86_tell):
    """An example has its kind of fault, and its mend hasn't."""
    for it in everything["faults"]:
        for text, is_faulty in ((it["example"], True), (it["mend"], False)):
            if text:
                name = f"t.{ENDINGS[it['language']]}"
                processor = ["pipe"] if name.endswith(".hcl") else []
                said = json.loads(y86_tell("fault", name, *processor, "--json", files={name: f"{text}\n".encode("utf-8")}).out)
                assert (it["code"] in [fault["code"] for fault in said["faults"]]) == is_faulty, (it["code"], text, said)


def test_kinds_of_faults(everything):
    """Each code that a report of faults can have is shown, with its sentences."""
    codes = set()
    for path in glob.glob(f"{TOP}/crates/fault_report/src/*.rt"):
        with open(path, encoding="utf-8") as it:
            codes |= set(re.findall(r'b"((?:hcl|asm|yo)\.\w+)"', it.read()))
    assert {it["code"] for it in everything["faults"]} == codes
    assert all(it["sentences"] for it in everything["faults"])
