"""`y86-stages --seq` and `--seqplus`: the lines of the cycles of SEQ and SEQ+, worked out by hand.

What the lines say is written is compared with what `yis` reports of each example program, and the lines of SEQ+ with those of SEQ: under the designs of
examples/ they differ in the line of the PC alone. Then: how a run may end, where words come from, windows and limits, and what is refused.
"""
import glob
import os
import re

import pytest

from helpers.cases import cases, same
from helpers.designs import changed, design, example
from helpers.paths import PROGRAMS
from test_stages import USAGE

# A call and its return, with a jump that is not taken and a move whose condition holds.
CALL = """
    irmovq stack, %rsp
    call f
    halt
f:  subq %rsp, %rax
    je f
    cmovl %rax, %rbx
    ret
    .pos 0x100
stack:
"""

CYCLE_2 = """
F at 0x00a icode 8 ifun 0 imem_icode 8 imem_ifun 0 imem_error 0 instr_valid 1 need_regids 0 need_valC 1 rA - rB - valC 0x14 valP 0x13 | call 0x014
D srcA - srcB %rsp valA 0x0 valB 0x100
E aluA 0xfffffffffffffff8 aluB 0x100 alufun add set_cc 0 valE 0xf8 Cnd 1 aluA_from - aluB_from valB
M mem_addr 0xf8 mem_read 0 mem_write 1 mem_data 0x13 valM 0x0 dmem_error 0 Stat AOK mem_addr_from valE mem_data_from valP
W dstE %rsp dstM -
P new_pc 0x14 new_pc_from valC
flags ZF 1 SF 0 OF 0
write %rsp 0xf8
store 0x0f8 0x13
"""

CYCLE_3 = """
F at 0x014 icode 6 ifun 1 imem_icode 6 imem_ifun 1 imem_error 0 instr_valid 1 need_regids 1 need_valC 0 rA %rsp rB %rax valC 0x0 valP 0x16 | subq %rsp, %rax
D srcA %rsp srcB %rax valA 0xf8 valB 0x0
E aluA 0xf8 aluB 0x0 alufun sub set_cc 1 valE 0xffffffffffffff08 Cnd 1 aluA_from valA aluB_from valB
M mem_addr 0x0 mem_read 0 mem_write 0 mem_data 0x0 valM 0x0 dmem_error 0 Stat AOK mem_addr_from - mem_data_from -
W dstE %rax dstM -
P new_pc 0x16 new_pc_from valP
flags ZF 1 SF 0 OF 0
write %rax 0xffffffffffffff08
"""

CYCLE_4 = """
F at 0x016 icode 7 ifun 3 imem_icode 7 imem_ifun 3 imem_error 0 instr_valid 1 need_regids 0 need_valC 1 rA - rB - valC 0x14 valP 0x1f | je 0x014
D srcA - srcB - valA 0x0 valB 0x0
E aluA 0x0 aluB 0x0 alufun add set_cc 0 valE 0x0 Cnd 0 aluA_from - aluB_from -
M mem_addr 0x0 mem_read 0 mem_write 0 mem_data 0x0 valM 0x0 dmem_error 0 Stat AOK mem_addr_from - mem_data_from -
W dstE - dstM -
P new_pc 0x1f new_pc_from valP
flags ZF 0 SF 1 OF 0
"""

CYCLE_5 = """
F at 0x01f icode 2 ifun 2 imem_icode 2 imem_ifun 2 imem_error 0 instr_valid 1 need_regids 1 need_valC 0 rA %rax rB %rbx valC 0x0 valP 0x21 | cmovl %rax, %rbx
D srcA %rax srcB - valA 0xffffffffffffff08 valB 0x0
E aluA 0xffffffffffffff08 aluB 0x0 alufun add set_cc 0 valE 0xffffffffffffff08 Cnd 1 aluA_from valA aluB_from -
M mem_addr 0x0 mem_read 0 mem_write 0 mem_data 0x0 valM 0x0 dmem_error 0 Stat AOK mem_addr_from - mem_data_from -
W dstE %rbx dstM -
P new_pc 0x21 new_pc_from valP
flags ZF 0 SF 1 OF 0
write %rbx 0xffffffffffffff08
"""

CYCLE_6 = """
F at 0x021 icode 9 ifun 0 imem_icode 9 imem_ifun 0 imem_error 0 instr_valid 1 need_regids 0 need_valC 0 rA - rB - valC 0x0 valP 0x22 | ret
D srcA %rsp srcB %rsp valA 0xf8 valB 0xf8
E aluA 0x8 aluB 0xf8 alufun add set_cc 0 valE 0x100 Cnd 1 aluA_from - aluB_from valB
M mem_addr 0xf8 mem_read 1 mem_write 0 mem_data 0x0 valM 0x13 dmem_error 0 Stat AOK mem_addr_from valA mem_data_from -
W dstE %rsp dstM -
P new_pc 0x13 new_pc_from valM
flags ZF 0 SF 1 OF 0
write %rsp 0x100
"""

# What the instruction before left, in each cycle of SEQ+, and the PC.
PLUS = [
    "P pIcode 1 pCnd 0 pValM 0x0 pValC 0x0 pValP 0x0 pc 0x0 pc_from pValP",
    "P pIcode 3 pCnd 1 pValM 0x0 pValC 0x100 pValP 0xa pc 0xa pc_from pValP",
    "P pIcode 8 pCnd 1 pValM 0x0 pValC 0x14 pValP 0x13 pc 0x14 pc_from pValC",
    "P pIcode 6 pCnd 1 pValM 0x0 pValC 0x0 pValP 0x16 pc 0x16 pc_from pValP",
    "P pIcode 7 pCnd 0 pValM 0x0 pValC 0x14 pValP 0x1f pc 0x1f pc_from pValP",
    "P pIcode 2 pCnd 1 pValM 0x0 pValC 0x0 pValP 0x21 pc 0x21 pc_from pValP",
    "P pIcode 9 pCnd 1 pValM 0x13 pValC 0x0 pValP 0x22 pc 0x13 pc_from pValM",
]

# Both destinations of popq, of which the loaded word wins; the store of a pushq of %rsp; a load and a store at a displacement.
STACK = """
    irmovq 0x80, %rsp
    popq %rsp
    pushq %rsp
    rmmovq %rsp, -8(%rsp)
    mrmovq -8(%rsp), %rcx
    halt
    .pos 0x80
    .quad 0x60
"""

STACK_CHANGES = [
    "write %rsp 0x80", "write %rsp 0x88", "write %rsp 0x60", "write %rsp 0x58", "store 0x058 0x60", "store 0x050 0x58", "write %rcx 0x58"]

# How a run ends, and what its last cycle says: the address, Stat, the instruction; and what is written in the whole run.
ENDS = [
    ("a halt", "0x000: 05 |\n", "HLT cycles 1 retired 1", ("0x000", "HLT", "halt"), []),
    ("no instruction", "0x000: f0 |\n", "INS cycles 1 retired 1", ("0x000", "INS", "invalid"), []),
    ("an ifun that there isn't", "0x000: 6412 |\n", "INS cycles 1 retired 1", ("0x000", "INS", "invalid"), []),
    ("iaddq in the smaller set", "0x000: c0f00100000000000000 |\n", "INS cycles 1 retired 1", ("0x000", "INS", "invalid"), []),
    ("a fetch outside the memory", "0x000: 704000000000000000 |\n", "ADR cycles 2 retired 2", ("0x040", "ADR", "failed fetch"), []),
    ("an instruction that isn't all inside", "0x000: 703f00000000000000 |\n0x03f: 30 |\n", "ADR cycles 2 retired 2", ("0x03f", "ADR", "failed fetch"), []),
    ("a store that fails", "0x000: 30f13900000000000000 |\n0x00a: 40110000000000000000 |\n", "ADR cycles 2 retired 2",
        ("0x00a", "ADR", "rmmovq %rcx, 0(%rcx)"), ["write %rcx 0x39"]),
    ("a load that fails", "0x000: 30f13900000000000000 |\n0x00a: 50210000000000000000 |\n", "ADR cycles 2 retired 2",
        ("0x00a", "ADR", "mrmovq 0(%rcx), %rdx"), ["write %rcx 0x39"]),
    ("a return address that can't be stored", "0x000: 800000000000000000 |\n", "ADR cycles 1 retired 1", ("0x000", "ADR", "call 0x000"), []),
]

DESIGNS = {"--seq": "seq.hcl", "--seqplus": "seq_plus.hcl"}
FILES = {"seq.hcl": example("seq"), "seq_plus.hcl": example("seq_plus"), "std.hcl": example("std"), "bad.hcl": "word icode = ;\n", "bad.yo": "0x000: 3\n"}
EXAMPLES = sorted(glob.glob(f"{PROGRAMS}/*.yo"))


@pytest.fixture
def stages(y86, y86_stages):
    """The program, in a folder with the files that its words name; a program of this page is assembled first."""

    def call(*words, **more):
        files = {name: FILES[name] for name in words if name in FILES} | more
        for name, text in (("calls", CALL), ("pushes", STACK)):
            if f"{name}.yo" in words:
                files[f"{name}.yo"] = y86("yas", f"{name}.ys", files={f"{name}.ys": text}).out
        return y86_stages(*words, files=files).text()

    return call


def cycles(out):
    """The lines of each cycle, and the line of the end."""
    *before, end = out.splitlines()
    return [cycle.strip("\n").split("\n")[1:] for cycle in "\n".join(before).split("cycle ")[1:]], end


def without_pc(cycle):
    return [line for line in cycle if not line.startswith("P ")]


def changes(out):
    return re.findall("^(?:write|store) .*", out, re.M)


# ---- by hand

@cases([(f"cycle {number}", number, wanted) for number, wanted in ((2, CYCLE_2), (3, CYCLE_3), (4, CYCLE_4), (5, CYCLE_5), (6, CYCLE_6))])
def test_cycle_of_seq(row, stages):
    status, out, err = stages("seq.hcl", "calls.yo", "--seq")
    said, end = cycles(out)
    same((status, end, err, len(said)), (0, "end HLT cycles 7 retired 7", "", 7))
    same("\n".join(said[row[1] - 1]), row[2].strip("\n"))


def test_the_pc_of_each_cycle_of_seq_plus(stages):
    status, out, err = stages("seq_plus.hcl", "calls.yo", "--seqplus")
    said, end = cycles(out)
    same((status, end, err, [cycle[0] for cycle in said]), (0, "end HLT cycles 7 retired 7", "", PLUS))


def test_what_is_written_in_its_order(stages):
    same(changes(stages("seq.hcl", "pushes.yo", "--seq")[1]), STACK_CHANGES)


# ---- example programs

def reported(out):
    """The steps, the status, and the registers and words of memory that `yis` reports as changed."""
    found = re.findall(r"^(%\w+|0x\w+):\t\w+\t(\w+)$", out, re.M)
    return re.search(r"^Stopped in (\d+) steps .*Status '(\w+)'", out).groups(), {key: int(word, 16) for key, word in found}


def word_of(memory, at):
    return sum(memory.get(at + place, 0) << 8 * place for place in range(8))


def replayed(program, out):
    """The same from what the lines say is written: registers begin with 0, and memory with the bytes of the object file."""
    registers, memory = {}, {}
    for at, pairs in re.findall(r"^ *0x(\w+):\s*([0-9a-f]+)", program, re.M):
        memory |= {int(at, 16) + place: int(pair, 16) for place, pair in enumerate(re.findall("..", pairs))}
    first = dict(memory)
    for register, word in re.findall(r"^write (%\w+) 0x(\w+)$", out, re.M):
        registers[register] = int(word, 16)
    for at, word in re.findall(r"^store 0x(\w+) 0x(\w+)$", out, re.M):
        memory |= {int(at, 16) + place: byte for place, byte in enumerate(int(word, 16).to_bytes(8, "little"))}
    words = {at: word_of(memory, at) for at in {place - place % 8 for place in memory} if word_of(memory, at) != word_of(first, at)}
    return {register: word for register, word in registers.items() if word} | {f"0x{at:04x}": word for at, word in words.items()}


@cases([(os.path.basename(path), path) for path in EXAMPLES])
def test_example(row, y86, stages):
    name, path = row
    with open(path, encoding="ascii") as it:
        program = it.read()
    out = stages("seq.hcl", name, "--seq", **{name: program})[1]
    said, end = cycles(out)
    (steps, status), wanted = reported(y86("yis", name, files={name: program}).out.decode())
    same((end, replayed(program, out)), (f"end {status} cycles {steps} retired {steps}", wanted))
    plus, other_end = cycles(stages("seq_plus.hcl", name, "--seqplus", **{name: program})[1])
    same(([without_pc(cycle) for cycle in plus], other_end), ([without_pc(cycle) for cycle in said], end))


# ---- ends

@cases([(f"{row[0]} with {option}", option, *row[1:]) for row in ENDS for option in DESIGNS])
def test_end(row, stages):
    _, option, text, end, last, writes = row
    status, out, err = stages(DESIGNS[option], "end.yo", option, "--mem", "64", **{"end.yo": text})
    at, instruction = re.findall(r"^F at (0x\w+) .* \| (.*)$", out, re.M)[-1]
    stat = re.findall(r" Stat (\w+)", out)[-1]
    same((status, err, out.splitlines()[-1], (at, stat, instruction), changes(out)), (int(not end.startswith("HLT")), "", f"end {end}", last, writes))


def test_iaddq_in_the_larger_set(stages):
    text = changed(design("seq"), need_regids="@ || icode == IIADDQ", need_valC="@ || icode == IIADDQ")
    out = stages("iaddq.hcl", "iaddq.yo", "--seq", "--full", "--limit", "1", **{"iaddq.hcl": text, "iaddq.yo": "0x000: c7f0f8ffffffffffffff |\n"})[1]
    same(re.findall(r" (icode \d+ ifun \d+) .* \| (.*)$", out, re.M), [("icode 12 ifun 7", "iaddq $-8, %rax")])


# ---- windows, limits, and what is refused

@cases([(option, name) for option, name in DESIGNS.items()])
def test_window(row, stages):
    option, hcl = row
    whole = stages(hcl, "calls.yo", option)
    second = re.search(r"^cycle 2\n.*?(?=^cycle 3\n)", whole[1], re.M | re.S)[0]
    end = whole[1].splitlines()[-1] + "\n"
    same(stages(option, "--from", "2", hcl, "calls.yo", "--to", "2"), (0, second + end, ""))
    same(stages(hcl, option, "calls.yo", "--limit", "2", "--from", "2"), (1, second + "end AOK cycles 2 retired 2\n", ""))
    same(stages(hcl, "calls.yo", option, "--from", "8"), (0, end, ""))


INVALID_WORDS = [
    ("seq.hcl", "calls.yo", "--seq", "--diagram"), ("seq.hcl", "calls.yo", "--diagram", "--seqplus"), ("seq.hcl", "calls.yo", "--seq", "--seq"),
    ("seq.hcl", "calls.yo", "--seq", "--seqplus"), ("seq.hcl", "calls.yo", "--seqplus", "--seqplus"), ("seq.hcl", "--seq"), ("seq.hcl", "calls.yo", "--seq", "--trace"),
]


@cases([(" ".join(words), words) for words in INVALID_WORDS])
def test_no_command(row, stages):
    same(stages(*row[1]), (2, "", USAGE))


@cases([(f"{command} {' '.join(words)}", command, option, words) for command, option in (("ssim", "--seq"), ("ssimp", "--seqplus"))
    for words in (("bad.hcl", "a.yo"), (DESIGNS[option], "bad.yo"), ("std.hcl", "a.yo"), ("none.hcl", "a.yo"), (DESIGNS[option], "none.yo"))])
def test_refused_as_by(row, y86, y86_stages):
    _, command, option, words = row
    same(y86_stages(*words, option, files=FILES), y86(command, *words))
