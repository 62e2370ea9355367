"""`y86-stages` on the hazards of the book, with diagrams that were worked out by hand.

The hazards are those of CS:APP 3e, sections 4.5.5 and 4.5.8, under forwarding (std.hcl) and without it (no_bypassing.hcl). Then: how a run may end, what
the object file lists at an address, where words come from by the picks of the file, invalid command lines, and files that are refused.
"""
import re

import pytest

from helpers.cases import cases, same
from helpers.designs import changed, design, example
from helpers.paths import PROGRAMS
from helpers.programs import Program

USAGE = "usage: y86-stages HCL OBJ [--seq|--seqplus] [--full] [--mem N] [--limit N] [--from N] [--to N] [--diagram]\n"

RET = """
    irmovq stack, %rsp
    call f
    halt
f:  ret
    nop
    .pos 0x100
stack:
"""

JUMP = """
    xorq %rax, %rax
    jne target
    irmovq $1, %rax
    halt
target:
    irmovq $-2, %rdx
    irmovq $3, %rbx
    halt
"""

# A ret at the target of a mispredicted jump.
COMBINATION_A = """
    xorq %rax, %rax
    jne target
    irmovq $1, %rax
    halt
target:
    ret
    nop
"""

# A load into %rsp, and a ret that reads it.
COMBINATION_B = """
    mrmovq sp(%rdi), %rsp
    ret
    nop
    .pos 0x10
    halt
    .pos 0x18
sp: .quad 0x20
    .quad 0x10
"""

LOAD = "0x000 mrmovq 16(%rdi), %rax"

LOAD_USE = f"""
  F  D  E  M  W          | {LOAD}
     F  D  D  E  M  W    | 0x00a addq %rax, %rax
        F  F  D  E  M  W | 0x00c halt
           E  M  W       | bubble
              F  D  e    | 0x00d halt
                 F  D  E | 0x00e halt
                    F  D | 0x00f halt
                       M | bubble
                       F | 0x010 halt
end HLT cycles 8 retired 3
"""

LOAD_USE_NB = f"""
  F  D  E  M  W                | {LOAD}
     F  D  D  D  D  E  M  W    | 0x00a addq %rax, %rax
        F  F  F  F  D  E  M  W | 0x00c halt
           E  M  W             | bubble
              E  M  W          | bubble
                 E  M  W       | bubble
                    F  D  e    | 0x00d halt
                       F  D  E | 0x00e halt
                          F  D | 0x00f halt
                             M | bubble
                             F | 0x010 halt
end HLT cycles 10 retired 3
"""

RET_STD = """
  F  D  E  M  W                   | 0x000 irmovq $256, %rsp
     F  D  E  M  W                | 0x00a call 0x014
        F  D  E  M  W             | 0x014 ret
           f  f  f                | 0x015 nop
              D  E  M  W          | bubble
                 D  E  M  W       | bubble
                    D  E  M  W    | bubble
                    F  D  E  M  W | 0x013 halt
                       F  D  e    | 0x014 ret
                          f  f  F | 0x015 nop
                             D  E | bubble
                                M | bubble
                                D | bubble
end HLT cycles 11 retired 4
"""

RET_NB = """
  F  D  E  M  W                         | 0x000 irmovq $256, %rsp
     F  D  D  D  D  E  M  W             | 0x00a call 0x014
        F  F  F  F  D  D  D  D  E  M  W | 0x014 ret
           E  M  W                      | bubble
              E  M  W                   | bubble
                 E  M  W                | bubble
                    F  F  F  f  f  f    | 0x015 nop
                       E  M  W          | bubble
                          E  M  W       | bubble
                             E  M  W    | bubble
                                D  E  M | bubble
                                   D  E | bubble
                                      D | bubble
                                      F | 0x013 halt
"""

JUMP_BOTH = """
  F  D  E  M  W          | 0x000 xorq %rax, %rax
     F  D  E  M  W       | 0x002 jne 0x016
        F  d             | 0x016 irmovq $-2, %rdx
           f             | 0x020 irmovq $3, %rbx
              E  M  W    | bubble
              D  E  M  W | bubble
              F  D  E  M | 0x00b irmovq $1, %rax
                 F  D  E | 0x015 halt
                    F  D | 0x016 irmovq $-2, %rdx
                       F | 0x020 irmovq $3, %rbx
"""

A_BOTH = """
  F  D  E  M  W          | 0x000 xorq %rax, %rax
     F  D  E  M  W       | 0x002 jne 0x016
        F  d             | 0x016 ret
           f             | 0x017 nop
              E  M  W    | bubble
              D  E  M  W | bubble
              F  D  E  M | 0x00b irmovq $1, %rax
                 F  D  E | 0x015 halt
                    F  D | 0x016 ret
                       f | 0x017 nop
"""

B_STD = """
  F  D  E  M  W       | 0x000 mrmovq 24(%rdi), %rsp
     F  D  D  E  M  W | 0x00a ret
        F  f  f  f    | 0x00b nop
           E  M  W    | bubble
              D  E  M | bubble
                 D  E | bubble
                    D | bubble
                    F | 0x010 halt
"""

B_NB = """
  F  D  E  M  W             | 0x000 mrmovq 24(%rdi), %rsp
     F  D  D  D  D  E  M  W | 0x00a ret
        F  F  F  f  f  f    | 0x00b nop
           E  M  W          | bubble
              E  M  W       | bubble
                 E  M  W    | bubble
                    D  E  M | bubble
                       D  E | bubble
                          D | bubble
                          F | 0x010 halt
"""

PIP = """
  F  D  E  M | 0x000 irmovq $64, %rsp
     F  D  E | 0x00a popq %rsp
        F  D | 0x00c ret
           F | 0x00d halt
end PIP cycles 4 retired 0
"""

FAULT = """
  F  D  E  M  W    | 0x000 irmovq $8192, %rbx
     F  D  E  M  W | 0x00a mrmovq 0(%rbx), %rax
        F  D  e    | 0x014 halt
           F  D  E | 0x015 halt
              F  D | 0x016 halt
                 M | bubble
                 F | 0x017 halt
end ADR cycles 6 retired 2
"""

# Two lines at one address, a label without bytes, lines without a text and without a bar, an address with one digit, a bar in a text, blanks at both ends.
LISTED = """
0x000: 6000                 | addq %rax, %rax  # the first
0x000: 6000                 | \t main:  addq %rax, %rax  # get it \t\r
0x002:                      | next:
0x002: 10                   |
0x003: 10
  0x4: 10                   |nop # one | two
0x005: 00                   | halt
0x005: 00                   |  \t
                            | # a comment
0x006:                      | .pos 6
"""

LISTED_ROWS = """
  F  D  E  M  W             | 0x000 addq %rax, %rax | main:  addq %rax, %rax  # get it
     F  D  E  M  W          | 0x002 nop
        F  D  E  M  W       | 0x003 nop
           F  D  E  M  W    | 0x004 nop | nop # one | two
              F  D  E  M  W | 0x005 halt | halt
                 F  D  e    | 0x006 halt
                    F  D  E | 0x007 halt
                       F  D | 0x008 halt
                          M | bubble
                          F | 0x009 halt
end HLT cycles 9 retired 5
"""

# The store writes zeros over the nop at 0x017, which the listing still has.
WRITTEN_OVER = """
0x000: 30f31700000000000000 | irmovq $23, %rbx
0x00a: 40130000000000000000 | rmmovq %rcx, (%rbx)
0x014: 10                   | nop
0x015: 10                   | nop
0x016: 10                   | nop
0x017: 10                   | nop
"""

WRITTEN_OVER_ROWS = """
  F  D  E  M  W                | 0x000 irmovq $23, %rbx | irmovq $23, %rbx
     F  D  E  M  W             | 0x00a rmmovq %rcx, 0(%rbx) | rmmovq %rcx, (%rbx)
        F  D  E  M  W          | 0x014 nop | nop
           F  D  E  M  W       | 0x015 nop | nop
              F  D  E  M  W    | 0x016 nop | nop
                 F  D  E  M  W | 0x017 halt | nop
                    F  D  e    | 0x018 halt
                       F  D  E | 0x019 halt
                          F  D | 0x01a halt
                             M | bubble
                             F | 0x01b halt
end HLT cycles 10 retired 6
"""

# Each place from which d_valA and d_valB can come under std.hcl.
FORWARDED = """
    irmovq $64, %rsi
    irmovq $3, %rax
    addq %rax, %rsi
    nop
    nop
    addq %rsi, %rax
    mrmovq data(%rdx), %rcx
    nop
    addq %rcx, %rdx
    mrmovq data(%rbx), %rbp
    nop
    nop
    addq %rbp, %rbx
    addq %rcx, %rdi
    halt
    .align 8
data:
    .quad 5
"""

# By the address of what stands in D: the irmovq before it is in E and the one before that in M; the addq is in W; the load is in M, and in W; and none is.
SOURCES = {
    "0x014": ("e_valE", "M_valE"),
    "0x018": ("W_valE", "d_rvalB"),
    "0x025": ("m_valM", "d_rvalB"),
    "0x033": ("W_valM", "d_rvalB"),
    "0x035": ("d_rvalA", "d_rvalB"),
}

IADDQ = """
  F  D  E  M  W       | 0x000 irmovq $7, %rdx
     F  D  E  M  W    | 0x00a iaddq $-7, %rdx
        F  D  E  M  W | 0x014 halt
           F  D  e    | 0x015 halt
              F  D  E | 0x016 halt
                 F  D | 0x017 halt
                    M | bubble
                    F | 0x018 halt
end HLT cycles 7 retired 3
"""

LIMIT = f"""
  F  D  E | {LOAD}
     F  D | 0x00a addq %rax, %rax
        F | 0x00c halt
end AOK cycles 3 retired 0
"""

# Without the bubble in E a load/use hazard leaves the addq in D and lets E have it too: it goes on twice, and its row has the later stage.
TWICE = f"""
  F  D  E  M  W          | {LOAD}
     F  D  E  M  W  W    | 0x00a addq %rax, %rax
        F  F  D  E  M  W | 0x00c halt
              F  D  e    | 0x00d halt
                 F  D  E | 0x00e halt
                    F  D | 0x00f halt
                       M | bubble
                       F | 0x010 halt
end HLT cycles 8 retired 4
"""

# M and W are emptied behind a load in M: it is lost in M, the bubble behind it in E, and of the two new bubbles that in W has the first row.
LOST = f"""
  F  D  E  m             | {LOAD}
     F  D  D  E  M  W    | 0x00a addq %rax, %rax
        F  F  D  E  M  W | 0x00c halt
           e             | bubble
              W          | bubble
              M  W       | bubble
              F  D  e    | 0x00d halt
                 F  D  E | 0x00e halt
                    F  D | 0x00f halt
                       M | bubble
                       F | 0x010 halt
end HLT cycles 8 retired 2
"""

# E stays while M is emptied behind a load: what D holds is lost, and what E holds isn't.
STALLED_E = f"""
  F  D  E  M  W          | {LOAD}
     F  D  d             | 0x00a addq %rax, %rax
        F  F  D  E  M  W | 0x00c halt
           E  E  M  W    | bubble
              M  W       | bubble
              F  D  e    | 0x00d halt
                 F  D  E | 0x00e halt
                    F  D | 0x00f halt
                       M | bubble
                       F | 0x010 halt
end HLT cycles 8 retired 2
"""

# F is emptied while D stays: the fetch is lost, and the next one is from address 0.
EMPTIED_F = f"""
  F  D  E  M  W    | {LOAD}
     F  D  D  E  M | 0x00a addq %rax, %rax
        f          | 0x00c halt
           E  M  W | bubble
           F  D  E | {LOAD}
              F  D | 0x00a addq %rax, %rax
                 f | 0x00c halt
end AOK cycles 6 retired 1
"""

# Only what stands in a stage in these two cycles.
WINDOW = f""" 04 05
  M  W | {LOAD}
  D  E | 0x00a addq %rax, %rax
  F  D | 0x00c halt
  E  M | bubble
     F | 0x00d halt
end HLT cycles 8 retired 3
"""

# A jump to itself has a row for each cycle.
HUNDRED = """ 99 00 01
  W       | 0x000 jmp 0x000
  M  W    | 0x000 jmp 0x000
  E  M  W | 0x000 jmp 0x000
  D  E  M | 0x000 jmp 0x000
  F  D  E | 0x000 jmp 0x000
     F  D | 0x000 jmp 0x000
        F | 0x000 jmp 0x000
end AOK cycles 101 retired 97
"""

# Fields and signals that are one another's neighbours differ.
FIELDS = """
    irmovq $128, %rsp
    irmovq $3, %rbx
    irmovq $-5, %rcx
    irmovq $7, %rsi
    popq %rdx
    pushq %rbx
    subq %rsi, %rcx
    rmmovq %rdx, 24(%rbx)
    jne target
    halt
    .pos 0x50
target:
    halt
    .pos 0x80
    .quad 0x11
"""

FIELDS_LINES = """
D row 5 at 0x028 next load stat AOK rA %rdx rB - valC 0x0 valP 0x2a d_srcA %rsp d_srcB %rsp d_dstE %rsp d_dstM %rdx d_valA 0x80 d_valB 0x80 d_valA_from d_rvalA d_valB_from d_rvalB | popq %rdx
E row 6 at 0x02a next load stat AOK valC 0x0 valA 0x3 valB 0x88 srcA %rbx srcB %rsp dstE %rsp dstM - aluA 0xfffffffffffffff8 aluB 0x88 alufun add set_cc 0 e_Cnd 1 e_valE 0x80 e_dstE %rsp | pushq %rbx
M row 5 at 0x028 next load stat AOK Cnd 1 valE 0x88 valA 0x80 dstE %rsp dstM %rdx mem_addr 0x80 mem_read 1 mem_write 0 m_valM 0x11 m_stat AOK | popq %rdx
cycle 9
F row 9 at 0x038 next load stat AOK F_predPC 0x38 f_valC 0x50 f_valP 0x41 f_predPC 0x50 f_pc_from F_predPC | jne 0x050
D row 8 at 0x02e next load stat AOK rA %rdx rB %rbx valC 0x18 valP 0x38 d_srcA %rdx d_srcB %rbx d_dstE - d_dstM - d_valA 0x11 d_valB 0x3 d_valA_from W_valM d_valB_from d_rvalB | rmmovq %rdx, 24(%rbx)
E row 7 at 0x02c next load stat AOK valC 0x0 valA 0x7 valB 0xfffffffffffffffb srcA %rsi srcB %rcx dstE %rcx dstM - aluA 0x7 aluB 0xfffffffffffffffb alufun sub set_cc 1 e_Cnd 1 e_valE 0xfffffffffffffff4 e_dstE %rcx | subq %rsi, %rcx
M row 6 at 0x02a next load stat AOK Cnd 1 valE 0x80 valA 0x3 dstE %rsp dstM - mem_addr 0x80 mem_read 0 mem_write 1 m_valM 0x0 m_stat AOK | pushq %rbx
W row 5 at 0x028 next load stat AOK valE 0x88 valM 0x11 dstE %rsp dstM %rdx Stat AOK | popq %rdx
flags ZF 1 SF 0 OF 0
write %rsp 0x88
write %rdx 0x11
store 0x080 0x3
cycle 10
"""

# Instructions with ifuns that they ignore, and how they are told.
IGNORED = """
0x000: 1f
0x001: 35f40001000000000000
0x00b: 4f040000000000000000
0x015: 59040000000000000000
0x01f: a10f
0x021: b20f
0x023: cff00100000000000000
0x02d: 833700000000000000
0x036: 0e
0x037: 97
"""

IGNORED_TEXTS = [
    "0x000 nop", "0x001 irmovq $256, %rsp", "0x00b rmmovq %rax, 0(%rsp)", "0x015 mrmovq 0(%rsp), %rax", "0x01f pushq %rax", "0x021 popq %rax",
    "0x023 iaddq $1, %rax", "0x02d call 0x037", "0x037 ret", "0x036 halt"]

# A halt whose ifun is 5.
HALT_5 = """
  F  D  E  M  W | 0x000 halt
     F  D  e    | 0x001 halt
        F  D  E | 0x002 halt
           F  D | 0x003 halt
              M | bubble
              F | 0x004 halt
end HLT cycles 5 retired 1
"""

# Bytes that are no instruction: an icode or an ifun that there isn't, a register that there isn't, and a byte that the smaller set hasn't.
INVALID = ("d0", "f0", "2701", "6401", "770000000000000000", "20f0", "30ff0100000000000000", "a0ff", "c0f00100000000000000")

# Each instruction, as the text of its line says it.
TEXTS = """
    irmovq $256, %rsp
    rrmovq %rax, %rcx
    cmovle %rcx, %rdx
    cmovl %rdx, %rbx
    cmove %rbx, %rsi
    cmovne %rsi, %rdi
    cmovge %rdi, %r8
    cmovg %r8, %r9
    addq %r9, %r10
    subq %r10, %r11
    andq %r11, %r12
    xorq %r12, %r13
    iaddq $-1, %r14
    rmmovq %r14, -8(%rsp)
    mrmovq 264(%rbp), %rax
    pushq %rax
    popq %rbp
    jmp 0x04b
    jle 0x054
    jl 0x05d
    je 0x066
    jne 0x06f
    jge 0x078
    jg 0x081
    call 0x08b
    halt
    nop
    ret
"""


def without_texts(object_text):
    """An object file that lists nothing: what stands behind each bar is cut."""
    return re.sub(r"\|.*", "|", object_text)


def std(**bodies):
    return changed(design("std"), **bodies)


DESIGNS = {name: example(name) for name in ("std", "no_bypassing", "with_iaddq", "stall_and_bubble")}
# Designs where control is another than the book's.
DESIGNS["twice"] = std(E_bubble="E_icode == IJXX && !e_Cnd")
DESIGNS["lost"] = std(M_bubble="@ || M_icode == IMRMOVQ", W_bubble="M_icode == IMRMOVQ")
DESIGNS["stalled_e"] = std(E_stall="M_icode == IMRMOVQ", M_bubble="@ || M_icode == IMRMOVQ")
DESIGNS["emptied_f"] = std(F_stall="IRET in { D_icode, E_icode, M_icode }", F_bubble="E_icode == IMRMOVQ && E_dstM in { d_srcA, d_srcB }")
DESIGNS["twenty"] = std(d_srcA="20")
DESIGNS["nine"] = std(alufun="9")
SOURCE_TEXTS = {
    "ret": RET, "jump": JUMP, "a": COMBINATION_A, "b": COMBINATION_B, "fields": FIELDS, "forwarded": FORWARDED,
    "store_fails": "irmovq $1, %rcx\nrmmovq %rcx, 0x2000(%rcx)\n",
    "functions": "addq %rax, %rax\nsubq %rax, %rax\nandq %rax, %rax\nxorq %rax, %rax\npushq %rax\nhalt\n",
}
OBJECT_TEXTS = {
    "iaddq": "0x000: 30f20700000000000000 |\n0x00a: c0f2f9ffffffffffffff |\n0x014: 00 |\n",
    "loop": "0x000: 700000000000000000 |\n",
    "listed": LISTED,
    "written_over": WRITTEN_OVER,
    "halt_5": "0x000: 05 |\n",
    "ignored": IGNORED,
    # a call that stores at 0x0f8
    "call": "0x000: 30f40001000000000000 |\n0x00a: 801300000000000000 |\n0x013: 00 |\n",
}


def examples():
    for name in ("load_use", "stall_and_bubble", "fault"):
        with open(f"{PROGRAMS}/{name}.yo", encoding="utf-8") as it:
            yield f"{name}.yo", without_texts(it.read())


@pytest.fixture(scope="session")
def files(programs, tmp_path_factory):
    """All files that the tests name."""
    y86 = Program(programs("y86"), tmp_path_factory.mktemp("stages"))
    found = {f"{name}.hcl": text for name, text in DESIGNS.items()} | {f"{name}.yo": text for name, text in OBJECT_TEXTS.items()} | dict(examples())
    for name, text in SOURCE_TEXTS.items():
        found[f"{name}.yo"] = without_texts(y86("yas", f"{name}.ys", files={f"{name}.ys": text}).out.decode())
    found["texts.yo"] = y86("yas", "texts.ys", "--full", files={"texts.ys": TEXTS}).out.decode()
    return found


@pytest.fixture
def stages(y86_stages, files):
    """The program, in a folder with the files that its words name."""

    def call(*words, **more):
        return y86_stages(*words, files={name: files[name] for name in words if name in files} | more).text()

    return call


# ---- diagrams: what one shows, the design, the program, the rows (without an end among them, only the rows), the status, more words

DIAGRAMS = [
    ("load/use", "std", "load_use", LOAD_USE, 0),
    ("load/use", "no_bypassing", "load_use", LOAD_USE_NB, 0),
    ("ret", "std", "ret", RET_STD, 0),
    ("ret", "no_bypassing", "ret", RET_NB, 0),
    ("a mispredicted jump", "std", "jump", JUMP_BOTH, 0),
    ("a mispredicted jump", "no_bypassing", "jump", JUMP_BOTH, 0),
    ("combination A", "std", "a", A_BOTH, 0),
    ("combination A", "no_bypassing", "a", A_BOTH, 0),
    ("combination B", "std", "b", B_STD, 0),
    ("combination B", "no_bypassing", "b", B_NB, 0),
    ("an instruction in two stages", "twice", "load_use", TWICE, 0),
    ("what is lost in M", "lost", "load_use", LOST, 0),
    ("E stays and M is emptied", "stalled_e", "load_use", STALLED_E, 0),
    ("F is emptied and D stays", "emptied_f", "load_use", EMPTIED_F, 1, "--limit", "6"),
    ("a halt with an ifun", "std", "halt_5", HALT_5, 0),
    ("stalled and bubbled", "stall_and_bubble", "stall_and_bubble", PIP, 1),
    ("an address outside the memory", "std", "fault", FAULT, 1),
    ("iaddq", "with_iaddq", "iaddq", IADDQ, 0, "--full"),
    ("a limit", "std", "load_use", LIMIT, 1, "--limit", "3"),
    ("what is listed", "std", "listed", LISTED_ROWS, 0),
    ("a nop that is written over", "std", "written_over", WRITTEN_OVER_ROWS, 0),
]


@cases((f"{row[0]} under {row[1]}", *row[1:]) for row in DIAGRAMS)
def test_diagram(row, stages):
    _, hcl, program, wanted, status, *words = row
    rows = wanted[1:]
    columns = max(len(line.split("|")[0]) for line in rows.splitlines() if "|" in line) // 3
    head = "".join(f" {number:02}" for number in range(1, columns + 1)) + "\n"
    is_whole = "end " in rows
    came, out, err = stages(f"{hcl}.hcl", f"{program}.yo", "--diagram", *words, *(() if is_whole else ("--to", str(columns))))
    same((came, out if is_whole else out[: out.rindex("end ")], err), (status, head + rows, ""))


def test_two_cycles_of_a_diagram(stages):
    same(stages("std.hcl", "load_use.yo", "--diagram", "--from", "4", "--to", "5"), (0, WINDOW, ""))


def test_the_hundredth_cycle(stages):
    same(stages("std.hcl", "loop.yo", "--diagram", "--from", "99", "--limit", "101"), (1, HUNDRED, ""))


# ---- the lines of a cycle

FIRST_LINES, WHOLE_CYCLE = FIELDS_LINES[1:].split("cycle 9\n")


def test_the_fields_of_d_e_and_m(stages):
    out = stages("std.hcl", "fields.yo")[1]
    same([line for line in FIRST_LINES.splitlines() if f"\n{line}\n" not in out], [])


def test_the_lines_of_a_whole_cycle(stages):
    out = stages("std.hcl", "fields.yo")[1]
    same(out[out.index("cycle 9\n") + 8 : out.index("cycle 10\n") + 9], WHOLE_CYCLE)


def test_the_flags_after_it(stages):
    same(re.findall("^flags .*", stages("std.hcl", "fields.yo")[1], re.M)[9], "flags ZF 0 SF 1 OF 0")


def test_a_load_that_fails_in_m_and_in_w(stages):
    statuses = re.findall(r"^[MW] row 2 .* next (\w+) stat (\w+) .* (?:m_stat|Stat) (\w+) \|", stages("std.hcl", "fault.yo")[1], re.M)
    same(statuses, [("bubble", "AOK", "ADR"), ("stall", "ADR", "ADR")])


def test_a_number_that_no_register_has(stages):
    same(re.findall(r" (?:d_srcA|srcA) (\S+)", stages("twenty.hcl", "load_use.yo", "--to", "2")[1]), ["20", "-", "20", "20"])


def test_each_instruction_is_written_as_it_is_read(stages):
    rows = [line.split(" | ") for line in stages("with_iaddq.hcl", "texts.yo", "--full", "--diagram")[1].splitlines()]
    said = {(row[1].split(" ", 1)[1], row[2]) for row in rows if len(row) == 3}
    same(said, {(text.strip(), text.strip()) for text in TEXTS.splitlines() if text})


# ---- what an instruction is called, where its ifun is ignored, where it is invalid, and where its fetch failed

def test_ifuns_that_are_ignored(stages):
    rows = stages("with_iaddq.hcl", "ignored.yo", "--full", "--diagram")[1].splitlines()[1:-1]
    same([row.split(" | ")[1] for row in rows if re.match(r" *F[ FD]*  E  M  W", row)], IGNORED_TEXTS)


@pytest.mark.parametrize("code", INVALID)
def test_invalid(code, y86_stages):
    out = y86_stages("std.hcl", "invalid.yo", "--diagram", files={"std.hcl": DESIGNS["std"], "invalid.yo": f"0x000: {code} |\n"}).text()[1].splitlines()
    same((out[1].split(" | ")[1], out[-1].split()[1]), ("0x000 invalid", "INS"))


@cases([("0x040", ""), ("0x03f", "0x03f: 30 |\n"), ("0xfffffffffffffff8", "")])
def test_a_fetch_that_fails(row, y86, y86_stages):
    at, more = row
    listing = without_texts(y86("yas", "outside.ys", files={"outside.ys": f"jmp {at}"}).out.decode())
    out = y86_stages("std.hcl", "outside.yo", "--mem", "64", files={"std.hcl": DESIGNS["std"], "outside.yo": listing + more}).text()[1]
    same(re.findall(rf"^W row 2 at {at} .* stat (\w+) .* \| (.*)", out, re.M), [("ADR", "failed fetch")])


# ---- what a store or a load that fails changes, and what the ALU computes

def test_a_store_that_fails(stages):
    out = stages("std.hcl", "store_fails.yo")[1]
    found = re.findall("^(?:write|store) .*", out, re.M), re.findall(r"^M row 2 .* mem_write (\d) .* m_stat (\w+)", out, re.M)
    same(found, (["write %rcx 0x1"], [("1", "ADR")]))


def test_a_load_that_fails(stages):
    same(re.findall("^(?:write|store) .*", stages("std.hcl", "fault.yo")[1], re.M), ["write %rbx 0x2000"])


def test_the_functions_of_the_alu(stages):
    said = told(stages("std.hcl", "functions.yo")[1], "E", "alufun")
    same([said[at] for at in ("0x000", "0x002", "0x004", "0x006", "0x008")], ["add", "sub", "and", "xor", "add"])


def test_a_number_that_is_no_function(stages):
    same(told(stages("nine.hcl", "functions.yo")[1], "E", "alufun")["0x000"], "9")


def test_iaddq_in_the_smaller_set(stages):
    status, out, _ = stages("with_iaddq.hcl", "iaddq.yo")
    same((status, out.splitlines()[-1]), (1, "end INS cycles 6 retired 2"))


def test_a_register_that_is_stalled_and_bubbled(stages):
    lines = stages("stall_and_bubble.hcl", "stall_and_bubble.yo", "--from", "4")[1].splitlines()
    same([line.split(" stat")[0] for line in lines[1:4]], ["F row 4 at 0x00d next stall", "D row 3 at 0x00c next both", "E row 2 at 0x00a next bubble"])


def test_what_is_written_and_stored(stages):
    status, out, _ = stages("std.hcl", "ret.yo", "--from", "6", "--to", "6")
    same((status, out.splitlines()[-3:]), (0, ["flags ZF 1 SF 0 OF 0", "write %rsp 0xf8", "end HLT cycles 11 retired 4"]))


def test_a_store(stages):
    status, out, _ = stages("std.hcl", "ret.yo", "--from", "5", "--to", "5")
    same((status, out.splitlines()[-3:-1]), (0, ["write %rsp 0x100", "store 0x0f8 0x13"]))


# ---- where d_valA, d_valB and f_pc come from, by the picks of the file

def told(out, stage, key):
    """By the address of what stands in a stage, what the lines say of a key; an address that comes again has the later one."""
    return {at: value for at, value in re.findall(rf"^{stage} row \d+ at (0x\w+) .* {key} (\S+).* \| ", out, re.M)}


def test_each_place_of_forwarding(stages):
    out = stages("std.hcl", "forwarded.yo")[1]
    same({at: (told(out, "D", "d_valA_from")[at], told(out, "D", "d_valB_from")[at]) for at in SOURCES}, SOURCES)


def test_the_pc_that_was_predicted(stages):
    same(set(told(stages("std.hcl", "forwarded.yo")[1], "F", "f_pc_from").values()), {"F_predPC"})


def test_a_call_goes_on_with_valp_and_has_its_rsp_from_the_irmovq_in_e(stages):
    out = stages("std.hcl", "ret.yo", "--from", "3", "--to", "7")[1]
    same(re.findall(r"d_valA_from (\S+) d_valB_from (\S+) \| call", out), [("D_valP", "e_valE")])


def test_a_ret_in_w_gives_the_pc(stages):
    same(re.findall(r"f_pc_from (\S+)", stages("std.hcl", "ret.yo", "--from", "3", "--to", "7")[1]), ["F_predPC"] * 4 + ["W_valM"])


def test_a_jump_that_is_not_taken_gives_it_from_m(stages):
    same(re.findall(r"f_pc_from (\S+)", stages("std.hcl", "jump.yo", "--from", "4", "--to", "6")[1]), ["F_predPC", "M_valA", "F_predPC"])


def test_a_definition_that_is_a_name(stages):
    same(set(re.findall(r"d_valB_from (\S+)", stages("no_bypassing.hcl", "load_use.yo")[1])), {"d_rvalB"})


PICKS = [
    ("a number", "5", "-"),
    ("a number behind a guard", "[ 0 : d_rvalB; 1 : 5; ]", "-"),
    ("no guard that holds", "[ 0 : d_rvalB; ]", "-"),
    ("the first of two guards that hold", "[ 0 : D_valC; 2 == 2 : D_valP; 1 : d_rvalB; ]", "D_valP"),
    ("a case list in a case list", "[ 0 : D_valC; 1 : [ 0 : D_valP; 1 : d_rvalB; ]; ]", "d_rvalB"),
    ("a constant", "RRSP", "RRSP"),
]


@cases(PICKS)
def test_pick(row, y86_stages, files):
    _, definition, wanted = row
    text = changed(design("no_bypassing"), d_valA="d_rvalA", d_valB=definition)
    _, out, err = y86_stages("picks.hcl", "load_use.yo", "--to", "1", files={"picks.hcl": text, "load_use.yo": files["load_use.yo"]}).text()
    same((re.findall(r"d_valA_from (\S+) d_valB_from (\S+)", out), err), ([("d_rvalA", wanted)], ""))


# ---- the options that say what is shown stand anywhere, in any order, and may show nothing

END = "end HLT cycles 8 retired 3\n"


def test_all_cycles(stages):
    status, out, _ = stages("std.hcl", "load_use.yo")
    same((status, out.count("cycle "), out.endswith(END)), (0, 8, True))


def test_from_the_first_to_the_last(stages):
    same(stages("std.hcl", "load_use.yo", "--to", str(2**64 - 1), "--from", "1"), stages("std.hcl", "load_use.yo"))


def test_one_cycle(stages):
    out = stages("std.hcl", "load_use.yo", "--from", "2", "--to", "2")[1]
    same([line for line in out.splitlines() if line.startswith("cycle ")], ["cycle 2"])


ORDERS = [
    ("the options first", ("--from", "2", "--to", "2", "std.hcl", "load_use.yo")),
    ("between the files", ("std.hcl", "--to", "2", "load_use.yo", "--limit", "100", "--from", "2")),
]


@cases(ORDERS)
def test_order_of_options(row, stages):
    same(stages(*row[1]), stages("std.hcl", "load_use.yo", "--from", "2", "--to", "2"))


@cases([("256", (0, "end HLT cycles 7 retired 3\n", "")), ("248", (1, "end ADR cycles 6 retired 2\n", ""))])
def test_a_memory_of_so_many_bytes(row, stages):
    same(stages("std.hcl", "call.yo", "--mem", row[0], "--from", "100"), row[1])


@cases((" ".join(words), words) for words in (("--from", "3", "--to", "2"), ("--from", "9"), ("--from", str(2**64 - 1))))
def test_nothing_is_shown(row, stages):
    same(stages("std.hcl", "load_use.yo", *row[1]), (0, END, ""))


# ---- what is refused

INVALID = [
    (), ("std.hcl",), ("std.hcl", "a.yo", "--trace"), ("std.hcl", "a.yo", "--checked"), ("std.hcl", "a.yo", "--from"), ("std.hcl", "a.yo", "--to", "0"),
    ("std.hcl", "a.yo", "--from", "0"), ("std.hcl", "a.yo", "--from", str(2**64)), ("std.hcl", "a.yo", "--from", "--to", "3"), ("std.hcl", "a.yo", "--to"),
    ("std.hcl", "a.yo", "--diagram", "--diagram"), ("std.hcl", "a.yo", "--from", "1", "--from", "2"), ("std.hcl", "a.yo", "--to", "2", "--to", "2"),
    ("std.hcl", "a.yo", "--mem", "7"), ("std.hcl", "a.yo", "more"),
]


@cases((" ".join(words) or "nothing", words) for words in INVALID)
def test_no_command(row, stages):
    same(stages(*row[1]), (2, "", USAGE))


@cases((" ".join(words), words, name) for words, name in ((("none.hcl", "a.yo"), "none.hcl"), (("std.hcl", "none.yo"), "none.yo"), (("none.hcl", "none.yo"), "none.hcl")))
def test_no_file(row, stages):
    same(stages(*row[1]), (3, "", f"read fault {row[2]}\n"))


LONG = f"0x000: 00 |\n  | {'x' * 65536}\n"
REFUSED = {"bad.hcl": "word f_pc = ;\n", "bad.yo": "0x000: 3\n", "long.hcl": f"{design('std')}#{'x' * 65536}\n", "longer.yo": LONG * 17, "std.hcl": example("std")}


def test_an_object_file_that_is_longer_than_an_hcl_file_may_be(y86_stages):
    same(y86_stages("std.hcl", "long.yo", "--from", "9", files={"long.yo": LONG, "std.hcl": example("std")}).text(), (0, "end HLT cycles 5 retired 1\n", ""))


@cases((" ".join(words), words, status) for words, status in (
    (("bad.hcl", "a.yo"), 5), (("std.hcl", "bad.yo"), 5), (("bad.hcl", "bad.yo"), 5), (("long.hcl", "a.yo"), 7), (("std.hcl", "longer.yo"), 7)))
def test_refused_as_by_psim(row, y86, y86_stages):
    _, words, status = row
    came = y86_stages(*words, files=REFUSED)
    same((came, came.status), (y86("psim", *words), status))


def test_a_full_device(y86_stages, files):
    with open("/dev/full", "w", encoding="utf-8") as full:
        came = y86_stages("std.hcl", "load_use.yo", files={it: files[it] for it in ("std.hcl", "load_use.yo")}, stdout=full)
    same((came.status, came.err), (4, b""))
