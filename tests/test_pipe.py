"""Runs PIPE cycle by cycle: `psim --trace` with each limit up to the end of a run, under pipeline designs of examples/ and under
std.hcl with other pipeline control. After each cycle the lines of the trace have to be those of the records that have retired, and at the end the
cycles, the status, the PC, four registers and a word of memory have to be those that stand here, worked out by hand from the pipeline diagrams;
after the end nothing is done.
"""
import re
from collections import namedtuple

from helpers.cases import cases, same
from helpers.designs import changed, design

# a program: its bytes at 0, and a word of data with its address
Program = namedtuple("Program", "code data", defaults=[(0x40, 0)])

HALT = Program("00")
# irmovq $10,%rdx; irmovq $3,%rax; addq %rdx,%rax; halt
ADD = Program("30f20a00000000000000 30f00300000000000000 6020 00")
# mrmovq 0x10(%rdi),%rax; addq %rax,%rax; halt, with 5 at 0x10
LOAD_USE = Program("50071000000000000000 6000 00", (0x10, 5))
# irmovq $1,%rcx; xorq %rax,%rax; jne 0x16; halt; then rmmovq and halt on the wrong path
NOT_TAKEN = Program("30f10100000000000000 6300 741600000000000000 00 40130001000000000000 00")
# irmovq $0x100,%rsp; call 0x14; halt; ret
CALL = Program("30f40001000000000000 801400000000000000 00 90")
# irmovq $0x40,%rsp; popq %rsp; pushq %rsp; halt, with 0x100 at 0x40
STACK = Program("30f44000000000000000 b04f a04f 00", (0x40, 0x100))
# irmovq $1,%rcx; mrmovq 0x1ff8(%rcx),%rax; addq %rcx,%rcx; halt: the load is outside
OUTSIDE = Program("30f10100000000000000 5001f81f000000000000 6011 00")
# irmovq $0x40,%rsp; popq %rsp; ret
POP_RET = Program("30f44000000000000000 b04f 90")
# irmovq $0x1010101010101010,%rax; rmmovq %rax,0x14(%rdi); halt: the store is over the halt
OVER = Program("30f01010101010101010 40071400000000000000 00")
# mrmovq 0x40(%rdi),%rax; rmmovq %rax,0x48(%rdi); halt, with 5 at 0x40
LOAD_STORE = Program("50074000000000000000 40074800000000000000 00", (0x40, 5))

# so many cycles; the cycles in which records retire, with their lines of the trace; the status and the PC of the end; the words of %rax, %rcx, %rdx
# and %rsp; a word of memory with its address
Run = namedtuple("Run", "logic definitions program cycles records end registers word")

HAZARD = "E_icode in { IMRMOVQ, IPOPQ } && E_dstM in { d_srcA, d_srcB }"
EMPTY = "D_icode == INOP && E_icode == INOP && M_icode == INOP && W_icode == INOP"
RETS = "IRET in { D_icode, E_icode, M_icode }"

# the designs of the book
BOOK = [
    Run("std", {}, HALT, 5, {5: "0x000 00 100 HLT"}, ("HLT", 0), (0, 0, 0, 0), (0, 0)),
    Run(
        "std",
        {},
        ADD,
        8,
        {
            5: "0x000 30 %rdx=0x000000000000000a 100 AOK",
            6: "0x00a 30 %rax=0x0000000000000003 100 AOK",
            7: "0x014 60 %rax=0x000000000000000d 000 AOK",
            8: "0x016 00 000 HLT",
        },
        ("HLT", 0x16),
        (13, 0, 10, 0),
        (0x40, 0),
    ),
    Run(
        "no_bypassing",
        {},
        ADD,
        11,
        {
            5: "0x000 30 %rdx=0x000000000000000a 100 AOK",
            6: "0x00a 30 %rax=0x0000000000000003 100 AOK",
            10: "0x014 60 %rax=0x000000000000000d 000 AOK",
            11: "0x016 00 000 HLT",
        },
        ("HLT", 0x16),
        (13, 0, 10, 0),
        (0x40, 0),
    ),
    Run(
        "std",
        {},
        LOAD_USE,
        8,
        {
            5: "0x000 50 %rax=0x0000000000000005 100 AOK",
            7: "0x00a 60 %rax=0x000000000000000a 000 AOK",
            8: "0x00c 00 000 HLT",
        },
        ("HLT", 0xC),
        (10, 0, 0, 0),
        (0x10, 5),
    ),
    Run(
        "std",
        {},
        NOT_TAKEN,
        10,
        {
            5: "0x000 30 %rcx=0x0000000000000001 100 AOK",
            6: "0x00a 63 %rax=0x0000000000000000 100 AOK",
            7: "0x00c 74 100 AOK",
            10: "0x015 00 100 HLT",
        },
        ("HLT", 0x15),
        (0, 1, 0, 0),
        (0x100, 0),
    ),
    Run(
        "not_taken",
        {},
        NOT_TAKEN,
        8,
        {
            5: "0x000 30 %rcx=0x0000000000000001 100 AOK",
            6: "0x00a 63 %rax=0x0000000000000000 100 AOK",
            7: "0x00c 74 100 AOK",
            8: "0x015 00 100 HLT",
        },
        ("HLT", 0x15),
        (0, 1, 0, 0),
        (0x100, 0),
    ),
    Run(
        "std",
        {},
        CALL,
        11,
        {
            5: "0x000 30 %rsp=0x0000000000000100 100 AOK",
            6: "0x00a 80 %rsp=0x00000000000000f8 [0x00f8]=0x0000000000000013 100 AOK",
            7: "0x014 90 %rsp=0x0000000000000100 100 AOK",
            11: "0x013 00 100 HLT",
        },
        ("HLT", 0x13),
        (0, 0, 0, 0x100),
        (0xF8, 0x13),
    ),
    Run(
        "std",
        {},
        STACK,
        9,
        {
            5: "0x000 30 %rsp=0x0000000000000040 100 AOK",
            6: "0x00a b0 %rsp=0x0000000000000048 %rsp=0x0000000000000100 100 AOK",
            8: "0x00c a0 %rsp=0x00000000000000f8 [0x00f8]=0x0000000000000100 100 AOK",
            9: "0x00e 00 100 HLT",
        },
        ("HLT", 0xE),
        (0, 0, 0, 0xF8),
        (0xF8, 0x100),
    ),
    Run(
        "std",
        {},
        STACK,
        6,
        {
            5: "0x000 30 %rsp=0x0000000000000040 100 AOK",
            6: "0x00a b0 %rsp=0x0000000000000048 %rsp=0x0000000000000100 100 AOK",
        },
        ("AOK", 0x10),
        (0, 0, 0, 0x100),
        (0xF8, 0),
    ),
    Run(
        "std",
        {},
        OUTSIDE,
        6,
        {5: "0x000 30 %rcx=0x0000000000000001 100 AOK", 6: "0x00a 50 100 ADR"},
        ("ADR", 0xA),
        (0, 1, 0, 0),
        (0x1FF8, 0),
    ),
    Run(
        "std",
        {},
        OVER,
        7,
        {
            5: "0x000 30 %rax=0x1010101010101010 100 AOK",
            6: "0x00a 40 [0x0014]=0x1010101010101010 100 AOK",
            7: "0x014 00 100 HLT",
        },
        ("HLT", 0x14),
        (0x1010101010101010, 0, 0, 0),
        (0x14, 0x1010101010101010),
    ),
    Run(
        "std",
        {},
        LOAD_STORE,
        8,
        {
            5: "0x000 50 %rax=0x0000000000000005 100 AOK",
            7: "0x00a 40 [0x0048]=0x0000000000000005 100 AOK",
            8: "0x014 00 100 HLT",
        },
        ("HLT", 0x14),
        (5, 0, 0, 0),
        (0x48, 5),
    ),
    Run(
        "load_forwarding",
        {},
        LOAD_STORE,
        7,
        {
            5: "0x000 50 %rax=0x0000000000000005 100 AOK",
            6: "0x00a 40 [0x0048]=0x0000000000000005 100 AOK",
            7: "0x014 00 100 HLT",
        },
        ("HLT", 0x14),
        (5, 0, 0, 0),
        (0x48, 5),
    ),
]


def on_halt(definitions, cycles, status, records=()):
    """std.hcl with other definitions on a halt: no register and no memory is written, and the PC stays 0."""
    return Run("std", definitions, HALT, cycles, dict(records), (status, 0), (0, 0, 0, 0), (0, 0))


# other pipeline control
CONTROLS = [
    # a load behind its use and a ret stall and bubble D
    Run("std", {"D_bubble": f"E_icode == IJXX && !e_Cnd || {RETS}"}, POP_RET, 4, {}, ("PIP", 0xD), (0, 0, 0, 0), (0x40, 0)),
    # an empty pipeline fetches nothing
    on_halt(
        {"F_stall": f"{HAZARD} || {RETS} || {EMPTY}", "D_bubble": f"E_icode == IJXX && !e_Cnd || !({HAZARD}) && {RETS} || {EMPTY}"}, 10000, "AOK"
    ),
    # a code compared with a word
    on_halt({"F_bubble": "E_icode == E_valC"}, 5, "HLT", {5: "0x000 00 100 HLT"}),
    # all stalls: nothing is ever fetched
    on_halt({"Stat": "1", **{f"{it}_stall": "1" for it in "FDEMW"}}, 9, "AOK"),
    # all bubbles: each instruction is thrown away
    on_halt({"Stat": "1", **{f"{it}_bubble": "1" for it in "FDEMW"}}, 9, "AOK"),
    # W is stalled and bubbled, and then F
    on_halt({"W_stall": "1", "W_bubble": "1"}, 1, "PIP"),
    on_halt({"F_stall": "1", "F_bubble": "1"}, 1, "PIP"),
    # a constant `Stat`, alone and where F is stalled and bubbled: a stop goes before that
    on_halt({"Stat": "2"}, 1, "HLT"),
    on_halt({"Stat": "2", "F_stall": "1", "F_bubble": "1"}, 1, "HLT"),
]


def object_text(program):
    """The program's bytes, and its word of data where that isn't 0."""
    address, word = program.data
    data = f"0x{address:03x}: {word.to_bytes(8, 'little').hex()} |\n" if word else ""
    return f"0x000: {program.code.replace(' ', '')} |\n{data}"


def ended(text, run):
    """What a report says of the end: the status and the PC, the four registers, and the word of memory."""
    pc, status = re.search(r"PC = 0x([0-9a-f]+)\.  Status '(\w+)'", text).groups()
    words = dict(re.findall(r"^%(\w+):\t\S+\t0x([0-9a-f]+)$", text, flags=re.M))
    memory = bytearray(8192)
    address, word = run.program.data
    memory[address : address + 8] = word.to_bytes(8, "little")
    code = bytes.fromhex(run.program.code)
    memory[: len(code)] = code
    for at, word in re.findall(r"^0x([0-9a-f]+):\t\S+\t0x([0-9a-f]+)$", text, flags=re.M):
        memory[int(at, 16) : int(at, 16) + 8] = int(word, 16).to_bytes(8, "little")
    at = run.word[0]
    registers = tuple(int(words.get(name, "0"), 16) for name in ("rax", "rcx", "rdx", "rsp"))
    return (status, int(pc, 16)), registers, (at, int.from_bytes(memory[at : at + 8], "little"))


def limited():
    """Each run, up to each of its cycles; one that stops also far beyond its end."""
    for run in BOOK + CONTROLS:
        limits = [it for it in range(1, run.cycles + 1) if it < 20 or it == run.cycles]
        for limit in [*limits, 10000] if run.end[0] != "AOK" else limits:
            yield f"{run.logic} with {run.definitions} on {run.program.code}"[:100] + f" limit {limit}", run, limit


def call(y86, run, limit):
    files = {"d.hcl": changed(design(run.logic), **run.definitions), "p.yo": object_text(run.program)}
    front, _, report = y86("psim", "d.hcl", "p.yo", "--trace", "--limit", str(limit), files=files).out.decode().partition("Stopped in ")
    return front, report


@cases(limited())
def test_records(row, y86):
    _, run, limit = row
    done = min(limit, run.cycles)
    lines = [line for cycle, line in run.records.items() if cycle <= done]
    same(call(y86, run, limit)[0], "".join(f"{line}\n" for line in [*lines, f"Ran {done} cycles, retired {len(lines)} instructions"]))


@cases((row for row in limited() if row[2] >= row[1].cycles))
def test_end(row, y86):
    _, run, limit = row
    same(ended(call(y86, run, limit)[1], run), (run.end, run.registers, run.word))
