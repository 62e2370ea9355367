"""The sequential datapaths: under seq_plus.hcl and seq.hcl each example program, and each of some small ones, has the report and the status of `yis`, at
its end and at small limits. Each row of hardware depends on no more than the table says. (`rows/sequential.txt` has designs that are almost right.)
"""
import re

from helpers.cases import cases, same
from helpers.designs import example
from helpers.paths import DESIGNS, PROGRAMS as FOLDER, names

LIMITS = ["1", "2", "3", "5", "8", "10000"]


def report(steps, pc, status, registers=""):
    return f"Stopped in {steps} steps at PC = {pc:#x}.  Status '{status}', CC Z=1 S=0 O=0\nChanges to registers:\n{registers}\nChanges to memory:\n"


# programs at 0 in 64 bytes of memory, and how many cycles they may run
PROGRAMS = [
    # irmovq $7,%rdx; irmovq $5,%rcx; addq %rcx,%rdx; halt
    ("30f20700000000000000 30f10500000000000000 6012 00", "9"),
    # irmovq $64,%rsp; pushq %rsp; popq %rbx; call 24; halt; ret
    ("30f44000000000000000 a04f b03f 801800000000000000 00 90", "9"),
    # irmovq $1,%rcx; subq %rcx,%rcx; je 22; halt; cmovg %rcx,%rdx; nop; halt
    ("30f10100000000000000 6111 731600000000000000 00 2612 10 00", "9"),
    # a read outside, a byte that begins no instruction, and a loop that is cut off
    ("5012ffffffffffffffff", "9"),
    ("10 f0", "9"),
    ("700000000000000000", "5"),
]
# irmovq $7,%rdx; iaddq $-7,%rdx; halt
ADDS = "30f20700000000000000 c0f2f9ffffffffffffff 00"

# the signals that each row of hardware is computed from; the PC of SEQ is no signal of the file
READS = {
    "imem_icode": ["pc"],
    "imem_ifun": ["pc"],
    "imem_error": ["pc"],
    "rA": ["pc", "need_regids"],
    "rB": ["pc", "need_regids"],
    "valC": ["pc", "need_regids", "need_valC"],
    "valP": ["pc", "need_regids", "need_valC"],
    "valA": ["srcA"],
    "valB": ["srcB"],
    "valE": ["aluA", "aluB", "alufun"],
    "Cnd": ["ifun"],
    "valM": ["mem_addr", "mem_read"],
    "dmem_error": ["mem_addr", "mem_read", "mem_write"],
}
TRUTHS = {"imem_error", "Cnd", "dmem_error"}


def all_behind(row, text):
    """A design in which what a row of hardware is computed from is 0, and each other signal that a file defines depends on the row: it has an order just
    where the row depends on no more."""
    asked = f"({row} && 0)" if row in TRUTHS else f"{row} == 100"
    for kind, name in re.findall(r"^(word|bool) (\w+) =", text, flags=re.M):
        yield f"{kind} {name} = 0;" if name in READS[row] else f"bool {name} = {asked};" if kind == "bool" else f"word {name} = [ {asked} : 1; 1 : 0; ];"


def object_text(code):
    return f"0x000: {code.replace(' ', '')} |\n"


DATAPATHS = (("ssim", "seq"), ("ssimp", "seq_plus"))


@cases((f"{command} {name} limit {limit}", command, file, name, limit) for name in names(FOLDER, ".yo") for limit in LIMITS for command, file in DATAPATHS)
def test_example(row, y86):
    _, command, file, name, limit = row
    wanted = y86("yis", f"{name}.yo", "--limit", limit, folder=FOLDER)
    same(y86(command, f"{DESIGNS}/{file}.hcl", f"{name}.yo", "--limit", limit, folder=FOLDER), wanted)


@cases((f"{command} on {code}", command, file, code, limit) for code, limit in PROGRAMS for command, file in DATAPATHS)
def test_small_program(row, y86):
    _, command, file, code, limit = row
    words = ["p.yo", "--mem", "64", "--limit", limit]
    wanted = y86("yis", *words, files={"p.yo": object_text(code)})
    same(y86(command, "d.hcl", *words, files={"d.hcl": example(file)}), wanted)


@cases((f"{command} {row}", command, file, row) for command, file in DATAPATHS for row in READS)
def test_row_depends_on_no_more(row, y86):
    _, command, file, signal = row
    files = {"d.hcl": "\n".join(all_behind(signal, example(file))), "p.yo": object_text("00")}
    same(y86(command, "d.hcl", "p.yo", "--mem", "64", files=files).text(), (1, report(1, 0, "BUB"), ""))


def test_iaddq(y86):
    same(y86("yis", "p.yo", "--full", "--mem", "64", files={"p.yo": object_text(ADDS)}).text(), (0, report(3, 20, "HLT"), ""))


def test_iaddq_in_the_smaller_set(y86):
    came = y86("yis", "p.yo", "--mem", "64", files={"p.yo": object_text(ADDS)})
    same(came.text(), (1, report(2, 10, "INS", "%rdx:\t0x0000000000000000\t0x0000000000000007\n"), ""))
