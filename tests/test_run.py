"""What `y86-tell run` says of a program on a pipeline beside its run by instructions: the first instruction or final state that differs. And what
`y86-tell program` says of the premise of the theorem.

The expected values are worked out by hand. An instruction that is fetched in cycle n and never waits retires in cycle n + 4 (CS:APP 3e, section 4.5.1);
a word that is just loaded costs one cycle, a mispredicted jump two, a ret three (section 4.5.8).
"""
import json

import pytest

from helpers.cases import cases, same
from helpers.designs import changed, design, example
from helpers.paths import EXAMPLES
from helpers.shims import REFUSING, built

PROGRAMS = f"{EXAMPLES}/programs"
# Nothing is forwarded, and nothing waits for that.
NO_FORWARDING = changed(design("std"), d_valA="[ D_icode in { ICALL, IJXX } : D_valP; 1 : d_rvalA; ]", d_valB="d_rvalB")
# Nothing waits for a word that is being loaded.
HASTY = changed(
    design("std"), F_stall="IRET in { D_icode, E_icode, M_icode }", D_stall="0", D_bubble="E_icode == IJXX && !e_Cnd || IRET in { D_icode, E_icode, M_icode }",
    E_bubble="E_icode == IJXX && !e_Cnd",
)
# Nothing waits at all behind a ret.
NO_WAIT_FOR_RET = changed(HASTY, F_stall="0", D_bubble="E_icode == IJXX && !e_Cnd")
# An invalid instruction has status AOK.
AOK_FOR_INS = "[ imem_error : SADR; f_icode == IHALT : SHLT; 1 : SAOK; ]"
NO_INS = changed(design("std"), f_stat=AOK_FOR_INS)
# A program of one halt.
HALT = "0x000: 00 |\n"


def program(name):
    with open(f"{PROGRAMS}/{name}.yo", encoding="ascii") as file:
        return file.read()


@pytest.fixture
def run(y86, y86_tell):
    """What `run` says of a file and a program: an object text, or a source, which has no `|`."""

    def call(hcl, text, *options):
        if "|" not in text:
            text = y86("yas", "p.ys", *[it for it in options if it == "--full"], files={"p.ys": text}).out.decode()
        return y86_tell("run", "d.hcl", "p.yo", *options, files={"d.hcl": hcl, "p.yo": text}).text()

    return call


@pytest.fixture
def told(run):
    def call(hcl, text, *options):
        status, out, err = run(hcl, text, "--json", *options)
        assert (err, out.count("\n")) == ("", 1)
        return status, json.loads(out)

    return call


def some(said, names):
    return {name: said.get(name) for name in names}


# A difference that is out of range, and a store.
OVERFLOW = " irmovq $1, %rax\n irmovq $0x8000000000000000, %rbx\n nop\n nop\n nop\n subq %rax, %rbx\n halt\n"
SAVING = " irmovq $0x100, %rax\n irmovq $7, %rbx\n nop\n nop\n nop\n rmmovq %rbx, (%rax)\n halt\n"
# A file, the first obligation that is false of it, a program, and of the first instruction that differs: how many are right before it, the cycle, where it
# stands, its text, what is wrong, and what it writes and should write: destination and word of valE, or the word of memory and the status.
DIFFERENCES = [
    # call reads the old %rsp: 0 - 8 is no address
    ("no forwarding: call", NO_FORWARDING, "O10", program("asum"), 1, 6, "0x00a", "call 0x038", ["valE", "memory", "status"],
        {"valE": None, "memory": None, "status": "ADR"},
        {"valE": {"register": "%rsp", "word": "0x1f8"}, "memory": {"address": "0x1f8", "word": "0x13"}, "status": "AOK"}),
    # addq reads the old %rax: 0 + 0
    ("no wait for a load", HASTY, "O10", program("load_use"), 1, 6, "0x00a", "addq %rax, %rax", ["valE", "flags"],
        {"valE": {"register": "%rax", "word": "0x0"}, "flags": {"ZF": True, "SF": False, "OF": False}},
        {"valE": {"register": "%rax", "word": "0xa"}, "flags": {"ZF": False, "SF": False, "OF": False}}),
    # the book's question: popq %rsp loads its own %rsp, and valE goes to %rsp too
    ("the loaded word loses", changed(design("std"), d_valA="[ D_icode in { ICALL, IJXX } : D_valP; d_srcA == M_dstE : M_valE; @ ]"),
        "O10", " popq %rsp\n rrmovq %rsp, %r11\n halt\n", 1, 7, "0x002", "rrmovq %rsp, %r11", ["valE"],
        {"valE": {"register": "%r11", "word": "0x8"}}, {"valE": {"register": "%r11", "word": "0x4b204fb0"}}),
    # the flags of the wrong operands: b - a for a - b would do; here the second operand is always 0
    ("aluB is 0", changed(design("std"), aluB="0"), "O13", " irmovq $3, %rax\n irmovq $3, %rbx\n nop\n nop\n nop\n subq %rax, %rbx\n halt\n",
        5, 10, "0x017", "subq %rax, %rbx", ["valE", "flags"],
        {"icode": 6, "ifun": 1, "valE": {"register": "%rbx", "word": "0xfffffffffffffffd"}, "flags": {"ZF": False, "SF": True, "OF": False}},
        {"icode": 6, "ifun": 1, "valE": {"register": "%rbx", "word": "0x0"}, "flags": {"ZF": True, "SF": False, "OF": False}}),
    # the same, where the difference is out of range: -2^63 - 1
    ("aluB is 0: an overflow", changed(design("std"), aluB="0"), "O13", OVERFLOW, 5, 10, "0x017", "subq %rax, %rbx", ["valE", "flags"],
        {"valE": {"register": "%rbx", "word": "0xffffffffffffffff"}, "flags": {"ZF": False, "SF": True, "OF": False}},
        {"valE": {"register": "%rbx", "word": "0x7fffffffffffffff"}, "flags": {"ZF": False, "SF": False, "OF": True}}),
    # a store of another word
    ("valA is the ALU's", changed(design("std"), e_valA="E_valB"), "O16", SAVING, 5, 10, "0x017", "rmmovq %rbx, 0(%rax)",
        ["memory"], {"memory": {"address": "0x100", "word": "0x100"}}, {"memory": {"address": "0x100", "word": "0x7"}}),
    # a load into another place
    ("nothing is loaded", changed(design("std"), d_dstM="RNONE"), "O9", program("load_use"), 0, 5, "0x000", "mrmovq 16(%rdi), %rax", ["valM"],
        {"valM": None}, {"valM": {"register": "%rax", "word": "0x5"}}),
    # a load of the word at 0, whose bytes are 50 07 10 00 00 00 00 00; a bubble retires behind it
    ("another word is loaded", changed(design("std"), mem_addr="[ M_icode == IMRMOVQ : 0; @ ]"), "O18", program("load_use"), 0, 5, "0x000",
        "mrmovq 16(%rdi), %rax", ["valM"], {"valM": {"register": "%rax", "word": "0x100750"}}, {"valM": {"register": "%rax", "word": "0x5"}}),
    # halt as any other instruction
    ("halt goes on", changed(design("std"), f_stat="[ imem_error : SADR; !instr_valid : SINS; 1 : SAOK; ]"), "O2", "0x000: 1000 |\n",
        1, 6, "0x001", "halt", ["status"], {"status": "AOK"}, {"status": "HLT"}),
    # a byte that begins no instruction is one, whatever status it gets
    ("an invalid instruction", NO_INS, "O2", "0x000: f0 |\n", 0, 5, "0x000", "an invalid instruction", ["status"],
        {"icode": 15, "ifun": 0, "status": "AOK"}, {"icode": 15, "ifun": 0, "status": "INS"}),
    ("iaddq without --full", NO_INS, "O2", "0x000: c0f00300000000000000 |\n", 0, 5, "0x000", "an invalid instruction", ["status"],
        {"icode": 15, "ifun": 0, "status": "AOK"}, {"icode": 15, "ifun": 0, "status": "INS"}),
    # and the status doesn't make one of a nop
    ("a nop with status INS", changed(design("std"), f_stat="[ f_icode == INOP : SINS; @ ]"), "O2", "0x000: 1000 |\n", 0, 5, "0x000", "nop", ["status"],
        {"icode": 1, "ifun": 0, "status": "INS"}, {"icode": 1, "ifun": 0, "status": "AOK"}),
    # in --full the sixth row of the table
    ("iaddq", changed(design("with_iaddq"), aluA="[ E_icode == IIADDQ : 0; @ ]"), "O12", " irmovq $2, %rax\n iaddq $-5, %rax\n halt\n",
        1, 6, "0x00a", "iaddq $-5, %rax", ["valE", "flags"],
        {"icode": 12, "ifun": 0, "valE": {"register": "%rax", "word": "0x2"}, "flags": {"ZF": False, "SF": False, "OF": False}},
        {"icode": 12, "ifun": 0, "valE": {"register": "%rax", "word": "0xfffffffffffffffd"}, "flags": {"ZF": False, "SF": True, "OF": False}}),
]


@cases(DIFFERENCES)
def test_first_instruction_that_differs(row, told):
    name, hcl, label, text, before, cycle, address, instruction, wrong, is_so, wanted = row
    status, said = told(hcl, text, *(["--full"] if name == "iaddq" else []))
    same((status, some(said, ("outcome", "instructions", "cycles", "wrong"))),
        (1, {"outcome": "instruction", "instructions": before, "cycles": cycle, "wrong": wrong}))
    for record, parts in ((said["retired"], is_so), (said["wanted"], wanted)):
        same(some(record, ("address", "instruction", *parts)), {"address": address, "instruction": instruction, **parts})
    same((said["verdict"], said["obligation"], said["premise"], said["covered"]), ("no", label, "holds", False))


RETURNING = " irmovq stack, %rsp\n nop\n nop\n nop\n ret\n nop\n halt\nend: halt\n.pos 0x40\nstack: .quad end\n"
INVALID_BELOW_RET = RETURNING.replace("ret\n nop", "ret\n .byte 0xf0")
ADDING = " irmovq $3, %rax\n addq %rax, %rax\n halt\n"
SUBTRACTS = changed(design("std"), f_ifun="[ f_icode == IOPQ : ALUSUB; @ ]")
# A file, a program, the instructions, the cycle, what is wrong, and of the instruction that retires and of that in whose place it does: address, text,
# icode and ifun.
OTHERS = [
    # behind a ret that nothing waits for, the instruction below it is done: fetched in the cycle after it
    ("an instruction below a ret", NO_WAIT_FOR_RET, RETURNING, 5, 10, ["instruction", "status"], ("0x00e", "nop", 1, 0), ("0x010", "halt", 0, 0)),
    ("an invalid instruction below a ret", changed(NO_WAIT_FOR_RET, f_stat=AOK_FOR_INS), INVALID_BELOW_RET, 5, 10,
        ["instruction", "status"], ("0x00e", "an invalid instruction", 15, 0), ("0x010", "halt", 0, 0)),
    # an ifun that isn't that of the bytes
    ("an invalid instruction with another ifun", changed(design("std"), f_ifun="[ imem_icode == 15 : 3; @ ]"), "0x000: f0 |\n", 0, 5,
        ["instruction"], ("0x000", "icode 15, ifun 3", 15, 3), ("0x000", "an invalid instruction", 15, 0)),
    ("another ifun", SUBTRACTS, ADDING, 1, 6, ["instruction", "valE", "flags"], ("0x00a", "icode 6, ifun 1", 6, 1), ("0x00a", "addq %rax, %rax", 6, 0)),
]


@cases(OTHERS)
def test_another_instruction_retires(row, told):
    _, hcl, text, before, cycle, wrong, retired, wanted = row
    status, said = told(hcl, text)
    same((status, some(said, ("outcome", "instructions", "cycles", "wrong"))),
        (1, {"outcome": "instruction", "instructions": before, "cycles": cycle, "wrong": wrong}))
    names = ("address", "instruction", "icode", "ifun")
    same([tuple(some(said[it], names).values()) for it in ("retired", "wanted")], [retired, wanted])


# Stat isn't the status of a halt.
GOES_ON = changed(design("std"), Stat="[ W_stat == SHLT : SAOK; @ ]")


def test_an_instruction_behind_the_end(told):
    """W keeps the halt, and Stat isn't its status: it retires again in the next cycle."""
    status, said = told(GOES_ON, HALT)
    same((status, some(said, ("outcome", "instructions", "cycles", "wrong", "wanted", "steps"))),
        (1, {"outcome": "instruction", "instructions": 1, "cycles": 6, "wrong": ["instruction"], "wanted": None, "steps": 1}))
    same((said["retired"]["address"], said["retired"]["instruction"]), ("0x000", "halt"))


def bubbles_write(one, other="RNONE", **bodies):
    """A design whose bubbles write 7 and 9 into these registers: in W they have the status AOK, and icode 1, which no instruction of the programs below has."""
    return changed(
        design("std"), m_stat="[ M_stat == SBUB : SAOK; @ ]", w_dstE=f"[ W_icode == INOP : {one}; 1 : W_dstE; ]", w_valE="[ W_icode == INOP : 7; 1 : W_valE; ]",
        w_dstM=f"[ W_icode == INOP : {other}; 1 : W_dstM; ]", w_valM="[ W_icode == INOP : 9; 1 : W_valM; ]", **bodies,
    )


def bubbles_store(first, last):
    """Definitions by which the bubble that is in M in cycle 1 stores 0 at an address, and later ones at another."""
    return {"mem_write": "@ || M_stat == SBUB", "mem_addr": f"[ M_stat == SBUB && D_stat == SBUB : {first}; M_stat == SBUB : {last}; @ ]"}


def stops_late(pc, stat="SHLT"):
    """Definitions by which no halt stops the machine, but the bubble behind it, while F holds a PC."""
    return {"Stat": f"[ W_icode == INOP && F_predPC == {pc} : {stat}; W_stat in {{ SBUB, SHLT }} : SAOK; @ ]", "W_stall": "W_stat in { SADR, SINS }"}


STD = design("std")
# An OPq in E sets the flags, behind a halt too.
FLAGS = {"set_cc": "E_icode == IOPQ"}
# The addq behind the halt is done in cycle 5; in cycle 7 W holds the bubble behind the halt, and F the address 0x010.
BEHIND_HALT = " irmovq $1, %rax\n halt\n addq %rax, %rax\n"
# Behind the jump two bubbles follow the irmovq.
MISPREDICTED = " irmovq $5, %r14\n jne 0\n halt\n"
WORDS = " irmovq $1, %rax\n halt\n.pos 0x100\n.quad 0x1234\n.pos 0x1ff8\n.quad 0x5678\n"
# A file, a program, the instructions, the cycles, the name of what is wrong, and what it is and should be.
STATES = [
    # ret waits in D for the load in E and behind itself: D is stalled and bubbled in cycle 4
    ("stalled and bubbled", example("stall_and_bubble"), program("stall_and_bubble"), 0, 4, "status", "PIP", "AOK"),
    # addq behind the halt sets the flags in the cycle in which halt is in M
    ("flags behind a halt", changed(STD, **FLAGS), BEHIND_HALT, 2, 6, "flags", "Z=0 S=0 O=0", "Z=1 S=0 O=0"),
    # the first bubble in W is one
    ("a bubble stops", changed(STD, Stat="[ W_stat == SBUB : SHLT; 1 : W_stat; ]"), "0x000: 1000 |\n", 0, 1, "status", "HLT", "AOK"),
    # in the cycle behind the halt F holds the address 5
    ("the PC", changed(STD, **stops_late(5)), HALT, 1, 6, "PC", "0x5", "0x0"),
    ("a register", bubbles_write("RRCX"), HALT, 1, 5, "%rcx", "0x7", "0x0"),
    ("the last register", bubbles_write("14"), MISPREDICTED, 3, 9, "%r14", "0x7", "0x5"),
    ("a word of memory", changed(STD, **bubbles_store(256, 256)), WORDS, 2, 6, "0x100", "0x0", "0x1234"),
    # the bytes are 30 f0 01 00 00 00 00 00
    ("the first word of memory", changed(STD, **bubbles_store(0, 0)), WORDS, 2, 6, "0x000", "0x0", "0x1f030"),
    ("the last word of memory", changed(STD, **bubbles_store(8184, 8184)), WORDS, 2, 6, "0x1ff8", "0x0", "0x5678"),
    # of several parts the first: the status, the PC, the flags, the registers and the memory in order
    ("the status, the PC and the flags", changed(STD, **FLAGS, **stops_late(16, "SADR")), BEHIND_HALT, 2, 7, "status", "ADR", "HLT"),
    ("the PC and the flags", changed(STD, **FLAGS, **stops_late(16)), BEHIND_HALT, 2, 7, "PC", "0x10", "0xa"),
    ("the PC and a register", bubbles_write("RRAX", **stops_late(5)), HALT, 1, 6, "PC", "0x5", "0x0"),
    ("the flags and a register", bubbles_write("RRCX", **FLAGS), BEHIND_HALT, 2, 6, "flags", "Z=0 S=0 O=0", "Z=1 S=0 O=0"),
    ("the flags and a word", changed(STD, **FLAGS, **bubbles_store(0, 0)), BEHIND_HALT, 2, 6, "flags", "Z=0 S=0 O=0", "Z=1 S=0 O=0"),
    ("%rcx and %rsp", bubbles_write("RRSP", "RRCX"), HALT, 1, 5, "%rcx", "0x9", "0x0"),
    ("%rax and %r14", bubbles_write("RRAX", "14"), HALT, 1, 5, "%rax", "0x7", "0x0"),
    ("%r13 and %r14", bubbles_write("14", "13"), MISPREDICTED, 3, 9, "%r13", "0x9", "0x0"),
    ("the last register and the first word", bubbles_write("14", **bubbles_store(0, 0)), WORDS, 2, 6, "%r14", "0x7", "0x0"),
    ("two words of memory", changed(STD, **bubbles_store(256, 8184)), WORDS, 2, 6, "0x100", "0x0", "0x1234"),
    ("two words of memory, the last one stored first", changed(STD, **bubbles_store(8184, 256)), WORDS, 2, 6, "0x100", "0x0", "0x1234"),
]


@cases(STATES)
def test_final_state_that_differs(row, told, run):
    _, hcl, text, instructions, cycles, name, is_so, wanted = row
    status, said = told(hcl, text, "--unchecked")
    same((status, some(said, ("outcome", "instructions", "cycles", "wrong", "is", "should_be"))),
        (1, {"outcome": "state", "instructions": instructions, "cycles": cycles, "wrong": [name], "is": is_so, "should_be": wanted}))
    status, out, err = run(hcl, text, "--unchecked")
    same((status, err, out.splitlines()[0]), (1, "", f"The pipeline stops in cycle {cycles}, in a wrong state:"))
    assert [name, *is_so.split(), *wanted.split()] == out.split("WRONG")[1].splitlines()[0].split()


# A file, a program, the instructions, the cycles and the status.
AGREEMENTS = [
    # 34 instructions, 4 cycles to fill the pipeline, 4 loads that are used at once, 2 rets, 1 mispredicted jump
    ("asum", "std", program("asum"), 34, 34 + 4 + 4 + 6 + 2, "HLT"),
    ("load_use", "std", program("load_use"), 3, 3 + 4 + 1, "HLT"),
    ("a jump on the wrong path", "std", program("jump"), 4, 4 + 4 + 2, "HLT"),
    ("code that is stored in time", "std", program("patch"), 8, 8 + 4, "HLT"),
    ("an address outside", "std", "0x000: 700020000000000000 |\n", 2, 2 + 4, "ADR"),
    ("no instruction", "std", "0x000: f0 |\n", 1, 5, "INS"),
]


@cases(AGREEMENTS)
def test_agreement(row, told, run):
    _, name, text, instructions, cycles, stat = row
    status, said = told(example(name), text)
    same((status, said), (0, {"outcome": "same", "instructions": instructions, "cycles": cycles, "status": stat, "verdict": "yes", "premise": "holds",
        "steps": instructions, "covered": True}))
    status, out, err = run(example(name), text)
    count = "1 instruction" if instructions == 1 else f"{instructions} instructions"
    same((status, err, out.splitlines()[0]), (0, "", f"The pipeline does what the instructions say: {count} in {cycles} cycles, and status {stat}."))
    assert "\nSo the theorem covers this run: it says beforehand that nothing differs.\n" in out


# A jump to itself.
LOOP = "0x000: 700000000000000000 |\n"
# D keeps what was fetched first.
HANGS = changed(design("std"), D_stall="1", D_bubble="0", E_bubble="1")


def test_limit(told):
    """A loop of one jump, whose target is fetched next: from cycle 5 on one retires in each cycle."""
    status, said = told(example("std"), LOOP, "--limit", "100")
    same((status, said), (1, {"outcome": "limit", "instructions": 96, "cycles": 100, "verdict": "yes", "premise": "open", "steps": 100, "covered": False}))


def test_a_pipeline_that_never_stops(told):
    """The program stops in step 1."""
    status, said = told(HANGS, HALT, "--limit", "50")
    same((status, some(said, ("outcome", "instructions", "cycles", "steps", "premise"))),
        (1, {"outcome": "limit", "instructions": 0, "cycles": 50, "steps": 1, "premise": "holds"}))


def storing(nops):
    """A program that stores over the constant of `target`, this number of nops before it."""
    return " irmovq target, %rbx\n irmovq $2, %rcx\n rmmovq %rcx, 2(%rbx)\n" + " nop\n" * nops + "target: irmovq $1, %rax\n halt\n"


STORED = storing(2)


def test_a_program_that_is_not_covered(told):
    """The instruction three steps behind the store was fetched before the store."""
    status, said = told(example("std"), STORED)
    same((status, said["outcome"], said["instructions"], said["cycles"], said["wrong"]), (1, "instruction", 5, 10, ["valE"]))
    same((said["retired"]["valE"]["word"], said["wanted"]["valE"]["word"]), ("0x1", "0x2"))
    same(some(said, ("verdict", "premise", "steps", "near", "covered")), {"verdict": "yes", "premise": "fails", "steps": 5, "covered": False,
        "near": {"fetched": "0x020", "stored_by": "0x014", "stored_at": "0x022", "distance": 3}})


IADDQ = " irmovq $2, %rax\n iaddq $3, %rax\n halt\n"


def test_full(told):
    """The verdict is that for the instructions that the run has."""
    same(told(example("with_iaddq"), IADDQ, "--full")[1]["verdict"], "yes")
    same(some(told(example("std"), IADDQ, "--full")[1], ("verdict", "outcome", "instructions", "wrong")),
        {"verdict": "no", "outcome": "instruction", "instructions": 1, "wrong": ["valE", "flags", "status"]})


MIXED = changed(design("std"), F_bubble="0 && D_icode == D_valP")
COMPARES = changed(design("std"), F_bubble=f"0 && ({' || '.join(f'D_valC == {n}' for n in range(65))})")


@cases([("mixed", MIXED), ("too many comparisons", COMPARES)])
def test_no_verdict(row, told):
    """A file that the check has no answer for runs all the same."""
    verdict, hcl = row
    same(some(told(hcl, program("load_use"))[1], ("outcome", "verdict", "obligation", "covered")),
        {"outcome": "same", "verdict": verdict, "obligation": None, "covered": False})


NO_ADR = changed(STD, f_stat="[ !instr_valid : SINS; f_icode == IHALT : SHLT; 1 : SAOK; ]")
FAR_JUMP = "0x000: 700020000000000000 |\n"
APART = "No instruction of the program fetches a byte that one of the three instructions before it stored.\n"
NOT_COVERED = f"{APART}The theorem doesn't cover this run: it needs a yes from the check.\n"
COVERED = f"{APART}So the theorem covers this run: it says beforehand that nothing differs.\n"
# A file, a program, the options of the call, and the page.
PAGES = [
    ("a register and the flags", changed(STD, aluB="0"), OVERFLOW, (), """\
In cycle 10 the pipeline retires instruction 6 of the program, and does it wrong:

    0x017: subq %rax, %rbx

                   it does                     it should do
    WRONG  valE    %rbx = 0xffffffffffffffff   %rbx = 0x7fffffffffffffff
    WRONG  flags   Z=0 S=1 O=0                 Z=0 S=0 O=1
    right  status  AOK                         AOK

The 5 instructions before are right.

The check says no to this file: O13 is false somewhere. `y86-tell check pipe` explains it.
""" + NOT_COVERED),
    ("a word of memory", changed(STD, e_valA="E_valB"), SAVING, ("--unchecked",), """\
In cycle 10 the pipeline retires instruction 6 of the program, and does it wrong:

    0x017: rmmovq %rbx, 0(%rax)

                   it does                     it should do
    WRONG  memory  0x100 = 0x100               0x100 = 0x7
    right  flags   Z=1 S=0 O=0                 Z=1 S=0 O=0
    right  status  AOK                         AOK

The 5 instructions before are right.
"""),
    ("two registers and an access that fails", NO_FORWARDING, " popq %rsp\n popq %rax\n halt\n", ("--unchecked",), """\
In cycle 7 the pipeline retires instruction 2 of the program, and does it wrong:

    0x002: popq %rax

                   it does                     it should do
    WRONG  valE    %rsp = 0x8                  -
    WRONG  valM    %rax = 0xfb04fb0            -
    right  flags   Z=1 S=0 O=0                 Z=1 S=0 O=0
    WRONG  status  AOK                         ADR

The instruction before is right.
"""),
    ("another instruction", NO_WAIT_FOR_RET, RETURNING, ("--unchecked",), """\
In cycle 10 the pipeline retires another instruction in place of instruction 6 of the program:

    it retires        0x00e: nop
    it should retire  0x010: halt

                   it does                     it should do
    right  flags   Z=1 S=0 O=0                 Z=1 S=0 O=0
    WRONG  status  AOK                         HLT

The 5 instructions before are right.
"""),
    ("another ifun", SUBTRACTS, ADDING, ("--unchecked",), """\
In cycle 6 the pipeline retires another instruction in place of instruction 2 of the program:

    it retires        0x00a: icode 6, ifun 1
    it should retire  0x00a: addq %rax, %rax

                   it does                     it should do
    WRONG  valE    %rax = 0x0                  %rax = 0x6
    WRONG  flags   Z=1 S=0 O=0                 Z=0 S=0 O=0
    right  status  AOK                         AOK

The instruction before is right.
"""),
    ("an invalid instruction", NO_INS, "0x000: f0 |\n", ("--unchecked",), """\
In cycle 5 the pipeline retires instruction 1 of the program, and does it wrong:

    0x000: an invalid instruction

                   it does                     it should do
    right  flags   Z=1 S=0 O=0                 Z=1 S=0 O=0
    WRONG  status  AOK                         INS
"""),
    ("another instruction, an invalid one", changed(NO_WAIT_FOR_RET, f_stat=AOK_FOR_INS), INVALID_BELOW_RET, ("--unchecked",), """\
In cycle 10 the pipeline retires another instruction in place of instruction 6 of the program:

    it retires        0x00e: an invalid instruction
    it should retire  0x010: halt

                   it does                     it should do
    right  flags   Z=1 S=0 O=0                 Z=1 S=0 O=0
    WRONG  status  AOK                         HLT

The 5 instructions before are right.
"""),
    ("a fetch outside", NO_ADR, FAR_JUMP, ("--unchecked",), """\
In cycle 6 the pipeline retires instruction 2 of the program, and does it wrong:

    0x2000: a fetch outside the memory

                   it does                     it should do
    right  flags   Z=1 S=0 O=0                 Z=1 S=0 O=0
    WRONG  status  AOK                         ADR

The instruction before is right.
"""),
    ("behind the end", GOES_ON, HALT, ("--unchecked",), """\
In cycle 6 the pipeline retires an instruction, but the program has stopped with status HLT:

    0x000: halt

The instruction before is right.
"""),
    ("stalled and bubbled", example("stall_and_bubble"), program("stall_and_bubble"), (), """\
The pipeline stops in cycle 4, in a wrong state:

                   it has                      it should have
    WRONG  status  PIP                         AOK

PIP: a pipeline register is stalled and bubbled at once.

The check says no to this file: O23 is false somewhere. `y86-tell check pipe` explains it.
""" + NOT_COVERED),
    ("a final word of memory", changed(STD, **bubbles_store(256, 256)), WORDS, ("--unchecked",), """\
The pipeline stops in cycle 6, in a wrong state:

                   it has                      it should have
    WRONG  0x100   0x0                         0x1234

The 2 instructions before are right.
"""),
    ("a final register", bubbles_write("14"), HALT, ("--unchecked",), """\
The pipeline stops in cycle 5, in a wrong state:

                   it has                      it should have
    WRONG  %r14    0x7                         0x0

The instruction before is right.
"""),
    ("the limit", STD, LOOP, ("--limit", "100"), """\
The pipeline hasn't stopped by the end of cycle 100. So far it has retired 96 instructions, all right.
A larger --limit may decide.

The check says yes to this file: all 27 obligations hold.
The first 100 instructions of the program fetch no byte that one of the three instructions before stored.
So the theorem covers this run as far as the program has been followed.
"""),
    ("the limit behind one instruction", STD, LOOP, ("--limit", "5", "--unchecked"), """\
The pipeline hasn't stopped by the end of cycle 5. So far it has retired 1 instruction, all right.
A larger --limit may decide.
"""),
    ("a pipeline that never stops", HANGS, HALT, ("--limit", "50", "--unchecked"), """\
The pipeline hasn't stopped by the end of cycle 50. So far it has retired 0 instructions, all right.
By its instructions the program stops in step 1. A pipeline that the check accepts needs at most five cycles for each step.
"""),
    ("a yes with --full", example("with_iaddq"), IADDQ, ("--full",), """\
The pipeline does what the instructions say: 3 instructions in 7 cycles, and status HLT.

The check with --full says yes to this file: all 27 obligations hold.
""" + COVERED),
    ("a no with --full", STD, IADDQ, ("--full",), """\
In cycle 6 the pipeline retires instruction 2 of the program, and does it wrong:

    0x00a: iaddq $3, %rax

                   it does                     it should do
    WRONG  valE    -                           %rax = 0x5
    WRONG  flags   Z=1 S=0 O=0                 Z=0 S=0 O=0
    WRONG  status  INS                         AOK

The instruction before is right.

The check with --full says no to this file: O2 is false somewhere. `y86-tell check pipe --full` explains it.
""" + NOT_COVERED),
    ("a file that is mixed", MIXED, program("load_use"), (), """\
The pipeline does what the instructions say: 3 instructions in 8 cycles, and status HLT.

The check has no answer for this file: F_bubble joins a code with a word of the datapath.
""" + NOT_COVERED),
    ("too many comparisons", COMPARES, program("load_use"), (), """\
The pipeline does what the instructions say: 3 instructions in 8 cycles, and status HLT.

The check has no answer for this file: its definitions compare more than 64 different pairs of words.
""" + NOT_COVERED),
    ("a program that isn't covered, on a file that is accepted", STD, STORED, (), """\
In cycle 10 the pipeline retires instruction 6 of the program, and does it wrong:

    0x020: irmovq $2, %rax

                   it does                     it should do
    WRONG  valE    %rax = 0x1                  %rax = 0x2
    right  flags   Z=1 S=0 O=0                 Z=1 S=0 O=0
    right  status  AOK                         AOK

The 5 instructions before are right.

The check says yes to this file: all 27 obligations hold.
The instruction at 0x020 fetches a byte that the instruction at 0x014 stored three steps before.
So the theorem doesn't cover this run.
"""),
    ("a program that isn't covered, on a file that is refused", HASTY, storing(1), (), """\
In cycle 9 the pipeline retires instruction 5 of the program, and does it wrong:

    0x01f: irmovq $2, %rax

                   it does                     it should do
    WRONG  valE    %rax = 0x1                  %rax = 0x2
    right  flags   Z=1 S=0 O=0                 Z=1 S=0 O=0
    right  status  AOK                         AOK

The 4 instructions before are right.

The check says no to this file: O10 is false somewhere. `y86-tell check pipe` explains it.
The instruction at 0x01f fetches a byte that the instruction at 0x014 stored two steps before.
So the theorem doesn't cover this run.
"""),
]


@cases(PAGES)
def test_page(row, run):
    _, hcl, text, options, wanted = row
    status = 0 if wanted.startswith("The pipeline does") else 1
    same(run(hcl, text, *options), (status, wanted, ""))


FIRST_STORE = " irmovq target, %rbx\n irmovq $2, %rcx\n rmmovq %rcx, 2(%rbx)\n"
TARGET = "target: irmovq $1, %rax\n halt\n"
# The halt is at 0x01e, and the store may be beside it.
BESIDE = " irmovq behind, %rbx\n irmovq $2, %rcx\n rmmovq %rcx, {}(%rbx)\n halt\nbehind:\n"
# The last byte that is fetched is at 0x014, and begins no instruction.
INVALID = " irmovq byte, %rbx\n rmmovq %rcx, {}(%rbx)\nbyte: .byte {}\n"
# A program, the steps, and the first instruction that fetches what one of the three before it stored: its address, that of the store, where the 8 bytes
# begin, and the distance. Each program begins with one or two instructions of ten bytes.
PREMISES = [
    ("a store one step before", storing(0), 3, ("0x01e", "0x014", "0x020", "one step")),
    ("two steps", storing(1), 4, ("0x01f", "0x014", "0x021", "two steps")),
    ("three steps", storing(2), 5, ("0x020", "0x014", "0x022", "three steps")),
    ("four steps", storing(3), 8, None),
    # of several stores the nearest
    ("stores one and two steps before", f"{FIRST_STORE} rmmovq %rcx, 2(%rbx)\n{TARGET}", 4, ("0x028", "0x01e", "0x02a", "one step")),
    ("stores one and three steps before", f"{FIRST_STORE} nop\n rmmovq %rcx, 2(%rbx)\n{TARGET}", 5, ("0x029", "0x01f", "0x02b", "one step")),
    ("stores two and three steps before", f"{FIRST_STORE} rmmovq %rcx, 2(%rbx)\n nop\n{TARGET}", 5, ("0x029", "0x01e", "0x02b", "two steps")),
    # the 8 bytes and the halt
    ("bytes that end in front of the halt", BESIDE.format(-9), 4, None),
    ("bytes that end with the halt", BESIDE.format(-8), 3, ("0x01e", "0x014", "0x017", "one step")),
    ("bytes that begin with the halt", BESIDE.format(-1), 3, ("0x01e", "0x014", "0x01e", "one step")),
    ("bytes that begin behind the halt", BESIDE.format(0), 4, None),
    # the halt at 0x028 is behind the ten bytes from 0x01e on
    ("bytes that begin behind an irmovq", BESIDE.format(-1).replace(" halt", " irmovq $1, %rax\n halt"), 4, ("0x028", "0x014", "0x028", "two steps")),
    ("bytes that begin with the last one of an irmovq", BESIDE.format(-2).replace(" halt", " irmovq $1, %rax\n halt"), 3,
        ("0x01e", "0x014", "0x027", "one step")),
    # a byte that begins no instruction is one byte: icode 15, and an OPq with ifun 4
    ("bytes behind an invalid icode", INVALID.format(2, "0xf0"), 3, None),
    ("bytes behind an invalid ifun", INVALID.format(2, "0x64"), 3, None),
    ("bytes that begin with an invalid icode", INVALID.format(0, "0xf0"), 2, ("0x014", "0x00a", "0x014", "one step")),
]
STOPS = """\
The program stops in step {}.
No instruction fetches a byte that one of the three instructions before it stored.
Under every HCL file that `y86 check pipe` accepts, `y86 psim` therefore reports what `y86 yis` reports.
All three need the same --full; the runs need the same --mem, and `y86 psim` a --limit of at least five cycles for each step.
"""
MEETS = """\
The instruction at {0} fetches a byte that the instruction at {1} stored {3} before.
The store writes the 8 bytes from {2} on. Steps before the fetch: {4}.
A pipeline may have fetched the old byte, so the theorem about accepted HCL files doesn't cover this program.
These two would be no reason if at least three other instructions ran between them.
"""


@cases(PREMISES)
def test_program(row, y86, y86_tell):
    _, text, steps, near = row
    wanted = (0, STOPS.format(steps), "") if near is None else (1, MEETS.format(*near, steps), "")
    same(y86_tell("program", "p.yo", files={"p.yo": y86("yas", "p.ys", files={"p.ys": text}).out}).text(), wanted)


@cases(PREMISES)
def test_premise(row, told, run):
    """What `run` says of it."""
    _, text, steps, near = row
    if near is None:
        wanted, ends = {"premise": "holds", "steps": steps, "near": None}, f"\n{COVERED}"
    else:
        fetched, stored_by, stored_at, before = near
        distance = ("one step", "two steps", "three steps").index(before) + 1
        wanted = {"premise": "fails", "steps": steps, "near": {"fetched": fetched, "stored_by": stored_by, "stored_at": stored_at, "distance": distance}}
        ends = f"\nThe instruction at {fetched} fetches a byte that the instruction at {stored_by} stored {before} before.\n"
        ends += "So the theorem doesn't cover this run.\n"
    same(some(told(STD, text, "--unchecked")[1], ("premise", "steps", "near")), wanted)
    same(run(STD, text)[1][-len(ends) :], ends)


def test_unchecked(told, run):
    """Without the check's answer the theorem isn't spoken of, but for a program that it doesn't cover."""
    same(some(told(example("std"), program("asum"), "--unchecked")[1], ("outcome", "verdict", "premise", "covered")),
        {"outcome": "same", "verdict": None, "premise": "holds", "covered": False})
    same(run(example("std"), program("load_use"), "--unchecked"), (0, "The pipeline does what the instructions say: 3 instructions in 8 cycles, and status HLT.\n", ""))
    assert run(example("std"), STORED, "--unchecked")[1].endswith("stored three steps before.\nSo the theorem doesn't cover this run.\n")


def test_memory(told):
    """A word of memory that the program's own memory hasn't."""
    text = " irmovq $64, %rax\n mrmovq (%rax), %rbx\n halt\n"
    same(told(example("std"), text, "--mem", "64")[1]["status"], "ADR")
    same(told(example("std"), text, "--mem", "72")[1]["status"], "HLT")


# The words of a call, the files, the status, and how standard error begins.
FAULTS = [
    ("HCL", {"d.hcl": "word f_pc = ;\n", "p.yo": "0x000: 00 |\n"}, (), 5, "d.hcl:1:13: "),
    ("HCL for SEQ", {"d.hcl": example("seq"), "p.yo": "0x000: 00 |\n"}, (), 5, "d.hcl:"),
    ("object text", {"d.hcl": example("std"), "p.yo": "0x000: 0 |\n"}, (), 5, "p.yo:1: "),
    ("both: the HCL file first", {"d.hcl": "word f_pc = ;\n", "p.yo": "0x000: 0 |\n"}, (), 5, "d.hcl:1:13: "),
    ("no HCL file", {"p.yo": "0x000: 00 |\n"}, (), 3, "d.hcl: the file can't be read\n"),
    ("no object file", {"d.hcl": example("std")}, (), 3, "p.yo: the file can't be read\n"),
    ("HCL too long", {"d.hcl": " " * 65537, "p.yo": "0x000: 00 |\n"}, (), 7, "d.hcl: the file is too long"),
    ("a memory of 65 bytes", {"d.hcl": example("std"), "p.yo": "0x000: 00 |\n"}, ("--mem", "65"), 2, "--mem takes a multiple of 8 from 64 to 1048576\n"),
    ("a limit of 0", {"d.hcl": example("std"), "p.yo": "0x000: 00 |\n"}, ("--limit", "0"), 2, "error: "),
]


@cases(FAULTS)
def test_faults(row, y86_tell):
    _, files, options, status, begins = row
    came = y86_tell("run", "d.hcl", "p.yo", *options, files=files).text()
    same((came[0], came[1], came[2][: len(begins)]), (status, "", begins))


def test_a_source_in_place_of_its_object(y86_tell):
    """It would be an empty program. So is a text that puts no byte, as `yas` leaves it of a source that it refuses."""
    source = "# nothing yet\n\nmain: halt\n"
    refused = "p.ys:3: This is a source and no object file: assemble it by `yas` first. As an object file it puts no byte anywhere.\n"
    files = {"d.hcl": example("std"), "p.ys": source}
    same(y86_tell("run", "d.hcl", "p.ys", files=files).text(), (5, "", refused))
    same(y86_tell("program", "p.ys", files=files).text(), (5, "", refused))
    for nothing in ("", "# nothing yet\n", "0x000: |\n"):
        empty = "p.yo: No line puts a byte anywhere. If `yas` refused the source, mend it and assemble it again.\n"
        same(y86_tell("program", "p.yo", files={"p.yo": nothing}).text(), (5, "", empty))
        same(y86_tell("run", "d.hcl", "p.yo", files={**files, "p.yo": nothing}).text(), (5, "", empty))


def test_out_of_memory(y86_tell, folder):
    """Requests for memory are refused, each in a call of its own, behind those of reading the arguments: the call says so, or had no need of it."""
    library = built(folder, REFUSING)
    files = {"d.hcl": NO_FORWARDING, "p.yo": program("asum")}
    enough = y86_tell("run", "d.hcl", "p.yo", "--unchecked", files=files).text()
    refused = 0
    for number in (300, 500, 700, 1000, 1500, 2000):
        came = y86_tell("run", "d.hcl", "p.yo", "--unchecked", env={"LD_PRELOAD": library, "FAIL_ALLOC": str(number)}).text()
        if came != enough:
            same(came, (6, "", "out of memory\n"))
            refused += 1
    assert refused >= 4
