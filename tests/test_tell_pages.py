"""What `y86-tell check pipe` says from the smallest counterexample on: the situation, the signals, the next cycle, the repairs and the other obligations.
Also its settings of a file that it accepts. And that no page has a line of more than 96 columns.

The expected texts are worked out by hand: which situation is the smallest one from docs/OBLIGATIONS.md, what is in it from the designs and their changes.
"""
from helpers.cases import cases, same
from helpers.designs import changed, design, example, replaced
from helpers.rows import broken, datapath
from test_tell import LOAD_USE

LOADS_A = "E_icode in { IMRMOVQ, IPOPQ } && E_dstM == d_srcA"
MISPREDICTED = "E_icode == IJXX && !e_Cnd"
RETURNS = "IRET in { D_icode, E_icode, M_icode }"
STAGES = {"F": "fetch", "D": "decode", "E": "execute", "M": "memory", "W": "write-back"}
LAST = "\nA file that works may be refused, too: perhaps no program reaches this situation.\n"


def situation(y86_tell, base, bodies):
    """What a refusal says from its situation on."""
    status, out, err = y86_tell("check", "pipe", "d.hcl", files={"d.hcl": changed(design(base), **bodies)}).text()
    same((status, err), (1, ""))
    return out.partition("\nThe smallest counterexample:\n\n")[2]


def stages(held):
    """The lines of the five stages. F fetches a halt and the others hold bubbles, unless it is said here what they have."""
    return [f"    {stage}  {name:12}{held.get(stage, 'halt' if stage == 'F' else 'bubble')}\n" for stage, name in STAGES.items()]


# ---- the situation

def wrong_where(condition):
    """O4 is broken where a stage has this, which is while F fetches a halt: `need_valC` is 1 there."""
    return {"need_valC": f"@ || {condition}"}


# A design, its changes, what the stages hold in the smallest situation, and the comparisons there.
SITUATIONS = [
    ("jmp is always taken", "std", {"need_regids": "@ || f_icode == IJXX"}, {"F": "jmp, will be taken"}),
    ("a jump in F isn't taken", "std", {"need_regids": "@ || f_icode == IJXX && f_ifun == 3"}, {"F": "je, won't be taken"}),
    ("a jump in F goes backward", "std", {"f_stat": "[ f_icode == IJXX && f_valC < f_valP : SINS; @ ]"},
        {"F": "jmp, will be taken, goes backward"}, "f_valC is below f_valP"),
    ("a jump in F goes forward", "std", {"f_stat": "[ f_icode == IJXX && f_valC >= f_valP : SINS; @ ]"},
        {"F": "jmp, will be taken"}, "f_valC isn't below f_valP"),
    ("the fetch fails", "std", {"need_regids": "@ || imem_error"}, {"F": "the fetch fails"}),
    ("registers in D", "std", wrong_where("D_icode == IRRMOVQ && D_ifun == 2 && D_rA == RRCX && D_rB == RRDX"), {"D": "cmovl, rA %rcx, rB %rdx"}),
    ("rA isn't named in D", "std", wrong_where("D_icode == IIRMOVQ && D_rA == RNONE"), {"D": "irmovq, rB %rax"}),
    ("a failed fetch in D", "std", wrong_where("D_stat == SADR"), {"D": "a failed fetch, status SADR"}),
    ("a halt in D", "std", wrong_where("D_stat == SHLT"), {"D": "halt, status SHLT"}),
    ("an invalid instruction in D", "std", wrong_where("D_stat == SINS"), {"D": "invalid, status SINS"}),
    ("a jump in D is taken", "std", wrong_where("D_icode == IJXX"), {"D": "jmp, will be taken"}),
    ("a jump in D isn't taken", "std", wrong_where("D_icode == IJXX && D_ifun == 4"), {"D": "jne, won't be taken"}),
    ("a jump in D goes backward", "std", wrong_where("D_icode == IJXX && D_valC < D_valP"),
        {"D": "jmp, will be taken, goes backward"}, "D_valC is below D_valP"),
    # nothing of the program comes after a halt
    ("D is on the wrong path", "std", wrong_where("D_stat == SAOK && M_stat == SHLT"), {"D": "nop, on the wrong path", "M": "halt, status SHLT"}),
    ("a failed fetch in D on the wrong path", "std", wrong_where("D_stat == SADR && M_stat == SHLT"),
        {"D": "a failed fetch, status SADR, on the wrong path", "M": "halt, status SHLT"}),
    ("a failed fetch in E", "std", wrong_where("E_stat == SADR"), {"E": "a failed fetch, status SADR"}),
    ("a halt in E", "std", wrong_where("E_stat == SHLT"), {"E": "halt, status SHLT"}),
    ("E is on the wrong path", "std", wrong_where("E_stat == SAOK && M_stat == SHLT"), {"E": "nop, on the wrong path", "M": "halt, status SHLT"}),
    ("a condition in E holds", "std", wrong_where("E_icode == IRRMOVQ && E_ifun == 1 && E_srcA == RRCX && E_dstE == RRDX && e_Cnd"),
        {"E": "cmovle, reads A %rcx, writes %rdx, its condition holds"}),
    ("registers in E", "std", wrong_where("E_icode == IPOPQ && E_dstM == RRCX"), {"E": "popq, reads A %rsp, reads B %rsp, writes %rsp, loads %rcx"}),
    ("a jump in E goes backward", "std", wrong_where("E_icode == IJXX && E_ifun == 1 && e_Cnd && E_valC < E_valA"),
        {"E": "jle, its condition holds, goes backward"}, "E_valC is below E_valA"),
    ("registers in M", "std", wrong_where("M_icode == IPOPQ && M_dstM == RRCX"), {"M": "popq, writes %rsp, loads %rcx"}),
    ("a condition in M fails", "std", wrong_where("M_icode == IRRMOVQ && !M_Cnd"), {"M": "cmovle, its condition fails"}),
    ("a condition in M holds", "std", wrong_where("M_icode == IRRMOVQ && M_ifun == 1 && M_dstE == RRDX"), {"M": "cmovle, writes %rdx, its condition holds"}),
    ("a bad address in M", "std", wrong_where("dmem_error"), {"M": "rmmovq, its address is bad"}),
    ("a failed fetch in M", "std", wrong_where("M_stat == SADR"), {"M": "nop, status SADR"}),
    # (only where the ALU carries a jump's target, M knows its direction)
    ("a jump in M goes backward", "not_taken", wrong_where("M_icode == IJXX && M_valE < M_valA"), {"M": "jmp, goes backward"}, "M_valE is below M_valA"),
    ("registers in W", "std", wrong_where("W_icode == IPOPQ && W_dstM == RRCX"), {"W": "popq, writes %rsp, loads %rcx"}),
    ("W has no ifun", "std", wrong_where("W_icode == IOPQ && W_dstE == RRDX"), {"W": "OPq, writes %rdx"}),
    ("W stops the machine", "std", {"Stat": "[ W_stat == SADR : SAOK; @ ]"}, {"W": "nop, status SADR"}),
]


@cases(SITUATIONS)
def test_situation(row, y86_tell):
    _, base, bodies, held, *comparisons = row
    wanted = stages(held) + [f"    {it}\n" for it in comparisons]
    same(situation(y86_tell, base, bodies).partition("\nThe signals there:\n\n")[0], "".join(wanted))


# ---- the signals

# What is changed in std.hcl, and what is said of the signals.
SIGNALS = [
    ("one of two signals is wrong", {"f_icode": "[ imem_error : IHALT; 1 : imem_icode; ]"}, """\
    WRONG  f_icode is 0 (IHALT). It has to be 1 (INOP).
           It takes case 1 of its definition, at line 10, column 18:
               imem_error : IHALT;
           It reads imem_error = 1, imem_icode = 1 (INOP).
    right  f_ifun is 0, as it has to be.
"""),
    ("two of four signals are wrong", {"w_dstE": "W_dstM", "w_dstM": "W_dstE"}, """\
    WRONG  w_dstE is 15 (RNONE). It has to be 0 (%rax).
           It reads W_dstM = 15 (RNONE).
    WRONG  w_dstM is 0 (%rax). It has to be 15 (RNONE).
           It reads W_dstE = 0 (%rax).
    right  w_valE is W_valE, as it has to be.
    right  w_valM is W_valM, as it has to be.
"""),
    ("the register byte is read", {"d_dstE": "[ D_icode == IPUSHQ && D_rA == RRCX : RNONE; @ ]"}, """\
    WRONG  d_dstE is 15 (RNONE). It has to be 4 (%rsp).
           It takes case 1 of its definition, at line 42, column 17:
               D_icode == IPUSHQ && D_rA == RRCX : RNONE;
           It reads D_icode = 10 (IPUSHQ), D_rA = 1 (%rcx), D_rB = 0 (%rax).
"""),
    ("no case is taken", {"aluB": "[ E_icode in { IMRMOVQ, IOPQ, ICALL, IPUSHQ, IRET, IPOPQ } : E_valB; E_icode in { IRRMOVQ, IIRMOVQ } : 0; ]"}, """\
    WRONG  aluB is 0. It has to be E_valB.
           It reads E_icode = 4 (IRMMOVQ).
"""),
    ("the status in W", {"Stat": "W_stat"}, """\
    WRONG  Stat is 0 (SBUB). It has to be 1 (SAOK).
           It reads W_stat = 0 (SBUB).
"""),
]


@cases(SIGNALS)
def test_signals(row, y86_tell):
    _, bodies, wanted = row
    after = situation(y86_tell, "std", bodies).partition("\nThe signals there:\n\n")[2]
    same(after, f"{wanted}\nAll other obligations hold.\n{LAST}")


# ---- stalls and bubbles

# A design, its changes, what the stages hold, and all that is said below them.
MOTION = [
    # (a store goes on without its word, so `lf` is 1, and O16 asks for load forwarding)
    ("nothing waits for a load", "std", {"F_stall": RETURNS, "D_stall": "0", "D_bubble": f"{MISPREDICTED} || {RETURNS}", "E_bubble": MISPREDICTED},
        {"D": "rrmovq, rA %rax, rB %rax", "E": "mrmovq, reads B %rax, loads %rax"}, """
The signals there:

    WRONG  d_valA is d_rvalA. No value is right here: E is still loading that register, so the
           instruction has to wait in D.
           It takes case 7 of its definition, at line 51, column 57:
               1 : d_rvalA;
           It reads D_icode = 2 (IRRMOVQ), d_srcA = 0 (%rax), e_dstE = 15 (RNONE), M_dstM = 15
           (RNONE), M_dstE = 15 (RNONE), W_dstM = 15 (RNONE), W_dstE = 15 (RNONE).

The fetch: f_pc is F_predPC. The program goes on there.
The next cycle:

    F loads.
    D loads: it has an instruction of the program.
    E loads: it has an instruction of the program.
    M loads: it has an instruction of the program.
    W loads: it has a bubble.

No single change of a stall, a bubble or f_pc makes O10, O11 and O23 to O27 hold in this
situation, and no pair of such changes does.

Also false somewhere, each in a situation of its own:

    O11: d_valB is d_rvalB. No value is right here: E is still loading that register, so the
         instruction has to wait in D.
    O16: e_valA is E_valA. It has to be m_valM.

All other obligations hold.
Mend O10 first: its wrong signals don't depend on the wrong signals of another obligation.
"""),
    ("nothing but F waits for the word of valB", "std", {"D_stall": LOADS_A, "E_bubble": f"{MISPREDICTED} || {LOADS_A}"},
        {"D": "rmmovq, rA %rax, rB %rcx", "E": "mrmovq, reads B %rax, loads %rcx"}, """
The signals there:

    WRONG  d_valB is d_rvalB. No value is right here: E is still loading that register, so the
           instruction has to wait in D.
           It takes case 6 of its definition, at line 55, column 57:
               1 : d_rvalB;
           It reads d_srcB = 1 (%rcx), e_dstE = 15 (RNONE), M_dstM = 15 (RNONE), M_dstE = 15
           (RNONE), W_dstM = 15 (RNONE), W_dstE = 15 (RNONE).

The fetch: f_pc is F_predPC. The program goes on there.
The next cycle:

    F is stalled.
    D loads: it has an instruction of the program.
    E loads: it has an instruction of the program.
    M loads: it has an instruction of the program.
    W loads: it has a bubble.

A repair: no single change does it, but each of these pairs makes O10, O11 and O23 to O27 hold
in this situation.
    Invert D_stall and E_bubble.

Also false somewhere, each in a situation of its own:

    O25: it is about stalls and bubbles; inverting D_stall and E_bubble would repair it.

All other obligations hold.
Mend O11 first: its wrong signals don't depend on the wrong signals of another obligation.
"""),
    ("two signals, each alone", "std", {"F_bubble": "D_icode == IRET"}, {"D": "ret"}, """
The fetch: f_pc is F_predPC. The program doesn't go on there, so the fetch is on the wrong path.
The next cycle:

    F is stalled and bubbled.
    D is bubbled: it has a bubble.
    E loads: it has an instruction of the program.
    M loads: it has a bubble.
    W loads: it has a bubble.

WRONG: F is stalled and bubbled at once.

A repair: each of these changes alone makes O10, O11 and O23 to O27 hold in this situation.
    Invert F_stall or F_bubble.

All other obligations hold.
"""),
    ("two pairs of signals", "std", {"F_bubble": f"D_icode == IRET && {LOAD_USE}", "D_bubble": f"{MISPREDICTED} || {RETURNS}"},
        {"D": "ret", "E": "mrmovq, reads B %rax, loads %rsp"}, """
The fetch: f_pc is F_predPC. The program doesn't go on there, so the fetch is on the wrong path.
The next cycle:

    F is stalled and bubbled.
    D is stalled and bubbled: it has an instruction of the program.
    E is bubbled: it has a bubble.
    M loads: it has an instruction of the program.
    W loads: it has a bubble.

WRONG: F is stalled and bubbled at once.
WRONG: D is stalled and bubbled at once.

A repair: no single change does it, but each of these pairs makes O10, O11 and O23 to O27 hold
in this situation.
    Invert F_stall and D_bubble.
    Invert F_bubble and D_bubble.

All other obligations hold.
"""),
    # the jump in E was predicted as taken, and it is: its target is the predicted PC and valC
    ("two choices of f_pc", "std", {"f_pc": "[ E_icode == IJXX && e_Cnd : M_valA; @ ]"}, {"E": "jmp"}, """
The fetch: f_pc is M_valA. The program goes on at F_predPC, so the fetch is on the wrong path.
The next cycle:

    F loads.
    D loads: it has an instruction on the wrong path.
    E loads: it has a bubble.
    M loads: it has an instruction of the program.
    W loads: it has a bubble.

WRONG: An instruction on the wrong path enters D, and nothing ahead of it will cancel it.
WRONG: D doesn't load the program's next instruction, and F goes on: that instruction is
       skipped.

A repair: each of these changes alone makes O10, O11 and O23 to O27 hold in this situation.
    Let f_pc be F_predPC or E_valC.

All other obligations hold.
"""),
    ("signals, or a choice of f_pc", "early_jumps", {"f_pc": "[ E_icode == IJXX && E_ifun == 1 : F_predPC; @ ]"}, {"E": "jle, its condition fails"}, """
The fetch: f_pc is F_predPC. The program doesn't go on there, so the fetch is on the wrong path.
The next cycle:

    F loads.
    D loads: it has an instruction on the wrong path.
    E is bubbled: it has a bubble.
    M loads: it has an instruction of the program.
    W loads: it has a bubble.

WRONG: An instruction on the wrong path enters D, and nothing ahead of it will cancel it.

A repair: each of these changes alone makes O10, O11 and O23 to O27 hold in this situation.
    Invert D_stall or D_bubble.
    Let f_pc be E_valA.

All other obligations hold.
"""),
    ("the fetch is right", "early_jumps", {"E_bubble": LOAD_USE}, {"D": "nop, on the wrong path", "E": "jle, its condition fails"}, """
The fetch: f_pc is E_valA. The program goes on there.
The next cycle:

    F loads.
    D loads: it has an instruction of the program.
    E loads: it has an instruction on the wrong path.
    M loads: it has an instruction of the program.
    W loads: it has a bubble.

WRONG: An instruction of the program follows one on the wrong path.

A repair: each of these changes alone makes O10, O11 and O23 to O27 hold in this situation.
    Invert E_bubble.

All other obligations hold.
"""),
    ("M stops the machine", "std", {"M_bubble": "0"}, {"E": "nop, on the wrong path", "M": "rmmovq, its address is bad"}, """
The fetch: f_pc is F_predPC. The youngest instruction of the program stops the machine, so the
           fetch is on the wrong path.
The next cycle:

    F loads.
    D loads: it has an instruction on the wrong path.
    E loads: it has a bubble.
    M loads: it has an instruction on the wrong path.
    W loads: it has an instruction of the program.

WRONG: An instruction on the wrong path reaches M, where it changes something.

A repair: each of these changes alone makes O10, O11 and O23 to O27 hold in this situation.
    Invert M_bubble.

All other obligations hold.
"""),
]


@cases(MOTION)
def test_motion(row, y86_tell):
    _, base, bodies, held, wanted = row
    same(situation(y86_tell, base, bodies), "".join(stages(held)) + wanted + LAST)


# ---- the other obligations that are false somewhere

STATUS = {"Stat": "W_stat"}
# A design, what is changed in it, what is said of the other obligations, and which to mend first. With the changed `Stat` O22 is false first.
OTHERS = [
    ("signals and a bubble", "std", {"m_stat": "M_stat"}, """\
    O20: m_stat is 1 (SAOK). It has to be 3 (SADR).
    O25: it is about stalls and bubbles; inverting M_bubble would repair it.
""", "O20"),
    ("two signals of an obligation", "std", {"need_regids": "@ && f_icode != IPUSHQ", "mem_read": "@ || M_icode == ICALL", "mem_write": "@ && M_icode != ICALL"}, """\
    O19: mem_read is 1. It has to be 0. mem_write is 0. It has to be 1.
""", "O3"),
    ("two signals, each alone", "std", {**STATUS, "F_bubble": "D_icode == IRET"}, """\
    O23: it is about stalls and bubbles; inverting F_stall or F_bubble would repair it.
""", "O22"),
    ("two pairs of signals", "std", {**STATUS, "F_bubble": f"D_icode == IRET && {LOAD_USE}", "D_bubble": f"{MISPREDICTED} || {RETURNS}"}, """\
    O23: it is about stalls and bubbles; inverting F_stall and D_bubble or F_bubble and D_bubble
         would repair it.
""", "O22"),
    # the mispredicted jump in M: its right target is M_valA
    ("a choice of f_pc", "std", {**STATUS, "f_pc": "[ W_icode == IRET : W_valM; 1 : F_predPC; ]"}, """\
    O25: f_pc is F_predPC. Letting it be M_valA would repair it.
""", "O22"),
    ("two choices of f_pc", "std", {**STATUS, "f_pc": "[ E_icode == IJXX && e_Cnd : M_valA; @ ]"}, """\
    O25: f_pc is M_valA. Letting it be F_predPC or E_valC would repair it.
""", "O22"),
    ("two signals, or a choice of f_pc", "early_jumps", {**STATUS, "f_pc": "[ E_icode == IJXX && E_ifun == 1 : F_predPC; @ ]"}, """\
    O25: it is about stalls and bubbles; inverting D_stall or D_bubble, or letting f_pc be
         E_valA, would repair it.
""", "O22"),
    # the ret in W: D has to load what is fetched at W_valM
    ("a signal with a choice of f_pc", "std",
        {**STATUS, "f_pc": "[ M_icode == IJXX && !M_Cnd : M_valA; 1 : F_predPC; ]", "D_bubble": "W_icode == IRET || (@)"}, """\
    O25: it is about stalls and bubbles; inverting D_bubble and letting f_pc be W_valM would
         repair it.
""", "O22"),
]


@cases(OTHERS)
def test_others(row, y86_tell):
    _, base, bodies, wanted, first = row
    after = situation(y86_tell, base, bodies).partition("\nAlso false somewhere, each in a situation of its own:\n\n")[2]
    mend = f"Mend {first} first: its wrong signals don't depend on the wrong signals of another obligation.\n"
    same(after, f"{wanted}\nAll other obligations hold.\n{mend}{LAST}")


# ---- the settings of a file that is accepted

ALL = "jmp, jle, jl, je, jne, jge, jg"
# The sentences of the four settings, off and on.
SENTENCES = {
    "tv": ("A jump doesn't always carry its target through the ALU.", "A jump carries its target through the ALU, so that M_valE is its target."),
    "lf": (
        "A store or push waits for a word that is still being loaded, like any other instruction.",
        "A word that is just loaded may be forwarded to a store or push after it, without a stall.",
    ),
    "je": (
        "A mispredicted jump is repaired while it is in memory: it costs two bubbles.",
        "A mispredicted jump may be repaired while it is in execute: it may then cost only one bubble.",
    ),
    "rm": ("A return goes on from write-back: it costs three bubbles.", "A return may go on from memory: it may then cost only two bubbles."),
}
# A design, its jumps that are predicted as taken, forward and backward, and the settings that are on.
SETTINGS = [
    ("std", ALL, ALL, ""),
    ("not_taken", "jmp", "jmp", "tv"),
    ("backward_taken", "jmp", ALL, "tv"),
    ("load_forwarding", ALL, ALL, "lf"),
    ("early_jumps", ALL, ALL, "je"),
    ("early_returns", ALL, ALL, "rm"),
    ("all_shortcuts", "jmp", ALL, "tv lf je rm"),
]


@cases(SETTINGS)
def test_settings(row, y86_tell):
    name, forward, backward, are_on = row
    wanted = f"""\
yes: all 27 obligations hold.

This pipeline does what the instructions mean, for every program in which no instruction
overwrites one of the next three. Its settings:

    Forward jumps that it predicts as taken: {forward}.
    Backward jumps that it predicts as taken: {backward}.
"""
    wanted += "".join(f"    {SENTENCES[it][it in are_on.split()]}\n" for it in SENTENCES)
    same(y86_tell("check", "pipe", "d.hcl", files={"d.hcl": example(name)}).text(), (0, wanted, ""))


def test_no_jump_is_predicted_as_taken(y86_tell):
    """`not_taken.hcl`, with `jmp` like all other jumps."""
    bodies = {
        "f_pc": "[ M_icode == IJXX && M_Cnd : M_valE; W_icode == IRET : W_valM; 1 : F_predPC; ]",
        "f_predPC": "[ f_icode == ICALL : f_valC; 1 : f_valP; ]",
        "D_bubble": f"E_icode == IJXX && e_Cnd || !({LOAD_USE}) && {RETURNS}",
        "E_bubble": f"E_icode == IJXX && e_Cnd || {LOAD_USE}",
    }
    status, out, _ = y86_tell("check", "pipe", "d.hcl", files={"d.hcl": changed(design("not_taken"), **bodies)}).text()
    assert status == 0
    assert "    Forward jumps that it predicts as taken: none.\n    Backward jumps that it predicts as taken: none.\n" in out


# ---- the width of the pages

@cases(broken())
def test_width(row, y86_tell):
    """Each line of a refusal has at most 96 columns: of each obligation what it demands is there."""
    label, base, definitions, _ = row
    status, out, _ = y86_tell("check", datapath(label, base), "d.hcl", files={"d.hcl": replaced(design(base), definitions)}).text()
    same((status, [line for line in out.splitlines() if len(line) > 96]), (1, []))
