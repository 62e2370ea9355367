"""Runs `sample HCL SEED COUNT` on designs that break an obligation in few situations, and compares what it finds with a model of this
file's own. The model draws the situations by the rules of crates/prog_gen/specs/Choices.antt: for each of the 40 fields and each atom one draw of a generator that starts at
SEED plus the situation's number; a field gets one of the numbers that may stand there behind those in front. Which obligations are false in a situation is
told by the text that `aig` writes. No theorem says which draw is which number: a mistake of this kind would stand in the definition and in the code alike.
"""
import functools

from helpers.aiger import Aag
from helpers.cases import cases, same
from helpers.designs import changed, design
from helpers.situations import FIELDS

WORD = 2**64
COUNT = 4000
NONE, STACK = 15, [4]
REGISTERS, NO_REGISTER = list(range(15)), [NONE]


class Row:
    """A row of the instruction table, as far as fields need it. Register columns are the numbers that they can have."""

    def __init__(self, byte="", top=15, src_a=NO_REGISTER, src_b=NO_REGISTER, dst_e=NO_REGISTER, dst_m=NO_REGISTER, memory=False):
        self.byte, self.top, self.src_a, self.src_b, self.dst_e, self.dst_m, self.memory = byte, top, src_a, src_b, dst_e, dst_m, memory
        self.moves = self.jumps = self.is_tied = False


ANY = REGISTERS
TABLE = [
    Row(),  # halt
    Row(),  # nop
    Row("ab", 6, ANY, dst_e=ANY),  # rrmovq, cmovXX
    Row("-b", dst_e=ANY),  # irmovq
    Row("ab", src_a=ANY, src_b=ANY, memory=True),  # rmmovq
    Row("ab", src_b=ANY, dst_m=ANY, memory=True),  # mrmovq
    Row("ab", 3, ANY, ANY, ANY),  # OPq
    Row(top=6),  # jXX
    Row(src_b=STACK, dst_e=STACK, memory=True),  # call
    Row(src_a=STACK, src_b=STACK, dst_e=STACK, memory=True),  # ret
    Row("a-", src_a=ANY, src_b=STACK, dst_e=STACK, memory=True),  # pushq
    Row("a-", src_a=STACK, src_b=STACK, dst_e=STACK, dst_m=ANY, memory=True),  # popq
    Row("-b", src_b=ANY, dst_e=ANY),  # iaddq
]
TABLE[2].moves = TABLE[7].jumps = TABLE[6].is_tied = TABLE[12].is_tied = True
NO_ROW = Row(top=0)

BUBBLE = {"stat": [0], "icode": [1], "ifun": [0], "rA": [NONE], "rB": [NONE], "dstE": [NONE], "dstM": [NONE], "srcA": [NONE], "srcB": [NONE], "cnd": [1]}


def holding(ifun):
    """The truths that a condition can have."""
    return [1] if ifun == 0 else [0, 1] if ifun < 7 else [0]


class Situation:
    """A situation as it is drawn: the numbers so far."""

    def __init__(self, count, word):
        self.count, self.word, self.now = count, word % WORD, {}

    def draw(self):
        self.word = (self.word * 6364136223846793005 + 1442695040888963407) % WORD
        return self.word >> 33

    def drawn(self, atoms):
        """The bits of all fields, and of the atoms."""
        bits = []
        for name, width in FIELDS:
            may = self.may(*name.split())
            number = may[self.draw() % len(may)]
            self.now[name] = number
            bits += [number >> k & 1 for k in range(width - 1, -1, -1)]
        return bits + [self.draw() % 2 for _ in range(atoms)]

    def row(self, stage):
        icode = self.now.get(f"{stage} icode", 15)
        return TABLE[icode] if icode < self.count else NO_ROW

    def may(self, stage, field):
        """The numbers that may stand in a field, in rising order."""
        if field == "kind":
            return [0, 1, 2] if stage in "DE" else [0, 1]
        if stage == "F":
            return self.fetched(field)
        if self.now[f"{stage} kind"] == 0:
            return [0, 1] if (stage, field) == ("M", "cnd") else BUBBLE.get(field, [0])
        if field == "icode":
            return self.icodes(stage)
        return self.held(stage, field, self.row(stage))

    def fetched(self, field):
        error, row = self.now.get("F error"), self.row("F")
        if field == "error":
            return [0, 1]
        if field == "icode":
            return [1] if error else [*range(self.count), 15]
        if field == "ifun":
            return [0] if error else list(range(row.top + 1))
        if field == "taken":
            return holding(self.now["F ifun"]) if row.jumps else [0]
        return [0, 1] if (row.memory if field == "stops" else row.jumps) else [0]

    def icodes(self, stage):
        """The icodes that go with a status; in W an instruction that failed at memory keeps its own."""
        failed = [k for k in range(self.count) if TABLE[k].memory] if stage == "W" else []
        return {1: list(range(1, self.count)), 2: [0], 3: sorted([1, *failed]), 4: [15]}[self.now[f"{stage} stat"]]

    def held(self, stage, field, row):
        """A field of an instruction in D, E, M or W."""
        now = lambda name: self.now[f"{stage} {name}"]
        if field == "stat":
            return [1, 2, 3, 4]
        if field == "ifun":
            return [0] if now("stat") == 3 else list(range(row.top + 1))
        if field in ("rA", "rB"):
            return [NONE] if not row.byte else REGISTERS if field[1].lower() in row.byte else [*REGISTERS, NONE]
        if field == "dstE":
            lost = row.moves and (stage == "W" or stage == "M" and now("ifun") != 0)
            return [*row.dst_e, NONE] if lost else row.dst_e
        if field == "srcB":
            return [now("dstE")] if row.is_tied else row.src_b
        if field in ("dstM", "srcA"):
            return {"dstM": row.dst_m, "srcA": row.src_a}[field]
        if field == "cnd":
            # in M a move has lost its destination just where its condition fails
            lost = stage == "M" and row.moves
            return [it for it in holding(now("ifun")) if not lost or (now("dstE") == NONE) == (it == 0)]
        live = now("kind") == 1 and now("stat") == 1
        if field == "taken":
            return holding(now("ifun")) if live and row.jumps else [0]
        return [0, 1] if live and (row.memory if field in ("stops", "error") else row.jumps) else [0]


@functools.cache
def lanes(seed, icodes):
    """For each bit of a situation, and of eight atoms, its truths in all drawn situations: bit i of a number is that of situation i."""
    drawn = [Situation(icodes, seed + index).drawn(8) for index in range(COUNT)]
    return [int("".join(map(str, bits[::-1])), 2) for bits in zip(*drawn)]


def found(text, seed, icodes):
    """The first of the drawn situations in which an output is 1, and the first such output, as `sample` says it."""
    aag, every = Aag(text), (1 << COUNT) - 1
    value = [0] * (aag.most + 1)
    for literal, truths in zip(aag.inputs, lanes(seed, icodes)):
        value[literal // 2] = truths
    of = lambda literal: value[literal // 2] ^ (every if literal & 1 else 0)
    for left, first, second in aag.ands:
        value[left // 2] = of(first) & of(second)
    firsts = [((it & -it).bit_length() - 1, number + 1) for number, it in enumerate(map(of, aag.outputs)) if it]
    return (1, "found {} O{}\n".format(*min(firsts))) if firsts else (0, f"none in {COUNT}\n")


# Changed definitions of std.hcl, each of which is wrong where some fields have some numbers, or where atoms are true; `@` stands for the old body.
DESIGNS = [
    {"f_ifun": "[ imem_icode == IJXX && imem_ifun == 5 : FNONE; @ ]"},
    {"f_icode": "[ imem_icode == IPUSHQ && imem_ifun == 3 : INOP; @ ]"},
    {"f_icode": "[ imem_icode == 15 && D_stat == SINS : INOP; @ ]"},
    {"need_regids": "@ || imem_error && D_icode == IRET"},
    {"f_predPC": "[ f_icode == IJXX && f_ifun == 4 : f_valP; @ ]"},
    {"f_pc": "[ M_icode == IJXX && !M_Cnd : F_predPC; @ ]"},
    {"d_srcA": "[ D_icode == IPUSHQ && D_rA in { 9, 10, 11 } : RNONE; @ ]"},
    {"d_srcA": "[ D_stat == SHLT : RRAX; @ ]"},
    {"d_srcB": "[ D_icode == IPUSHQ && D_rB == RNONE : RRAX; @ ]"},
    {"d_dstE": "[ D_icode == IIRMOVQ && D_rA in { 12, 13, 14, 15 } : RRBX; @ ]"},
    {"d_dstM": "[ D_icode == IPOPQ && D_ifun in { 1, 3, 5, 7, 9, 11, 13, 15 } : RNONE; @ ]"},
    {"d_valA": "[ D_icode == IPUSHQ : D_valP; @ ]"},
    {"d_valB": "[ D_icode in { IPUSHQ, IPOPQ, IRET } && W_dstE == RRSP : d_rvalB; @ ]"},
    {"aluA": "[ E_icode == IPOPQ && E_dstM in { 5, 6, 7 } : -8; @ ]"},
    {"alufun": "[ E_icode == IOPQ && E_ifun in { 1, 2, 3 } : ALUADD; @ ]"},
    {"set_cc": "@ || E_icode == IRMMOVQ && E_srcA in { 12, 13, 14 } && E_srcB in { 0, 1, 2 }"},
    {"e_dstE": "[ E_icode == IRRMOVQ && E_ifun == 3 && !e_Cnd : E_dstE; @ ]"},
    {"e_dstE": "[ E_icode == IIRMOVQ && E_dstE in { 3, 4 } : RNONE; @ ]"},
    {"mem_read": "@ && !M_dstM in { 2, 3 }"},
    {"mem_addr": "[ M_icode == IPUSHQ && M_ifun == 12 : M_valA; @ ]"},
    {"mem_read": "@ || M_icode == IRRMOVQ && M_dstE == RNONE"},
    {"m_stat": "[ dmem_error && M_icode == IRET : SAOK; @ ]"},
    {"w_dstE": "[ W_icode == IRRMOVQ && W_dstE == RNONE : RRAX; 1 : W_dstE; ]"},
    {"w_valM": "[ W_icode == IPOPQ && W_dstM == 11 : W_valE; 1 : W_valM; ]"},
    {"Stat": "[ W_stat == SBUB : SAOK; W_stat == SADR && W_icode == IPOPQ : SINS; 1 : W_stat; ]"},
    {"W_stall": "1", "W_bubble": "1"},
    {"M_stall": "M_icode == INOP && M_stat == SAOK"},
    {"F_stall": "@ || f_icode == IPUSHQ"},
    {"E_bubble": "@ || D_icode == IOPQ && E_icode == INOP"},
    {"D_bubble": "@ || imem_icode == IOPQ && imem_ifun == 1"},
    # two obligations that are false in the same situation, and one that is false in earlier ones than an obligation before it
    {"d_srcA": "[ D_stat == SHLT : RRAX; @ ]", "d_dstE": "[ D_stat == SHLT : RRBX; @ ]"},
    {"d_srcA": "[ D_stat == SHLT : RRAX; @ ]", "W_stall": "1", "W_bubble": "1"},
    # one atom; two; an atom with a field
    {"set_cc": "@ && F_predPC != 5"},
    {"set_cc": "@ && !(F_predPC == 5 && W_valM == 3)"},
    {"set_cc": "@ && (F_predPC == 5 || W_valM != 3)"},
    {"w_valE": "[ W_valE == 7 && W_icode == ICALL : W_valM; 1 : W_valE; ]"},
]


def with_files():
    """Each design; some of them also with iaddq."""
    for bodies in DESIGNS:
        yield str(bodies), bodies, "std", ()
        if {"d_dstE", "set_cc"} & set(bodies):
            yield f"iaddq {bodies}", bodies, "with_iaddq", ("--full",)


@cases(with_files())
def test_aig_writes(row, y86):
    _, bodies, file, full = row
    status, _, err = y86("aig", "d.hcl", *full, files={"d.hcl": changed(design(file), **bodies)})
    same((status, err), (0, b""))


# The second seed passes 2^64.
@cases((f"from {seed} {row[0]}", seed, *row[1:]) for row in with_files() for seed in (7, WORD - 2000))
def test_sample(row, y86):
    _, seed, bodies, file, full = row
    aag = y86("aig", "d.hcl", *full, files={"d.hcl": changed(design(file), **bodies)}).out.decode()
    status, out, _ = y86("sample", "d.hcl", str(seed), str(COUNT), *full)
    same((status, out.decode()), found(aag, seed, 13 if full else 12))
