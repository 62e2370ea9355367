// The names of HCL and of Y86-64, as docs/HCL.md and docs/ASSEMBLY.md have them, and which datapath a file is for.

const split = (text) => text.split(" ");
const numbered = (names) => Object.fromEntries(names.map((it, number) => [it, number]));

export const ICODES = split("IHALT INOP IRRMOVQ IIRMOVQ IRMMOVQ IMRMOVQ IOPQ IJXX ICALL IRET IPUSHQ IPOPQ IIADDQ");
export const STATUSES = split("SBUB SAOK SHLT SADR SINS");
const NAMED_REGISTERS = split("RRAX RRCX RRDX RRBX RRSP RRBP RRSI RRDI");
const FUNCTIONS = split("ALUADD ALUSUB ALUAND ALUXOR");

export const CONSTANTS = {
  FNONE: 0, UNCOND: 0, RNONE: 15,
  ...numbered(ICODES), ...numbered(STATUSES), ...numbered(NAMED_REGISTERS), ...numbered(FUNCTIONS),
};
export const REGISTERS = split("%rax %rcx %rdx %rbx %rsp %rbp %rsi %rdi %r8 %r9 %r10 %r11 %r12 %r13 %r14");
export const MNEMONICS = split(
  "halt nop rrmovq irmovq rmmovq mrmovq addq subq andq xorq jmp jle jl je jne jge jg cmovle cmovl cmove cmovne cmovge"
  + " cmovg call ret pushq popq iaddq",
);
export const DIRECTIVES = split(".pos .align .quad");
export const KEYWORDS = split("word bool int wordsig boolsig intsig quote in");

// What each datapath gives as a word, and what it gives besides.
const WORDS = {
  pipe: new Set(split(
    "F_predPC f_valC f_valP D_valC D_valP d_rvalA d_rvalB E_valC E_valA E_valB e_valE M_valE M_valA m_valM"
    + " W_valE W_valM",
  )),
  seq: new Set(split("pc valC valP valA valB valE valM")),
  seqplus: new Set(split("pValM pValC pValP valC valP valA valB valE valM")),
};
const CODES = {
  pipe: split(
    "imem_icode imem_ifun imem_error dmem_error e_Cnd D_stat D_icode D_ifun D_rA D_rB E_stat E_icode E_ifun E_dstE"
    + " E_dstM E_srcA E_srcB M_stat M_icode M_ifun M_Cnd M_dstE M_dstM W_stat W_icode W_dstE W_dstM",
  ),
  seq: split("imem_icode imem_ifun imem_error dmem_error Cnd rA rB"),
  seqplus: split("imem_icode imem_ifun imem_error dmem_error Cnd rA rB pIcode pCnd"),
};
export const GIVEN = Object.fromEntries(Object.keys(WORDS).map((it) => [it, new Set([...WORDS[it], ...CODES[it]])]));

// What a file defines.
export const DEFINED = {
  pipe: split(
    "f_pc f_icode f_ifun instr_valid f_stat need_regids need_valC f_predPC d_srcA d_srcB d_dstE d_dstM d_valA d_valB"
    + " aluA aluB alufun set_cc e_valA e_dstE mem_addr mem_read mem_write m_stat w_dstE w_valE w_dstM w_valM Stat"
    + " F_stall F_bubble D_stall D_bubble E_stall E_bubble M_stall M_bubble W_stall W_bubble",
  ),
  seq: split(
    "icode ifun instr_valid need_regids need_valC srcA srcB dstE dstM aluA aluB alufun set_cc mem_addr mem_read"
    + " mem_write mem_data Stat new_pc",
  ),
};
DEFINED.seqplus = ["pc", ...DEFINED.seq.filter((it) => it !== "new_pc")];

export const PATHS = { pipe: "PIPE", seq: "SEQ", seqplus: "SEQ+" };

/** The datapath that a file is for: the one most of whose names it defines. */
export function datapath(text) {
  const names = new Set([...text.matchAll(/^\s*(?:word|bool|int)\s+(\w+)/gm)].map((it) => it[1]));
  let best = "pipe", most = 0;
  for (const it in DEFINED) {
    const count = DEFINED[it].filter((name) => names.has(name)).length;
    if (count > most) [best, most] = [it, count];
  }
  return best;
}

/** The name of a register's number. */
export const register = (number) => REGISTERS[number] ?? "none";

/** A text without its comments, in which every place stays where it is. */
export const bare = (text) => text.replace(/#[^\n]*/g, (it) => " ".repeat(it.length));

/** Whether a file speaks of iaddq. */
export const knowsIaddq = (text) => /\bIIADDQ\b/.test(bare(text));
