// The situation of a refusal of SEQ or SEQ+ as a scene for the drawing of the processor (draw/seq.mjs).
import { register } from "../names.mjs";
import { boxOf, instructionOf } from "./boxes.mjs";
import { NONE } from "./numbers.mjs";
import { constant } from "./values.mjs";

// (any word will do)
const ANY = "·", FUNCTIONS = ["add", "sub", "and", "xor"], FLAGS = { ZF: ANY, SF: ANY, OF: ANY };

/** The fields of signals in the form of y86-stages: a number, or `NAME_from` for the name of a word that is picked. */
class Fields {
  constructor(value) {
    this.value = value;
  }

  /** A number as the drawing has it, where it is known. */
  shown(name, of = (it) => constant(name, it)) {
    const it = this.value(name);
    return it === null ? ANY : typeof it === "number" ? of(it) : String(it);
  }

  /** A number that is a register. */
  register(name) {
    return this.shown(name, (it) => (it === NONE ? "-" : register(it)));
  }

  /** A word: where it comes from. */
  word(name) {
    const it = this.value(name), isName = typeof it === "string";
    return { [name]: it === null || isName ? ANY : String(it), [`${name}_from`]: isName ? it : "-" };
  }
}

function accessOf(fields, { derror }) {
  const [reads, writes] = ["mem_read", "mem_write"].map((it) => fields.value(it));
  if (derror) return "fails";
  if (reads === null && writes === null) return ANY;
  return [reads && "reads", writes && "writes"].filter(Boolean).join(" and ") || "nothing";
}

function stagesOf(fields, { S, P }, path) {
  const bit = (name) => fields.shown(name, String), F = {
    icode: constant("icode", S.icode), ifun: String(S.ifun), rA: S.rA === NONE ? "-" : register(S.rA),
    rB: S.rB === NONE ? "-" : register(S.rB), valC: ANY, valP: ANY, imem_error: String(S.error),
    instr_valid: bit("instr_valid"), need_regids: bit("need_regids"), need_valC: bit("need_valC"),
  };
  for (const it of ["icode", "ifun"]) if (fields.value(it) !== null) F[it] = fields.shown(it);
  const E = {
    ...fields.word("aluA"), ...fields.word("aluB"), alufun: fields.shown("alufun", (it) => FUNCTIONS[it] ?? String(it)),
    set_cc: bit("set_cc"), Cnd: String(S.cnd), valE: ANY,
  };
  const M = {
    ...fields.word("mem_addr"), ...fields.word("mem_data"), Stat: fields.shown("Stat"), does: accessOf(fields, S),
    isOpen: true, valM: ANY,
  };
  const next = fields.word(path === "seq" ? "new_pc" : "pc");
  const left = { pValC: ANY, pValM: ANY, pValP: ANY };
  const before = P ? { pIcode: constant("icode", P.icode), pCnd: String(P.cnd), ...left } : {};
  return {
    F: { at: "", text: instructionOf(S, "S"), fields: F },
    D: { fields: { srcA: fields.register("srcA"), srcB: fields.register("srcB"), valA: ANY, valB: ANY } },
    E: { fields: E }, M: { fields: M }, W: { fields: { dstE: fields.register("dstE"), dstM: fields.register("dstM") } },
    P: { fields: { ...next, ...before } },
  };
}

/**
 * The scene of a situation `{ S, P }`, P of SEQ+ alone; `value(name)` is as for the pipeline (scene.mjs), and `signals`
 * are those to mark.
 */
export function seqSceneOf(lines, path, value, signals) {
  const said = Object.entries(lines).map(([stage, it]) => boxOf(it, stage).join(", ")).join("; ");
  const marks = Object.fromEntries(signals.filter((it) => it.isWrong).map((it) => [it.name, "bad"]));
  const stages = stagesOf(new Fields(value), lines, path), label = `The counterexample: ${said}`;
  return { stages, flags: FLAGS, writes: null, stores: null, path, row: 1, marks, label };
}
