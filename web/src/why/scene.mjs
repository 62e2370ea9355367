// The situation of a refusal as a scene for the drawing of the pipeline (draw/pipe.mjs).
import { register } from "../names.mjs";
import { boxOf, instructionOf, remarks } from "./boxes.mjs";
import { STATUSES, constant } from "./values.mjs";
import { NONE } from "./numbers.mjs";

const TRACKED = ["e_valE", "m_valM", "M_valE", "W_valM", "W_valE", "D_valP"];
// (any word will do)
const ANY = "·";
const LEFT_OPEN = { D: ["valC", "valP"], E: ["valC", "valA", "valB"], M: ["valA", "valE"], W: ["valM", "valE"] };
const shortRegister = (number) => (number === NONE ? "–" : register(number));
const isGood = (it) => !["bubble", "wrong"].includes(it.kind);

function stageOf(it, stage, row) {
  const isWrong = it.kind === "wrong", isBubble = it.kind === "bubble";
  const tag = isWrong ? "wrong path" : isBubble ? "" : remarks(it, stage).join(", ");
  return { text: instructionOf(it, stage), at: "", row, kind: isBubble ? "bubble" : isWrong ? "cancelled" : "", tag };
}

function fieldsOf(it, stage) {
  const isBubble = it.kind === "bubble";
  if (stage === "F") return { predPC: ANY };
  const found = { stat: isBubble ? "BUB" : STATUSES[it.stat], icode: isBubble ? "nop" : boxOf(it, stage)[0] };
  for (const name of ["rA", "rB", "dstE", "dstM", "srcA", "srcB"])
    if (name in it) found[name] = shortRegister(it[name]);
  for (const name of LEFT_OPEN[stage]) found[name] = ANY;
  if (stage === "M") found.Cnd = String(it.cnd);
  return found;
}

/** The values of signals that are known, as the drawing has them. */
function textsOf({ stages, value }, rule) {
  const show = (name) => {
    const it = value(name);
    if (it === null || it === undefined) return undefined;
    return typeof it === "number" && /_(src|dst)/.test(name) ? shortRegister(it) : String(it);
  };
  const status = (name) => (value(name) === null || value(name) === undefined ? undefined
    : constant(name, value(name)));
  const found = { Stat: status("Stat"), cnd: condition(stages.E) }, has = (stage) => stages[stage].kind !== "bubble";
  const names = [...(has("D") ? ["d_srcA", "d_srcB", "d_dstE", "d_dstM"] : []),
    ...(has("E") ? ["aluA", "aluB", "e_dstE"] : [])];
  for (const name of names) found[name] = show(name);
  if (!has("M")) return found;
  const reads = value("mem_read"), writes = value("mem_write");
  if (rule === "O18" || reads || writes) found.mem_addr = show("mem_addr");
  return Object.assign(found, { mem: writes ? "write" : reads ? "read" : "", m_stat: status("m_stat") });
}

function condition({ kind, icode, ifun, cnd }) {
  return kind !== "bubble" && ifun && [2, 7].includes(icode) ? (cnd ? "holds" : "fails") : "";
}

/** The words that D picks and wants, as ways in the drawing, and the fields to look at. */
function forwards({ stages, value }, signals, marks, on) {
  const found = [];
  for (const side of "AB") {
    const it = signals.find((signal) => signal.name === `d_val${side}`);
    if (!it) continue;
    const ways = [[it.isWrong ? it.value : "", "bad", "picked"], [it.wanted, "want", "wanted"]];
    for (const [from, kind, word] of ways)
      if (TRACKED.includes(from) || from.startsWith("d_rval"))
        found.push({ side, from, kind, label: `${from} ${word}`, row: 1 });
    if (it.isWrong && it.isAsked) on.add(`val${side}`);
    const source = value(`d_src${side}`);
    for (const stage of "EMW") for (const to of ["dstE", "dstM"])
      if (isGood(stages[stage]) && source !== NONE && stages[stage][to] === source) marks[`${stage}_${to}`] = "look";
    marks[`d_src${side}`] = "look";
  }
  return found;
}

/** A load/use hazard that isn't seen: its register in D and in E. */
function markLoad({ stages, value }, rule, marks) {
  if (rule !== "O10" && rule !== "O11") return;
  const name = rule === "O10" ? "d_srcA" : "d_srcB", source = value(name);
  if (isGood(stages.E) && stages.E.dstM === source && source !== NONE) marks.E_dstM = marks[name] = "look";
}

/** What each stage that should act otherwise should do. */
function actsWanted({ acts }, rule, signals) {
  const found = {};
  if (rule === "O23") return found;
  for (const { name, isBlamed } of signals) {
    const [stage, what] = name.split("_");
    if (isBlamed && acts[stage] !== what && acts[stage] !== "both") found[stage] = `${what} wanted`;
  }
  return found;
}

function pcOf({ value, isFetchRight }, rule) {
  const picked = value("f_pc");
  if (rule !== "O25" || typeof picked !== "string" || picked === "F_predPC") return {};
  return { from: picked, kind: isFetchRight ? "want" : "bad", label: `f_pc = ${picked}`, row: 1 };
}

/** What a register does by its two control signals. */
export const actOf = (stall, bubble) => (stall && bubble ? "both" : stall ? "stall" : bubble ? "bubble" : "load");

/**
 * The scene of a situation `{ stages, acts, value, isFetchRight }`: by stage `{ kind, icode, .. }` and load, stall,
 * bubble or both; `value(name)` is a signal's number, or the name of the word that it picks, or null where that isn't
 * known.
 */
export function sceneOf(situation, rule, signals) {
  const scene = { stages: {}, fields: {}, next: situation.acts, marks: {}, on: new Set() };
  [..."FDEMW"].forEach((it, at) => {
    scene.stages[it] = stageOf(situation.stages[it], it, at + 1);
    scene.fields[it] = fieldsOf(situation.stages[it], it);
  });
  for (const it of signals) if (it.isWrong) scene.marks[it.name] = "bad";
  const forward = forwards(situation, signals, scene.marks, scene.on);
  markLoad(situation, rule, scene.marks);
  const one = (it) => {
    const { text, kind } = scene.stages[it], next = scene.next[it];
    return `${it}: ${text}${kind === "cancelled" ? ", wrong path" : ""}${next === "load" ? "" : `, ${next} next`}`;
  };
  const label = `The smallest counterexample to ${rule}: ${[..."FDEMW"].map(one).join("; ")}`;
  return { ...scene, texts: textsOf(situation, rule), forward, pc: pcOf(situation, rule), label,
    wanted: actsWanted(situation, rule, signals) };
}
