// A refusal explained by the program y86-tell: its JSON as the page shows it. What y86-tell finds is proved; its JSON,
// and how it is drawn, are tested.
import { startOf } from "../dom.mjs";
import { comparison } from "./boxes.mjs";
import { definitionOf } from "./places.mjs";
import { actOf, sceneOf } from "./scene.mjs";
import { seqSceneOf } from "./seq_scene.mjs";

const STILL_LOADED = "The instruction in E still has to load that register, so no choice is right: the instruction in D"
  + " has to wait, and it goes on to E.";
const STAGES = [..."FDEMW"], SIGNS = { "<": "lt", "==": "eq" }, WRONG = "wrong path";

/** A value of the JSON as HCL writes it. */
function shown(value) {
  if (value === null || value === undefined) return "";
  return value.name ?? value.constant ?? String(value.number);
}

/** The case that is taken, as the file has it, and its line and place; none of a definition without cases. */
function caseOf(text, taken) {
  if (!taken) return {};
  const start = startOf(text, taken.line) + taken.column - 1, end = start + taken.text.length;
  return { taken: { text: taken.text, line: taken.line, start, end }, start, end };
}

function signalOf(text, it) {
  const place = definitionOf(text, it.signal), isWrong = !it.right;
  const found = {
    name: it.signal, isBlamed: false, isWrong: isWrong && it.wanted !== null, isAsked: it.wanted !== null,
      isPicked: it.value?.name !== undefined,
    value: shown(it.value) || "?", wanted: shown(it.wanted),
      reads: it.reads.map(({ signal, value }) => [signal, shown(value)]),
  };
  if (!place) return found;
  Object.assign(found, { from: place.from, to: place.to, start: place.start, end: place.end, source: place.body });
  return Object.assign(found, caseOf(text, it.case));
}

/** A control signal that a change of which would be a repair. */
function repairOf(text, name, motion) {
  const [stage, what] = name.split("_"), isOn = motion[stage][what], place = definitionOf(text, name);
  const found = { name, isBlamed: true, isWrong: false, isAsked: false, isPicked: false, value: String(Number(isOn)),
    wanted: String(Number(!isOn)), reads: [] };
  return place ? Object.assign(found, { from: place.from, to: place.to, start: place.start, end: place.end,
    source: place.body }) : found;
}

/** The signals that the repairs invert, each once. */
function invertedBy(motion) {
  const { invert, invert_both, invert_and_f_pc } = motion;
  return [...new Set([...invert, ...invert_both.flat(), ...invert_and_f_pc.map((it) => it.invert)])];
}

function nextInWords(motion) {
  const does = (it) => (motion[it].stall && motion[it].bubble ? "is stalled and bubbled"
    : motion[it].stall ? "is stalled" : motion[it].bubble ? "is bubbled" : "loads");
  return `${STAGES.map((it) => `${it} ${does(it)}`).join(", ")}; the fetch is `
    + `${motion.fetch_is_right ? "right" : "on the wrong path"}.`;
}

/** What goes wrong as the registers move on, and which changes would be a repair. */
function motionOf(motion, isStillLoaded) {
  if (!motion) return [];
  const said = motion.faults.map((text) => ({ text }));
  if (said.length) said.unshift({ text: nextInWords(motion), isStep: true });
  const repairs = [
    ...motion.invert.map((it) => `inverting ${it}`), ...motion.f_pc.map((it) => `f_pc as ${it}`),
    ...motion.invert_both.map((it) => `inverting ${it.join(" and ")}`),
    ...motion.invert_and_f_pc.map((it) => `inverting ${it.invert} with f_pc as ${it.f_pc}`),
  ];
  if (repairs.length) said.push({ text: `A repair in this situation: ${repairs.join(", or ")}.`, isStep: true });
  if (isStillLoaded) said.push({ text: STILL_LOADED });
  return said;
}

function briefOf(rule, signals, motion, isStillLoaded) {
  const it = signals.find((signal) => signal.isWrong);
  if (it) return `${it.name} ${it.isPicked ? "picks" : "is"} ${it.value}; ${it.wanted} is wanted`;
  if (isStillLoaded) return "Load/use: the instruction in D has to wait for the load in E, and it goes on";
  return motion.find((said) => !said.isStep)?.text.replace(/\.$/, "") ?? "";
}

/** The stages of a counterexample; of SEQ and SEQ+ the instruction, S, and what the one before has left, P. */
function stagesOf({ comparisons, ...lines }) {
  const kindOf = (it) => (it.kind === WRONG ? { ...it, kind: "wrong" } : it);
  return Object.fromEntries(Object.entries(lines).filter(([, it]) => it).map(([stage, it]) => [stage, kindOf(it)]));
}

/** The signals to show: those that are wrong, or else all; and those of which a change would be a repair. */
function signalsOf(text, { signals, motion }, isStillLoaded) {
  const isNoneWrong = signals.every((it) => it.right);
  const found = signals.filter((it) => !it.right || isNoneWrong).map((it) => signalOf(text, it));
  for (const it of motion ? invertedBy(motion) : []) found.push(repairOf(text, it, motion));
  if (isStillLoaded)
    for (const it of ["D_stall", "E_bubble"])
      if (motion && !motion[it[0]][it.slice(2)]) found.push(repairOf(text, it, motion));
  return found;
}

/**
 * One refuted obligation of the JSON: `rule`, `says` (the obligation), `brief`, `where` (comparisons of words),
 * `motion` ({ text, isStep }), `scene` (for the drawing), and `signals` ({ name, value, wanted, isWrong, isBlamed,
 * isPicked, isAsked, from, to, start, end, taken (the case, { text, line, start, end }), source, reads }).
 */
function refusalOf(text, refuted, path) {
  const { obligation, counterexample, motion } = refuted, rule = obligation.label, stages = stagesOf(counterexample);
  const isStillLoaded = refuted.signals.some((it) => !it.right && it.wanted === null);
  const signals = signalsOf(text, refuted, isStillLoaded), moves = motionOf(motion, isStillLoaded);
  const where = counterexample.comparisons.map((it) => comparison(SIGNS[it.sign], it.left, it.right, it.holds));
  const value = valuesOf(refuted.signals), brief = briefOf(rule, signals, moves, isStillLoaded);
  const scene = path === "pipe" ? sceneOf(situationOf(stages, motion, value), rule, signals)
    : seqSceneOf(stages, path, value, signals);
  return { rule, signals, motion: moves, where, brief, says: obligation, scene };
}

/** All refuted obligations of what y86-tell printed, and which to mend first; no refusals where that is no JSON. */
export function refusalsOf(text, printed, path) {
  try {
    const { refuted, mend_first } = JSON.parse(printed);
    return { refusals: refuted.map((it) => refusalOf(text, it, path)), first: mend_first };
  } catch {
    return { refusals: [], first: "" };
  }
}

/** The values that are known: those of the signals, and of what they read. */
function valuesOf(signals) {
  const known = signals.flatMap((it) =>
    [[it.signal, it.value], ...it.reads.map(({ signal, value }) => [signal, value])]);
  const values = Object.fromEntries(known.map(([name, value]) => [name, value?.name ?? value?.number ?? null]));
  return (name) => values[name] ?? null;
}

/** The situation of a pipeline as its drawing takes it. */
function situationOf(stages, motion, value) {
  const acts = Object.fromEntries(
    STAGES.map((it) => [it, motion ? actOf(motion[it].stall, motion[it].bubble) : "load"]));
  return { stages, acts, value, isFetchRight: motion?.fetch_is_right ?? true };
}
