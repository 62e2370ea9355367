// What is in a stage of a situation, in words.
import { register } from "../names.mjs";
import { STATUSES, mnemonic } from "./values.mjs";
import { IADDQ, IRMOVQ, JXX, MRMOVQ, NONE, OPQ, POPQ, PUSHQ, RMMOVQ, RRMOVQ } from "./numbers.mjs";

const WORDS = [["rA", "rA"], ["rB", "rB"], ["srcA", "reads A"], ["srcB", "reads B"], ["dstE", "result to"],
  ["dstM", "loads"]];

function nameOf({ icode, ifun = 0, stat }, stage) {
  if (stat === 3 && "DE".includes(stage)) return "a failed fetch";
  if (!"WP".includes(stage)) return mnemonic(icode, ifun);
  return { [JXX]: "jump", [OPQ]: "OPq", [RRMOVQ]: "rrmovq" }[icode] ?? mnemonic(icode);
}

/** What the jump or the move will do, or has done. */
function condition({ icode, ifun = 0, ...it }, stage) {
  const lines = [];
  if ((icode === RRMOVQ || icode === JXX) && ifun && "cnd" in it)
    lines.push(it.cnd ? "condition holds" : "condition fails");
  if (icode !== JXX) return lines;
  if (stage === "P") lines.push(it.cnd ? "was taken" : "wasn't taken");
  if ("FD".includes(stage)) lines.push(it.taken ? "will be taken" : "won't be taken");
  if (it.back) lines.push("goes backward");
  return lines;
}

/** The lines of a stage `{ kind, icode, .. }`: its instruction first, then what counts of it. */
export function boxOf(it, stage) {
  if (it.kind === "bubble") return ["bubble"];
  if ("FS".includes(stage) && it.error) return ["the fetch fails"];
  const lines = [nameOf(it, stage)];
  for (const [name, word] of WORDS) if ((it[name] ?? NONE) !== NONE) lines.push(`${word} ${register(it[name])}`);
  return [...lines, ...remarks(it, stage)];
}

/** What is to be said of a stage besides its registers. */
export function remarks(it, stage) {
  const lines = [];
  if ((it.stat ?? 1) !== 1) lines.push(`status ${STATUSES[it.stat]}`);
  lines.push(...condition(it, stage));
  if (it.stops || (it.error && stage === "M") || it.derror) lines.push("its address is bad");
  if ("DEMW".includes(stage) && it.kind === "wrong") lines.push("on the wrong path");
  return lines;
}

/** A comparison of two words that the situation decides, as `lt` or `eq`. */
export function comparison(sign, left, right, truth) {
  const words = { lt: ["isn't below", "is below"], eq: ["doesn't equal", "equals"] }[sign];
  return `${left} ${words[Number(truth)]} ${right}`;
}

const shown = (number) => (number === undefined || number === NONE ? "…" : register(number));

function writer({ dstE, dstM }, name) {
  const to = [dstE, dstM].filter((it) => it !== undefined && it !== NONE).map(register);
  return to.length ? `${name} → ${[...new Set(to)].join(", ")}` : name;
}

const ASSEMBLY = {
  [RRMOVQ]: (name, stage, a, b, it) => `${name} ${stage === "M" ? "…" : shown(a)}, `
    + `${shown(stage === "M" ? it.dstE : b)}`,
  [IRMOVQ]: (name, stage, a, b, it) => `${name} $…, ${shown(it.rB ?? it.dstE)}`,
  [RMMOVQ]: (name, stage, a, b) => (stage === "M" ? name : `${name} ${shown(a)}, …(${shown(b)})`),
  [MRMOVQ]: (name, stage, a, b, it) => ("DS".includes(stage) ? `${name} …(${shown(it.rB)}), ${shown(it.rA)}`
    : `${name} …(${shown(it.srcB)}), ${shown(it.dstM)}`),
  [PUSHQ]: (name, stage, a) => (stage === "M" ? name : `${name} ${shown(a)}`),
  [POPQ]: (name, stage, a, b, it) => `${name} ${shown(it.rA ?? it.dstM)}`,
};
ASSEMBLY[OPQ] = ASSEMBLY[RRMOVQ];
ASSEMBLY[IADDQ] = ASSEMBLY[IRMOVQ];

/** The assembly that a stage of the situation might be. */
export function instructionOf(it, stage) {
  const name = boxOf(it, stage)[0];
  if (it.kind === "bubble") return "bubble";
  if (it.error && "FS".includes(stage)) return "fetch fails";
  if (it.stat === 3 && "DE".includes(stage)) return "failed fetch";
  if (stage === "F" || stage === "W") return writer(it, name);
  const second = it.rB ?? (it.srcB !== undefined && it.srcB !== NONE ? it.srcB : it.dstE);
  return ASSEMBLY[it.icode]?.(name, stage, it.rA ?? it.srcA, second, it) ?? name;
}
