// The datapath of the pipeline, after CS:APP 3e, figure 4.52, on its side: fetch on the left, write-back on the right.
import { escaped } from "../dom.mjs";
import { Sheet, hue, shortWord } from "./sheet.mjs";

export const NAMES = { F: "Fetch", D: "Decode", E: "Execute", M: "Memory", W: "Write back" };
const STAGES = [..."FDEMW"];
// Where the pipeline registers and the names of the stages are: left edge and width.
const BARS = { F: [8, 64], D: [184, 84], E: [400, 90], M: [624, 88], W: [826, 88] };
const BANDS = { F: [8, 170], D: [184, 210], E: [400, 218], M: [624, 196], W: [826, 166] };
const SLOTS = {
  F: [[7, "predPC"]],
  D: [[0, "stat"], [1, "icode"], [2, "rA"], [3, "rB"], [6, "valC"], [7, "valP"]],
  E: [[0, "stat"], [1, "icode"], [2, "dstE"], [3, "dstM"], [4, "srcA"], [5, "srcB"], [6, "valC"], [7, "valA"],
    [8, "valB"]],
  M: [[0, "stat"], [1, "icode"], [2, "dstE"], [3, "dstM"], [4, "Cnd"], [6, "valA"], [8, "valE"]],
  W: [[0, "stat"], [1, "icode"], [2, "dstE"], [3, "dstM"], [6, "valM"], [8, "valE"]],
};
const TOP = 76, TALL = 25, BOTTOM = TOP + 9 * TALL, mid = (slot) => TOP + slot * TALL + TALL / 2;
// The lanes below the stages on which words go back, and the one to Select PC.
const TRACKS = { e_valE: 338, m_valM: 351, M_valE: 364, W_valM: 377, W_valE: 390 }, PC = 406;
// Where a word leaves for its lane.
const TAPS = {
  e_valE: [[612, mid(8)]], m_valM: [[819, mid(6)]], M_valE: [[716, mid(8)]], W_valM: [[914, mid(6)], [938, mid(6)]],
    W_valE: [[914, mid(8)], [928, mid(8)]],
  M_valA: [[722, mid(6)]], E_valA: [[496, mid(7)]], E_valC: [[493, mid(6)]],
};
// Where a lane goes up into the choice of valA and of valB.
const INTO = {
  A: { e_valE: 284, m_valM: 294, M_valE: 304, W_valM: 314, W_valE: 324 },
  B: { e_valE: 348, m_valM: 357, M_valE: 366, W_valM: 375, W_valE: 384 },
};
const UNDER = { A: 279, B: 303 };
const LANE_NAMES = [["e_valE", 590], ["m_valM", 770], ["M_valE", 664], ["W_valM", 870], ["W_valE", 870]];
const ALU = "M563 240L597 252L597 290L563 302L563 278L571 271L563 264Z";
const ALU_SIGNS = { add: "+", sub: "−", and: "&", xor: "^" };

/** The way of a word to the choice of valA or valB; null where it has none. */
function forwardWay(side, from) {
  if (from === `d_rval${side}`) return side === "A" ? [[300, 226], [300, 248]] : [[366, 226], [366, 274]];
  if (from === "D_valP") return [[268, mid(7)], [276, mid(7)]];
  const tap = TAPS[from], track = TRACKS[from];
  if (!tap || !track) return null;
  const x = INTO[side][from];
  return [...tap, [tap.at(-1)[0], track], [x, track], [x, UNDER[side]]];
}

/** The way of a word to Select PC. */
function pcWay(from) {
  if (from === "F_predPC") return [[72, mid(7)], [80, mid(7)]];
  const tap = TAPS[from];
  return tap ? [...tap, [tap.at(-1)[0], PC], [90, PC], [90, 277]] : null;
}

/** The lanes of the words that may be forwarded, and what goes to the registers and to Select PC. */
function lanes(sheet, lit) {
  for (const name in TRACKS) {
    const tap = TAPS[name], track = TRACKS[name];
    sheet.wire([...tap, [tap.at(-1)[0], track], [INTO.A[name], track], [INTO.A[name], UNDER.A]]);
    sheet.wire([[INTO.B[name], track], [INTO.B[name], UNDER.B]]);
  }
  sheet.wire(pcWay("M_valA"));
  sheet.wire([[938, TRACKS.W_valM], [938, PC], [722, PC]], "", 0, false);
  const [isOn, row] = lit("write", "W");
  sheet.wire([[914, 151], [921, 151], [921, 65], [274, 65], [274, 196], [280, 196]], isOn && "write", row);
}

function fetchWires(sheet, lit) {
  const on = lit("fetch", "F");
  sheet.wire([[72, mid(7)], [80, mid(7)]]);
  sheet.wire([[96, 250], [96, 160]], ...on);
  sheet.wire([[118, mid(7)], [132, mid(7)]]);
  sheet.wire([[172, mid(7)], [184, mid(7)]], ...on);
  sheet.wire([[178, mid(7)], [178, 215], [172, 215]]);
  sheet.wire([[172, 152], [181, 152], [181, mid(6)], [184, mid(6)]]);
  sheet.wire([[181, 203], [172, 203]]);
  sheet.wire([[112, 209], [72, 209]], ...on);
  sheet.wire([[172, mid(1)], [184, mid(1)]], ...on);
  sheet.wire([[172, mid(2)], [184, mid(2)]], ...on);
}

function decodeWires(sheet, lit) {
  sheet.wire([[334, mid(7)], [400, mid(7)]], ...lit("valA", "D"));
  sheet.wire([[392, mid(8)], [400, mid(8)]], ...lit("valB", "D"));
  for (const side of "AB") sheet.wire(forwardWay(side, `d_rval${side}`));
  sheet.wire(forwardWay("A", "D_valP"));
}

function executeWires(sheet, lit) {
  for (const slot of [6, 7, 8]) sheet.wire([[490, mid(slot)], [502, mid(slot)]]);
  sheet.wire([[496, mid(7)], [496, 226], [617, 226], [617, mid(6)], [624, mid(6)]]);
  const alu = lit("alu", "E");
  sheet.wire([[548, 256], [563, 256]], ...alu);
  sheet.wire([[548, mid(8)], [563, mid(8)]], ...alu);
  sheet.wire([[597, 270], [606, 270], [606, mid(8)], [624, mid(8)]], ...alu);
  sheet.wire([[578, 244], [578, 216], [531, 216], [531, 208]], ...lit("set_cc", "E"));
  sheet.wire([[560, mid(4)], [572, mid(4)]], ...lit("cond", "E"));
  sheet.wire([[612, mid(4)], [624, mid(4)]], ...lit("cond", "E"));
}

function memoryWires(sheet, scene, lit) {
  sheet.wire([[712, mid(6)], [726, mid(6)]], ...lit("mem_write", "M"));
  sheet.wire([[712, mid(8)], [826, mid(8)]], ...lit("valE", "M"));
  const byA = [[712, mid(6)], [722, mid(6)], [722, 214], [726, 214]];
  sheet.wire(scene.on.has("addr_valA") ? byA : [[758, mid(8)], [758, 262]], ...lit("addr", "M"));
  sheet.wire([[812, mid(6)], [826, mid(6)]], ...lit("mem_read", "M"));
}

function laneNames(sheet, scene) {
  const used = scene.forward.filter((it) => it.label).map((it) => it.from);
  for (const [name, x] of LANE_NAMES) if (!used.includes(name)) sheet.text(x, TRACKS[name] + 3.5, name, "track mid");
  if (!scene.pc.label) sheet.text(200, PC + 3.5, "M_valA, W_valM", "track mid");
}

function fetchBlocks(sheet, texts) {
  sheet.block([84, 92, 88, 68], "", [["Instruction"], ["memory"], [texts.f_pc ?? "", "val"]], "f_icode");
  sheet.block([80, 250, 38, 27], "", [["Select"], ["PC"]], "f_pc");
  sheet.block([132, 250, 40, 27], "", [["PC"], ["incr."]], "need_regids");
  sheet.block([112, 196, 60, 26], "", [["Predict"], ["PC"]], "f_predPC");
}

function decodeBlocks(sheet, texts, lit) {
  const [isWritten, row] = lit("write", "W");
  sheet.block([280, 168, 112, 58], isWritten && "written", [["Register file"], [texts.readA ?? "", "val"],
    [texts.readB ?? "", "val"]], "", row);
  sheet.block([276, 248, 58, 31], "", [["Sel+Fwd"], ["A"]], "d_valA");
  sheet.block([340, 274, 52, 29], "", [["Fwd B"]], "d_valB");
}

function executeBlocks(sheet, texts, lit) {
  sheet.block([502, 232, 46, 42], "", [["ALU"], ["A"]], "aluA");
  sheet.block([502, 278, 46, 22], "", [["ALU B"]], "aluB");
  sheet.add(`<g class="block${sheet.mark("alufun")}"><path d="${ALU}"/>`);
  const sign = ALU_SIGNS[texts.alufun];
  if (sign) sheet.text(584, 268, sign, "mid sign");
  sheet.text(582, sign ? 283 : 275, "ALU", "mid");
  sheet.add("</g>");
  const [isSet, row] = lit("set_cc", "E");
  sheet.block([502, 166, 58, 42], isSet && "written", [["CC"], [texts.cc ?? "", "val"]], "set_cc", row);
  sheet.block([572, 174, 40, 29], "", [["Cond"], ...(texts.cnd ? [[texts.cnd, "val"]] : [])], "e_Cnd");
}

function memoryBlocks(sheet, texts, lit) {
  const [isWritten, row] = lit("mem_write", "M");
  const lines = [["Data memory"], [texts.mem ?? "", "val"], [texts.address ?? "", "val"], [texts.word ?? "", "val"]];
  sheet.block([726, 176, 86, 86], isWritten && "written", lines, "mem_addr", row);
  sheet.block([926, 82, 62, 34], "", [["Stat"], [texts.Stat ?? "", "val"]], "Stat");
  (texts.writes ?? []).slice(0, 2).forEach(([name, word], at) => {
    sheet.text(956, 146 + at * 32, `${name} ←`, "val mid");
    sheet.text(956, 160 + at * 32, shortWord(word, 10), "val mid strong");
  });
}

/** The values of signals that have no block of their own. */
function signals(sheet, texts) {
  const line = (left, right, y, name) => {
    if (texts[name] === undefined) return;
    sheet.add(`<g class="signal${sheet.mark(name)}">`);
    sheet.text(left, y, name, "name");
    sheet.text(right, y, texts[name], "val end");
    sheet.add("</g>");
  };
  ["d_srcA", "d_srcB", "d_dstE", "d_dstM"].forEach((it, at) => line(282, 391, 92 + at * 18, it));
  ["aluB", "aluA", "e_valE", "e_dstE"].forEach((it, at) => line(500, 616, 92 + at * 18, it));
  [["mem_addr", 92], ["m_valM", 110], ["m_stat", 146]].forEach(([it, y]) => line(720, 820, y, it));
}

function cell(sheet, stage, [slot, name], value) {
  const [x, wide] = BARS[stage], y = TOP + slot * TALL, isNone = value === "-" || value === "–", isF = stage === "F";
  sheet.add(`<g class="cell${isNone ? " none" : ""}${sheet.mark(`${stage}_${name}`)}">`
    + `<title>${stage}_${name} = ${escaped(isNone ? "none" : value)}</title>`);
  sheet.add(`<rect x="${x + 1.5}" y="${y + 1.5}" width="${wide - 3}" height="${TALL - 3}" rx="4"/>`);
  sheet.text(x + 4, isF ? y - 3 : y + 16, name, "name");
  sheet.text(x + wide - 4, y + 16.5, isNone ? "–" : shortWord(value, isF ? 7 : 8), "val end");
  sheet.add("</g>");
}

/** What a register does at the end of the cycle, or should do, below it. */
function act(sheet, stage, next, wanted) {
  const [x, wide] = BARS[stage], does = next && next !== "load";
  const text = does ? (next === "both" ? "stall+bubble" : next) : wanted;
  if (!text) return;
  const room = does ? wide + 4 : Math.max(wide + 4, text.length * 6.6 + 18);
  sheet.add(`<g class="act act-${does ? next : "wanted"}"><rect x="${x + (wide - room) / 2}" y="${BOTTOM + 4}" `
    + `width="${room}" height="18" rx="9"/>`);
  sheet.text(x + wide / 2, BOTTOM + 17, text, "mid");
  sheet.add("</g>");
}

function bar(sheet, stage, { stages, fields, next, wanted = {} }) {
  const [x, wide] = BARS[stage], high = stage === "F" ? 112 : 0, { kind, row } = stages[stage];
  sheet.add(`<g class="bar next-${next[stage]} ${kind}" style="--h:${hue(row)}">`);
  sheet.add(`<rect class="frame" x="${x}" y="${TOP + high}" width="${wide}" height="${BOTTOM - TOP - high}" rx="6"/>`);
  for (const it of SLOTS[stage]) if (fields[stage][it[1]] !== undefined) cell(sheet, stage, it, fields[stage][it[1]]);
  sheet.add("</g>");
  act(sheet, stage, next[stage], wanted[stage]);
}

/** The instruction of a stage, above it. */
function band(sheet, stage, { text, at, tag, kind, row }) {
  const [x, wide] = BANDS[stage], room = Math.floor((wide - 18) / 7.35);
  sheet.add(`<g class="band ${kind}" style="--h:${hue(row)}">`
    + `<title>${escaped(`${NAMES[stage]}: ${text}${at ? ` at ${at}` : ""}`)}</title>`);
  sheet.add(`<rect x="${x}" y="4" width="${wide}" height="50" rx="8"/>`);
  sheet.add(`<text x="${x + 10}" y="21" class="stage"><tspan class="letter">${stage}</tspan> `
    + `<tspan>${NAMES[stage]}</tspan></text>`);
  if (tag) sheet.text(x + wide - 9, 21, tag, "tag end");
  else if (at && kind !== "bubble") sheet.text(x + wide - 9, 21, at, "at end");
  sheet.text(x + 10, 43, text.length > room ? `${text.slice(0, room - 1)}…` : text, "what");
  sheet.add("</g>");
}

/** The words on their way, above all else, and their labels side by side. */
function ways(sheet, { forward, pc }) {
  const labels = [], tapped = (it) => TAPS[it.from]?.at(-1)[0] ?? 0;
  let right = 390;
  for (const it of [...forward].sort((one, other) => tapped(one) - tapped(other))) {
    const way = forwardWay(it.side, it.from), track = TRACKS[it.from];
    if (!way) continue;
    sheet.wire(way, it.kind, it.row);
    // (the same word for both operands has one label)
    if (!it.label || labels.some(([, , label]) => label === it.label)) continue;
    const wide = it.label.length * 6.9 + 16;
    const x = track ? right + wide / 2 : it.from === "D_valP" ? 290 : it.side === "A" ? 300 : 366;
    labels.push([x, track ?? 237, it.label, it.kind, it.row]);
    if (track) right += wide + 10;
  }
  const way = pc.from && pcWay(pc.from);
  if (way) {
    sheet.wire(way, pc.kind, pc.row);
    if (pc.label) labels.push([300, PC, pc.label, pc.kind, pc.row]);
  }
  for (const it of labels) sheet.tip(...it);
}

/**
 * Draws a scene: `stages` ({ text, at, row, kind, tag }), `fields`, `next` (load, stall, bubble, both) and `wanted` by
 * stage; `marks` (bad, look) and `texts` by signal; `on`, the wires that carry something; `forward` ({ side, from,
 * kind, label, row }); `pc`; and `label`, the drawing in words.
 */
export function datapath(scene, name = "run") {
  const sheet = new Sheet(name, scene.marks), { texts, stages, on } = scene;
  const rowOf = (stage) => (stages[stage].kind === "bubble" ? 0 : stages[stage].row);
  const lit = (what, stage) => (on.has(what) ? ["on", rowOf(stage)] : ["", 0]);
  lanes(sheet, lit);
  fetchWires(sheet, lit);
  decodeWires(sheet, lit);
  executeWires(sheet, lit);
  memoryWires(sheet, scene, lit);
  laneNames(sheet, scene);
  fetchBlocks(sheet, texts);
  decodeBlocks(sheet, texts, lit);
  executeBlocks(sheet, texts, lit);
  memoryBlocks(sheet, texts, lit);
  signals(sheet, texts);
  for (const it of STAGES) bar(sheet, it, scene);
  for (const it of STAGES) band(sheet, it, stages[it]);
  ways(sheet, scene);
  return sheet.whole(1000, 418, scene.label);
}
