// The datapath of SEQ and SEQ+, after CS:APP 3e, figures 4.23 and 4.40, on its side: one instruction a cycle, through
// all stages.
import { Sheet, hue, shortWord } from "./sheet.mjs";

export const SEQ_NAMES = { F: "Fetch", D: "Decode", E: "Execute", M: "Memory", W: "Write back", P: "PC update" };
const WIDE = 1000, TALL = 340, BAND = { F: [8, 196], D: [210, 186], E: [402, 220], M: [628, 186], W: [820, 172] };
const SIGNS = { add: "+", sub: "−", and: "&", xor: "^" };
const ALU = "M546 176L592 192L592 244L546 260L546 228L556 218L546 208Z";
// (a word of a situation, which may be any)
const ANY = "·";
const orDash = (it) => (it === undefined || it === "-" ? "–" : it);
const LINE = 17;

/** A line of a block: what it is, its value, and the signals that it stands for, of which one may be marked. */
function line(sheet, x, y, wide, [label, value, names = ""]) {
  const name = names.split(" ").find((it) => sheet.marks[it]);
  if (name) {
    sheet.add(`<g class="cell${sheet.mark(name)}">`
      + `<rect x="${x + 3}" y="${y - 12}" width="${wide - 6}" height="${LINE - 1}" rx="3"/>`);
  }
  sheet.text(x + 8, y, label, "name");
  sheet.text(x + wide - 8, y, value, "val end");
  if (name) sheet.add("</g>");
}

/** A block with its name and what it gives: a line for each value. */
function box(sheet, [x, y, wide, tall], title, lines, isOn, row, name = "") {
  sheet.add(`<g class="block${isOn ? " written" : ""}${sheet.mark(name)}" style="--h:${hue(row)}">`
    + `<rect x="${x}" y="${y}" width="${wide}" height="${tall}" rx="6"/>`);
  sheet.text(x + wide / 2, y + 16, title, "mid strong");
  lines.forEach((it, at) => line(sheet, x, y + 34 + at * LINE, wide, it));
  sheet.add("</g>");
}

function bands(sheet, { stages, path, row }) {
  for (const stage in BAND) {
    const [x, wide] = BAND[stage];
    sheet.add(`<g class="band" style="--h:${hue(row)}"><rect x="${x}" y="4" width="${wide}" height="30" rx="8"/>`);
    sheet.add(`<text x="${x + 10}" y="24" class="stage"><tspan class="letter">${stage}</tspan> `
      + `<tspan>${SEQ_NAMES[stage]}</tspan></text>`);
    sheet.add("</g>");
  }
  sheet.text(WIDE / 2, 56, [stages.F.at, stages.F.text].filter(Boolean).join(": "), "mid what");
  const where = path === "seq" ? "The new PC comes last" : "The PC comes first";
  sheet.text(8, TALL - 6, where, "name");
}

/** What the instruction has besides its first byte. */
function needs({ need_regids, need_valC }) {
  const found = [["rA:rB", need_regids], ["valC", need_valC]].filter(([, it]) => it === "1").map(([name]) => name);
  return found.join(", ") || ([need_regids, need_valC].includes("0") ? "–" : need_regids ?? "");
}

function fetch(sheet, { stages: { F }, row }) {
  const it = F.fields, valid = { 0: "no", 1: "yes" }[it.instr_valid] ?? it.instr_valid;
  box(sheet, [8, 70, 196, 160], "Instruction memory", [
    ["PC", F.at || ANY], ["icode, ifun", `${it.icode}, ${it.ifun}`, "icode ifun"],
    ["needs", needs(it), "need_regids need_valC"], ["rA", orDash(it.rA)], ["rB", orDash(it.rB)],
    ["valC", shortWord(it.valC, 12)], ["valP", shortWord(it.valP, 12)],
    ["valid", it.imem_error === "1" ? "fetch failed" : valid, "instr_valid"],
  ], false, row);
}

function decode(sheet, { stages: { D, W }, writes, row }) {
  const it = D.fields;
  box(sheet, [210, 70, 186, 150], "Register file", [
    ["srcA", orDash(it.srcA), "srcA"], ["valA", it.srcA === "-" ? "–" : shortWord(it.valA, 12)],
    ["srcB", orDash(it.srcB), "srcB"], ["valB", it.srcB === "-" ? "–" : shortWord(it.valB, 12)],
    ["dstE", orDash(W.fields.dstE), "dstE"], ["dstM", orDash(W.fields.dstM), "dstM"],
  ], writes?.length > 0, row);
}

function execute(sheet, { stages: { E, F }, flags, row }) {
  const it = E.fields, uses = it.aluA_from !== "-" || it.aluB_from !== "-" || !["0x0"].includes(it.aluA);
  const from = (name) => (it[`${name}_from`] === "-" ? "" : ` ← ${it[`${name}_from`]}`);
  box(sheet, [402, 70, 138, 64], "ALU inputs", [
    [`A${from("aluA")}`, shortWord(it.aluA, 9), "aluA"], [`B${from("aluB")}`, shortWord(it.aluB, 9), "aluB"],
  ], uses, row);
  sheet.add(`<g class="block${sheet.mark("alufun")}"><path d="${ALU}"/>`);
  sheet.text(572, 214, SIGNS[it.alufun] ?? it.alufun, "mid sign");
  sheet.text(572, 230, "ALU", "mid");
  sheet.add("</g>");
  sheet.text(612, 222, "valE", "name mid");
  sheet.text(612, 240, shortWord(it.valE, 9), "val mid strong");
  const isConditional = /^(j(?!mp)|cmov)/.test(F.text);
  box(sheet, [402, 150, 128, 64], "CC", [["Z S O", `${flags.ZF} ${flags.SF} ${flags.OF}`],
    ["Cnd", isConditional ? (it.Cnd === "1" ? "holds" : "fails") : "–"]], it.set_cc === "1", row, "set_cc");
  sheet.wire([[470, 134], [470, 143], [540, 143], [540, 190], [546, 190]], uses ? "on" : "", row);
}

/** The ALU's result, to the memory where it is an address. */
function resultWires(sheet, { stages: { M }, row }) {
  sheet.wire([[592, 218], [600, 218]], "on", row, false);
  if (M.fields.mem_addr_from === "valE") sheet.wire([[612, 208], [612, 150], [642, 150]], "on", row);
}

function memory(sheet, { stages: { M }, row }) {
  const it = M.fields, isRead = it.mem_read === "1", isWrite = it.mem_write === "1", isUsed = isRead || isWrite;
  const word = isWrite ? ["data in", shortWord(it.mem_data, 12)] : ["valM", isRead ? shortWord(it.valM, 12) : "–"];
  const does = it.dmem_error === "1" ? "fails" : isWrite ? "writes" : isRead ? "reads" : "nothing";
  const from = (name) => (it[`${name}_from`] === "-" ? "" : ` ← ${it[`${name}_from`]}`), { isOpen } = it;
  box(sheet, [642, 70, 172, 116], "Data memory", [
    ["does", isOpen ? it.does : does, "mem_read mem_write"],
    [`address${from("mem_addr")}`, isUsed || isOpen ? shortWord(it.mem_addr, 10) : "–", "mem_addr"],
    isOpen ? [`data in${from("mem_data")}`, it.mem_data, "mem_data"] : word,
    ...(isWrite && !isOpen && it.mem_data_from !== "-" ? [["data from", it.mem_data_from]] : []),
  ], isWrite, row);
  box(sheet, [642, 200, 172, 42], "Stat", [["", it.Stat, "Stat"]], false, row);
}

/** What is written; of a situation that isn't known. */
function writeBack(sheet, { writes, stores, row }) {
  if (!writes) return;
  const lines = [...writes.map(([name, word]) => [name, shortWord(word, 12)]),
    ...stores.map(([at, word]) => [`[${at}]`, shortWord(word, 12)])];
  box(sheet, [820, 70, 172, 116], "Written at the end", lines.length ? lines.slice(0, 4) : [["nothing", ""]],
    lines.length > 0, row);
}

function pc(sheet, { stages: { P }, path, row }) {
  const it = P.fields, value = path === "seq" ? it.new_pc : it.pc, from = path === "seq" ? it.new_pc_from : it.pc_from;
  const title = path === "seq" ? "New PC" : "PC", [x, y] = path === "seq" ? [820, 200] : [8, 240];
  const name = path === "seq" ? "new_pc" : "pc";
  box(sheet, [x, y, 172, 60], title, [[from === "-" ? "" : `← ${from}`, shortWord(value, 12), name]], false, row);
  if (path === "seq") sheet.wire([[820, 240], [800, 240], [800, 300], [100, 300], [100, 230]], "lit", row);
  else sheet.wire([[100, 240], [100, 230]], "lit", row);
  if (path === "seqplus") {
    const lines = [["pIcode, pCnd", `${it.pIcode}, ${it.pCnd}`], ["pValC", shortWord(it.pValC, 10)],
      ["pValM", shortWord(it.pValM, 10)], ["pValP", shortWord(it.pValP, 10)]];
    box(sheet, [210, 232, 186, 98], "From the cycle before", lines, false, row);
    sheet.wire([[210, 270], [180, 270]], "lit", row);
  }
}

function flow(sheet, row) {
  for (const [from, to, y] of [[204, 210, 110], [396, 402, 110], [814, 820, 110]])
    sheet.wire([[from, y], [to, y]], "on", row);
}

/**
 * Draws a cycle `{ stages, flags, writes, stores, path, row, label }` of a sequential processor, or a situation, which
 * has `marks` (bad) by signal and no `writes`.
 */
export function seqPath(scene, name = "run") {
  const sheet = new Sheet(name, scene.marks ?? {});
  flow(sheet, scene.row);
  bands(sheet, scene);
  fetch(sheet, scene);
  decode(sheet, scene);
  execute(sheet, scene);
  resultWires(sheet, scene);
  memory(sheet, scene);
  writeBack(sheet, scene);
  pc(sheet, scene);
  return sheet.whole(WIDE, TALL, scene.label, "seq");
}
