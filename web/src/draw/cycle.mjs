// A cycle of a run on the pipeline as a scene for the drawing.
import { isCancelled } from "../run.mjs";
import { NAMES } from "./pipe.mjs";
import { shortWord } from "./sheet.mjs";

const FIELDS = ["rA", "rB", "valC", "valP", "srcA", "srcB", "dstE", "dstM", "valA", "valB", "Cnd", "valE", "valM"];
const orDash = (it) => (it === undefined || it === "-" ? "–" : it);
const isBubble = (it) => it.text === "bubble";

function stageOf(run, stages, stage, number) {
  const it = stages[stage], isEmpty = isBubble(it), isLost = isCancelled(run, it.row, number);
  const bad = ["AOK", "BUB"].includes(it.stat) ? "" : it.stat;
  return { text: it.text, at: isEmpty ? "" : it.at, row: it.row, kind: isEmpty ? "bubble" : isLost ? "cancelled" : "",
    tag: isLost ? "cancelled" : bad };
}

function fieldsOf(stages, stage) {
  const it = stages[stage];
  if (stage === "F") return { predPC: it.fields.F_predPC };
  const held = FIELDS.filter((name) => name in it.fields).map((name) => [name, it.fields[name]]);
  return { stat: it.stat, icode: isBubble(it) ? "nop" : it.text.split(" ")[0], ...Object.fromEntries(held) };
}

function decode({ D }, cycle, texts, on) {
  if (isBubble(D)) return;
  for (const it of ["d_srcA", "d_srcB", "d_dstE", "d_dstM"]) texts[it] = orDash(D.fields[it]);
  for (const side of "AB") {
    const name = D.fields[`d_src${side}`];
    if (name && name !== "-") texts[`read${side}`] = `${side} ${name} ${shortWord(cycle.registers[name] ?? "0x0", 8)}`;
  }
  if (D.fields.d_srcA !== "-" || /^(call|j)/.test(D.text)) on.add("valA");
  if (D.fields.d_srcB !== "-") on.add("valB");
}

function execute({ E }, texts, on) {
  if (isBubble(E)) return;
  for (const it of ["aluB", "aluA", "e_valE"]) texts[it] = shortWord(E.fields[it], 9);
  texts.e_dstE = orDash(E.fields.e_dstE);
  if (!/^(j|nop|halt|invalid|failed)/.test(E.text)) {
    on.add("alu");
    texts.alufun = E.fields.alufun;
  }
  if (E.fields.set_cc === "1") on.add("set_cc");
  if (!/^(j(?!mp)|cmov)/.test(E.text)) return;
  on.add("cond");
  texts.cnd = E.fields.e_Cnd === "1" ? "holds" : "fails";
}

function memory({ M }, texts, on) {
  if (isBubble(M)) return;
  const { mem_read, mem_write, mem_addr, m_valM, m_stat, valA, valE, dstE } = M.fields, isWrite = mem_write === "1";
  if (mem_read === "1" || isWrite) {
    on.add("addr").add(isWrite ? "mem_write" : "mem_read");
    texts.mem = isWrite ? "write" : "read";
    texts.address = `[${shortWord(mem_addr, 8)}]`;
    texts.word = `${isWrite ? "←" : "→"} ${shortWord(isWrite ? valA : m_valM, 8)}`;
    texts.mem_addr = shortWord(mem_addr, 8);
    if (!isWrite) texts.m_valM = shortWord(m_valM, 7);
    if (BigInt(mem_addr) !== BigInt(valE) && BigInt(mem_addr) === BigInt(valA)) on.add("addr_valA");
  }
  if (dstE !== "-") on.add("valE");
  if (m_stat !== "AOK") texts.m_stat = m_stat;
}

/** Where D's words come from. A forwarded word has a label; one of the register file or of D_valP is only lit. */
function forward(cycle, on) {
  const { D, E } = cycle.stages, found = [];
  if (isBubble(D) || D.next === "stall" || E.next !== "load") {
    on.delete("valA");
    on.delete("valB");
    return found;
  }
  for (const side of "AB") {
    const from = D.fields[`d_val${side}_from`], it = cycle.forwards.find((way) => way.side === side);
    const isRead = from === `d_rval${side}` && D.fields[`d_src${side}`] !== "-";
    const isValP = from === "D_valP" && side === "A" && /^(call|j)/.test(D.text);
    if (it)
      found.push({ side, from, kind: "lit", label: `${from} ${shortWord(it.value, 10)} → ${it.register}`,
        row: cycle.stages[it.stage].row });
    else if (isRead || isValP) found.push({ side, from, kind: "lit", row: D.row });
  }
  return found;
}

function pcOf({ F, ...stages }) {
  const from = F.fields.f_pc_from, stage = from?.[1] === "_" ? from[0].toUpperCase() : "F";
  if (from === "F_predPC") return { from, kind: "lit", row: F.row };
  return { from, kind: "lit", row: stages[stage]?.row ?? F.row, label: `f_pc = ${from} ${F.at}` };
}

function inWords(scene, number) {
  const one = (it) => {
    const { text, kind } = scene.stages[it], next = scene.next[it];
    return `${NAMES[it]}: ${text}${kind === "cancelled" ? ", cancelled" : ""}${next === "load" ? ""
      : `, ${next} next`}`;
  };
  return `Datapath in cycle ${number}: ${[..."FDEMW"].map(one).join("; ")}`;
}

/** What the drawing shows of a cycle. */
export function sceneOfCycle(run, number) {
  const cycle = run.cycles[number - 1], all = cycle.stages, on = new Set(["fetch"]), { ZF, SF, OF } = cycle.flags;
  const texts = { f_pc: all.F.at, cc: `Z${ZF} S${SF} O${OF}`, Stat: all.W.fields.Stat, writes: cycle.writes };
  decode(all, cycle, texts, on);
  execute(all, texts, on);
  memory(all, texts, on);
  if (cycle.writes.length) on.add("write");
  const scene = { stages: {}, fields: {}, next: {}, texts, on, forward: forward(cycle, on), pc: pcOf(all) };
  for (const it of "FDEMW") {
    scene.stages[it] = stageOf(run, all, it, number);
    scene.fields[it] = fieldsOf(all, it);
    scene.next[it] = all[it].next;
  }
  return { ...scene, label: inWords(scene, number) };
}
