// A run of SEQ or SEQ+, from what y86-stages prints with --seq or --seqplus: a cycle is an instruction.
import { readCycles, split, withStates } from "./run.mjs";

const pairsOf = (words) =>
  Object.fromEntries(words.flatMap((it, at) => (at % 2 || at + 1 === words.length ? [] : [[it, words[at + 1]]])));

/** A line of a cycle: fields and, of F, the address and the instruction. */
function seqStage(rest) {
  const [given, text] = split(rest, " | "), { at, ...fields } = pairsOf(given.split(" "));
  return { at, text, fields };
}

/** What the instruction does in this cycle, in sentences. */
function told({ stages: { F, E, M, P }, writes, stores }, path) {
  const said = [], it = M.fields, say = (kind, text) => said.push({ kind, text });
  const taken = /^j(?!mp)\w+ /.test(F.text) ? (E.fields.Cnd === "1" ? " The jump is taken."
    : " The jump isn’t taken.") : "";
  const moved = /^cmov/.test(F.text) ? (E.fields.Cnd === "1" ? " The condition holds."
    : " The condition fails: nothing is moved.") : "";
  const does = [...writes.map(([name, word]) => `${name} becomes ${word}`),
    ...stores.map(([at, word]) => `the word at ${at} becomes ${word}`)];
  say("plain", `${F.text}${does.length ? `: ${does.join(", ")}` : " writes nothing"}.${taken}${moved}`);
  if (!["AOK", "BUB"].includes(it.Stat))
    say(it.Stat === "HLT" ? "halt" : "stop", `Its status is ${it.Stat}: the machine stops, and nothing is written.`);
  else if (path === "seq" && !["valP", "-"].includes(P.fields.new_pc_from)) say("forward",
    `The program goes on at ${P.fields.new_pc}, which is ${P.fields.new_pc_from}.`);
  return said;
}

/** A run of a sequential processor. Its rows are its cycles, a letter each. */
export function readSeqRun(path, lines, object) {
  const { cycles, end } = readCycles(lines, seqStage), start = withStates(cycles, object);
  const rows = cycles.map((it, at) => ({
    letters: `${" ".repeat(at)}•`, listed: it.stages.F.text, text: it.stages.F.text, at: parseInt(it.stages.F.at, 16),
      isBubble: false, isCancelled: false, first: at, last: at,
  }));
  for (const it of cycles) Object.assign(it, { told: told(it, path), hazard: null, forwards: [] });
  return { path, cycles, rows, end, start };
}

const bare = (hex) => hex.replace(/^0x0+(?=[0-9a-f])/, "0x");

/** What each cycle has done, as the records of `psim --trace` say it (compare.mjs). */
export function seqRecords({ cycles }) {
  return cycles.map(({ stages: { F, M }, writes, stores }, at) => ({
    pc: parseInt(F.at, 16), code: [F.fields.icode, F.fields.ifun].map((it) => Number(it).toString(16)).join(""),
    changes: [
      ...writes.map(([name, word]) => ({ name, word: bare(word) })),
      ...stores.map(([place, word]) => ({ name: `[${bare(place)}]`, word: bare(word) })),
    ],
    flags: Object.values(cycles[at + 1]?.flags ?? {}).join(""), status: M.fields.Stat,
  }));
}

/** A cycle as a scene for the drawing. */
export function seqScene(run, number) {
  const it = run.cycles[number - 1], words = it.told.map(({ text }) => text).join(" ");
  return { ...it, path: run.path, row: number, label: `Datapath in cycle ${number}: ${words}` };
}

/** The stages of a cycle in words, `[letter, what, more]` each. */
export function seqStages({ stages: { F, D, E, M, W, P }, path }) {
  const does = M.fields.mem_write === "1" ? `writes ${M.fields.mem_data} at ${M.fields.mem_addr}`
    : M.fields.mem_read === "1" ? `reads ${M.fields.valM} at ${M.fields.mem_addr}` : "no access to memory";
  const next = path === "seq" ? `PC ${P.fields.new_pc}` : `PC ${P.fields.pc}`;
  const from = path === "seq" ? P.fields.new_pc_from : P.fields.pc_from;
  const rows = [
    ["F", F.text, F.at], ["D", `valA ${D.fields.valA}, valB ${D.fields.valB}`,
      `srcA ${D.fields.srcA}, srcB ${D.fields.srcB}`],
    ["E", `${E.fields.aluB} ${E.fields.alufun} ${E.fields.aluA} = ${E.fields.valE}`,
      E.fields.set_cc === "1" ? "sets the flags" : ""],
    ["M", does, M.fields.Stat], ["W", `dstE ${W.fields.dstE}, dstM ${W.fields.dstM}`, ""],
  ];
  return path === "seq" ? [...rows, ["P", next, from]] : [["P", next, from], ...rows];
}
