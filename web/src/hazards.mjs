// What happens in a cycle of the pipeline, in sentences.

const CONDITIONAL = /^j(?!mp)\w+ /;
const get = (stage, name) => stage.fields[name] ?? "-";
const isBubble = (it) => it.text === "bubble";

/** The stage that holds a word: M for M_valE and m_valM. */
const holder = (name) => (name && name[1] === "_" && "DEMW".includes(name[0].toUpperCase())
  ? name[0].toUpperCase() : "F");

/** Why the instruction in D stays there. */
function waits(stages) {
  const { D, E } = stages;
  if (D.next !== "stall" || isBubble(D)) return [];
  const reads = new Set([get(D, "d_srcA"), get(D, "d_srcB")]);
  reads.delete("-");
  if (!isBubble(E) && reads.has(get(E, "dstM")))
    return [["stall", `Load/use: ${D.text} waits in D for ${get(E, "dstM")}, which ${E.text} in E has still to load. `
      + "A bubble goes into E."]];
  let text = `${D.text} waits in D.`;
  for (const stage of "WME")
    for (const register of [get(stages[stage], stage === "E" ? "e_dstE" : "dstE"), get(stages[stage], "dstM")])
      if (!isBubble(stages[stage]) && reads.has(register))
        text = `${D.text} waits in D for ${register}, which ${stages[stage].text} in ${stage} hasn’t written yet.`;
  return [["stall", text]];
}

function returns(stages) {
  const { F, D } = stages, waiting = [..."DEM"].find((it) => stages[it].text === "ret" && D.next === "bubble");
  if (waiting)
    return [["ret", `A ret is in ${waiting}, and its address isn’t read yet: the fetch at ${F.at} is on `
      + "the wrong path, and a bubble goes into D."]];
  const from = holder(get(F, "f_pc_from"));
  if (!"EMW".includes(from) || stages[from].text !== "ret") return [];
  return [["ret", `The ret in ${from} has read where it returns to: the fetch goes on at ${F.at}.`]];
}

function jumps(stages) {
  const { F, D, E } = stages, said = [], from = holder(get(F, "f_pc_from"));
  if (CONDITIONAL.test(E.text) && E.next === "bubble" && D.next !== "stall") {
    const does = get(E, "e_Cnd") === "1" ? "is taken" : "isn’t taken";
    said.push(["jump", `Mispredicted: ${E.text} in E ${does}, so what was fetched after it is cancelled: `
      + "bubbles take its place."]);
  }
  if ("EM".includes(from) && CONDITIONAL.test(stages[from].text))
    said.push(["jump", `${stages[from].text} in ${from} was mispredicted, so the fetch goes on at ${F.at} `
      + "and not at F_predPC."]);
  return said;
}

function stopping(stages) {
  for (const stage of "WM") {
    const it = stages[stage], isOwn = stage === "W" || ["-", "AOK", "BUB"].includes(get(it, "m_stat"));
    const stat = isOwn ? it.stat : get(it, "m_stat");
    if (isBubble(it) || ["AOK", "BUB"].includes(stat)) continue;
    const does = stage === "W" ? "stops the machine."
      : "will stop the machine: nothing after it may change flags or memory.";
    return [[stat === "HLT" ? "halt" : "stop", `${it.text} in ${stage} has the status ${stat}, and ${does}`]];
  }
  return [];
}

/** The words that are forwarded in a cycle, to an instruction that leaves D. */
export function forwards(stages) {
  const { D, E } = stages, found = [];
  if (isBubble(D) || E.next !== "load" || D.next === "stall") return [];
  for (const side of "AB") {
    const from = get(D, `d_val${side}_from`), stage = holder(from), register = get(D, `d_src${side}`);
    if (register !== "-" && "EMW".includes(stage) && !isBubble(stages[stage]))
      found.push({ side, to: `val${side}`, from, stage, register, value: get(D, `d_val${side}`) });
  }
  return found;
}

/** Forwarding in words; the same word for both operands is one sentence. */
function forwarded(stages) {
  const all = forwards(stages);
  const isSame = all.length === 2 && all[0].from === all[1].from && all[0].register === all[1].register;
  const told = isSame ? [{ ...all[0], to: "valA and valB" }] : all;
  return told.map((it) => ["forward", `${stages.D.text} gets ${it.register} = ${it.value} forwarded as ${it.to} from `
    + `${it.from}, of ${stages[it.stage].text} in ${it.stage}.`]);
}

/** What happens in a cycle, `{ kind, text }` each: of stall, ret, jump, stop, both (hazards), forward, halt, plain. */
export function told(stages) {
  const both = [..."FDEMW"].filter((it) => stages[it].next === "both").map((it) =>
    ["both", `${it} is to stall and to take a bubble at once: the machine ends with PIP.`]);
  const said = [...both, ...waits(stages), ...returns(stages), ...jumps(stages), ...stopping(stages),
    ...forwarded(stages)];
  return (said.length ? said : [["plain", "Each instruction goes on to the next stage."]])
    .map(([kind, text]) => ({ kind, text }));
}

/** The hazard among these sentences, if there is one. */
export const hazardOf = (sentences) =>
  sentences.find((it) => !["forward", "plain", "halt"].includes(it.kind))?.kind ?? null;
