// Registers, flags and memory as the cycle begins; what the cycle before changed is marked.
import { by, escaped } from "./dom.mjs";
import { REGISTERS } from "./names.mjs";
import { cycleNow } from "./player.mjs";
import { on, state, tell } from "./state.mjs";

const MOST_WORDS = 400, LONG = 12, FLAGS = ["ZF", "SF", "OF"];

/** A word as it is shown: in hex or as a signed decimal, without its middle where it is long. */
function shown(word) {
  const it = state.isDecimal ? String(BigInt.asIntN(64, BigInt(word))) : word;
  return it.length > LONG ? `${it.slice(0, 6)}…${it.slice(-5)}` : it;
}

function pairHTML(name, word, cycle) {
  const isFresh = cycle.fresh.has(name), isNext = [...cycle.writes, ...cycle.stores].some(([it]) => it === name);
  const kind = `${isFresh ? "new" : /^0x0*$/.test(word) ? "zero" : ""}${isNext ? " comes" : ""}`;
  const when = `${isFresh ? ", changed by the cycle before" : ""}${isNext ? ", written at the end of this cycle" : ""}`;
  const title = `${name} = ${word} = ${BigInt.asIntN(64, BigInt(word))}${when}`;
  return `<div class="${kind}" title="${title}"><span>${escaped(name)}</span><span>${shown(word)}</span></div>`;
}

function usedRegisters(run) {
  run.used ??= new Set(run.cycles.flatMap((it) => it.writes.map(([name]) => name)));
  return REGISTERS.filter((it) => run.used.has(it));
}

function show() {
  const cycle = cycleNow();
  if (!cycle) return;
  const used = usedRegisters(state.run);
  const words = Object.keys(cycle.memory).sort((one, other) => parseInt(one, 16) - parseInt(other, 16));
  const others = REGISTERS.length - used.length;
  by("others").textContent = !others ? "" : used.length ? "others: 0" : "all 0";
  by("registers").innerHTML = used.map((it) => pairHTML(it, cycle.registers[it] ?? "0x0", cycle)).join("");
  const flag = (it) => `<span class="${cycle.fresh.has(it) ? "new" : ""}">${it} ${cycle.flags[it]}</span>`;
  by("flags").innerHTML = FLAGS.map(flag).join("");
  by("memory-hint").textContent = words.length ? "stored, or laid down by .quad" : "the run stores nothing";
  by("memory").innerHTML = words.slice(0, MOST_WORDS).map((it) => pairHTML(it, cycle.memory[it], cycle)).join("");
}

export function wireRegisters() {
  on("cycle", show);
  on("base", show);
  by("base").onclick = () => {
    state.isDecimal = !state.isDecimal;
    by("base").textContent = state.isDecimal ? "10" : "0x";
    by("base").setAttribute("aria-pressed", state.isDecimal);
    tell("base");
  };
}
