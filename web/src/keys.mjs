// The keys, which work outside of the texts, and the page of help.
import { by, dialog } from "./dom.mjs";
import { cycleNow, go, nextHazard, play, toggleBreak } from "./player.mjs";
import { state } from "./state.mjs";
import { nextTab } from "./tabs.mjs";

const RUN_ROWS = [
  ["← →", "a cycle back, on"], ["Home End", "first, last cycle"], ["space", "play to the next breakpoint, pause"],
  ["n N", "next hazard, the one before"], ["b", "breakpoint at the fetched instruction; or click a row"],
  ["↑ ↓", "in the diagram: an instruction, where Enter sets a breakpoint"],
];
const TEXT_ROWS = [
  ["b", "breakpoint at the fetched instruction; or click a row, or a line number of the program"],
  ["w", "the next tab: this run, by instructions, why no"],
  ["Ctrl Enter", "from a text to the result"], ["Ctrl space", "in a text: the names that fit"],
];
const TEXT = `<p>The two texts are a processor’s control logic in HCL and a Y86-64 program. The answers are always `
  + `for these very texts: is the processor right for <em>every</em> program,
does <em>this</em> program come out right, and the run cycle by cycle.</p>`;
const MORE = `<p>The keys work outside of the texts; <kbd>Tab</kbd> leaves a text. Files can be dropped. What you `
  + `write stays in this browser; a copied link has both texts after its <code>#</code>.</p>`;
const RUN = "<p>One run, a cycle at a time. A number after <code>#cycle=</code> in the address is the cycle.</p>";
const NO = "<p>The smallest counterexample to an obligation, and what the file says there. This page has no run.</p>";

/** The keys as a table; a later row of the same keys counts. */
function keysHTML(list) {
  const rows = [...new Map(list)].map(([keys, does]) => `<tr>`
    + `<th scope="row">${keys.split(" ").map((it) => `<kbd>${it}</kbd>`).join(" ")}</th><td>${does}</td></tr>`);
  return `<table>${rows.join("")}</table>`;
}

/** The help of the workbench; that of a page of one run, or of one refusal, where there are no texts. */
function help() {
  if (by("hcl")) dialog("The workbench", `${TEXT}${keysHTML([...RUN_ROWS, ...TEXT_ROWS])}${MORE}`);
  else dialog("This page", state.run ? `${RUN}${keysHTML(RUN_ROWS)}` : NO);
}

const DOES = {
  ArrowLeft: () => go(state.cycle - 1),
  ArrowRight: () => go(state.cycle + 1),
  Home: () => go(1),
  End: () => go(state.run?.cycles.length ?? 1),
  n: () => nextHazard(),
  N: () => nextHazard(-1),
  b: () => state.run && toggleBreak(parseInt(cycleNow().stages.F.at, 16)),
  w: () => nextTab(),
  "?": help,
  " ": play,
};

function inText(event) {
  if (event.key !== "Enter" || !(event.ctrlKey || event.metaKey)) return;
  event.preventDefault();
  by("result").focus();
}

function pressed(event) {
  const { target, key } = event;
  if (target.closest?.("textarea, select, dialog")) return inText(event);
  if (event.ctrlKey || event.metaKey || event.altKey || event.defaultPrevented) return;
  const isSpace = key === " " && target.closest?.("button, a, label, input");
  const isSlider = target.id === "slider" && /^(Arrow|Home|End)/.test(key);
  if (!DOES[key] || isSpace || isSlider) return;
  event.preventDefault();
  DOES[key]();
}

export function wireKeys() {
  by("help").onclick = help;
  addEventListener("keydown", pressed);
}
