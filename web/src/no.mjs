// Why not every program: the refusal in its panel, and the marks in the file.
import { by, escaped, lineAt } from "./dom.mjs";
import { noFault, showFaults } from "./fault_view.mjs";
import { drawRefusal } from "./refusal.mjs";
import { on, state } from "./state.mjs";
import { offerNo, tab } from "./tabs.mjs";
import { editors } from "./texts.mjs";

/** What a note says of a wrong signal. */
function noteOf(text, rule, { name, value, wanted, isPicked, taken, to, start, end }) {
  const where = `In the counterexample to ${rule}, <code>${name}</code>`;
  const wants = `<code>${escaped(wanted)}</code> is wanted`;
  const does = `${taken ? "takes this case and " : ""}${taken && isPicked ? "picks" : "is"} <b>${escaped(value)}</b>`;
  const line = taken ? lineAt(text, taken.end) : to, span = taken ? [taken.start, taken.end] : [start, end];
  return { line, column: 0, kind: "no", html: `${where} ${does}; ${wants}.`, span };
}

/** Marks at the definitions that the refusal is about, and at the case that is taken. */
function marksOf(text, { rule, signals, motion }) {
  const marks = [], notes = [], isBlamed = signals.some((it) => it.isBlamed);
  const counts = (it) => it.from && (it.isWrong || (isBlamed ? it.isBlamed : !it.isAsked));
  for (const it of signals.filter(counts)) {
    marks.push({ from: it.from, to: it.to, kind: "no" });
    if (it.isWrong && it.taken) marks.push({ from: it.taken.line, to: it.taken.line, kind: "case" });
    if (it.isWrong) notes.push(noteOf(text, rule, it));
  }
  const first = signals.find((it) => it.from && (isBlamed ? it.isBlamed : !it.isAsked));
  if (!notes.length && first) {
    const html = `${rule}: ${escaped(motion.findLast((it) => !it.isStep)?.text ?? "")} There `
      + `<code>${first.name}</code> is <b>${escaped(first.value)}</b>.`;
    notes.push({ line: first.to, column: 0, kind: "no", html });
  }
  return { marks, notes };
}

function showNo(verdict) {
  const { told, rule } = verdict, text = editors.hcl.text;
  offerNo(rule);
  drawRefusal(verdict);
  if (told) {
    const { marks, notes } = marksOf(text, told);
    editors.hcl.show(marks, notes);
    if (marks.length && document.activeElement !== editors.hcl.area) editors.hcl.reveal(marks[0].from);
  }
  if (document.activeElement === document.body || state.isFresh || state.tab === "no") tab("no");
}

export function wireNo() {
  on("why", () => tab("no"));
  on("stale", (which) => which === "hcl" && by("panel-no").classList.add("stale"));
  on("verdict", () => {
    by("panel-no").classList.remove("stale");
    const it = state.verdict;
    editors.hcl.show([], []);
    if (it.kind === "fault") showFaults("hcl", it.faults);
    else noFault("hcl");
    if (it.kind === "no") showNo(it);
    else offerNo("");
    state.isFresh = false;
  });
}
