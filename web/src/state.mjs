// What the page knows, and who is told when it changes. Each answer belongs to the texts of one moment; `changes`
// counts them.

export const state = {
  changes: { hcl: 0, ys: 0 },
  names: { hcl: "my.hcl", ys: "my.ys" },
  // Texts of the reader's own, kept while an example is shown.
  own: {},
  // The program that "Find one" has drawn, with its name, or null.
  found: null,
  // { at, kind: yes, no, fault, none }; of a no also { rule, told, refusals, lines, path, of }, of a fault { faults }.
  verdict: null,
  // What run.mjs reads, or null.
  run: null,
  object: "",
  lines: { lineOf: {}, addressOf: {} },
  cycle: 0,
  tab: "run",
  breaks: new Set(),
  playing: 0,
  wrongRow: -1,
  isDecimal: false,
  // A file that was just opened shows why it is refused; one that is being typed doesn't take the tab away.
  isFresh: true,
};

const listeners = {};

/**
 * Calls a function at each event of this name. The page has changed: text, stale (an answer is out of date), verdict,
 * run, cycle, tab, breaks, base, grid, rows, wrong (the number of the first wrong instruction). A button asks for
 * something: why, refusal, find, goto-record.
 */
export function on(event, does) {
  (listeners[event] ??= []).push(does);
}

export function tell(event, ...what) {
  for (const it of listeners[event] ?? []) it(...what);
}
