// The two texts: their editors, their changes, and examples to choose.
import { EXAMPLES, example } from "./data.mjs";
import { by, make } from "./dom.mjs";
import { Editor } from "./editor.mjs";
import { knowsIaddq } from "./names.mjs";
import { state, tell } from "./state.mjs";

export const editors = { hcl: new Editor(by("hcl"), "hcl", () => typed("hcl")),
  ys: new Editor(by("ys"), "ys", () => typed("ys")) };
const CHOICES = { hcl: "hcls", ys: "yss" };
/** The choice of a program that the page has found. */
const FOUND = "found";

export const isFull = () => by("full").checked;
/** The option of a call that has iaddq. */
export const full = () => (isFull() ? ["--full"] : []);

/** A moment of the texts, and whether they are still those. */
export function moment() {
  const { hcl, ys } = state.changes, wasFull = isFull();
  const isHcl = () => hcl === state.changes.hcl && wasFull === isFull();
  return { hcl: editors.hcl.text, ys: editors.ys.text, at: hcl, isHcl,
    isBoth: () => isHcl() && ys === state.changes.ys };
}

/** A text has changed: no answer counts as current any more. */
function changed(which) {
  state.changes[which]++;
  tell("stale", which);
  tell("text", which);
}

function typed(which) {
  state.own[which] = { text: editors[which].text, name: state.names[which] };
  by(CHOICES[which]).value = "";
  if (location.hash) history.replaceState(null, "", location.href.split("#")[0]);
  changed(which);
}

/** Puts a text into its editor. */
export function load(which, text, name, isOwn = true) {
  state.names[which] = name;
  if (which === "hcl") state.isFresh = true;
  editors[which].text = text;
  if (which === "ys") {
    Object.assign(state, { cycle: 0, run: null });
    state.breaks.clear();
  }
  if (isOwn) {
    state.own[which] = { text, name };
    by(CHOICES[which]).value = "";
  }
  changed(which);
}

/** Shows an example, with iaddq if it has that, and the program that goes with it. */
export function choose(which, name) {
  const it = example(which, name);
  if (!it) return;
  by(CHOICES[which]).value = name;
  if (which === "hcl") by("full").checked = knowsIaddq(it.text);
  load(which, it.text, it.file, false);
  if (it.program && by("yss").value !== it.program) choose("ys", it.program);
}

function offerFound(it) {
  state.found = it;
  const select = by("yss");
  if (!select.querySelector(`[value=${FOUND}]`)) select.add(new Option("the one found", FOUND), 1);
  select.value = FOUND;
}

/** Shows a program that the page has found; the reader's own is kept. */
export function loadFound(text, name) {
  load("ys", text, name, false);
  offerFound({ text, name });
}

/** Marks what is shown by the names of its examples, after a reload. */
export function mark([hcl, ys]) {
  by("hcls").value = hcl;
  if (ys === FOUND) offerFound({ text: editors.ys.text, name: state.names.ys });
  else by("yss").value = ys;
}

/** The names of the examples that are shown. */
export const chosen = () => ({ hcl: by("hcls").value, ys: by("yss").value });

function fill(select, groups) {
  select.append(new Option("your own", ""));
  for (const [name, list] of groups) {
    const options = list.map((it) => new Option(it.title, it.name));
    select.append(make("optgroup", { label: name }, ...options));
  }
}

export function wireTexts() {
  for (const which of ["hcl", "ys"]) {
    const select = by(CHOICES[which]);
    fill(select, EXAMPLES[which]);
    select.onchange = () => {
      const own = state.own[which];
      if (select.value === FOUND) loadFound(state.found.text, state.found.name);
      else if (select.value) choose(which, select.value);
      else if (own) load(which, own.text, own.name);
    };
  }
  by("full").onchange = () => {
    changed("ys");
    changed("hcl");
  };
}
