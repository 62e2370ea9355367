// The tabs over the result: this run, the run by instructions, why no.
import { by } from "./dom.mjs";
import { state, tell } from "./state.mjs";

// (a page of one run has no tabs)
const NAMES = ["run", "steps", "no"].filter((it) => by(`tab-${it}`));
const open = () => NAMES.filter((it) => !by(`tab-${it}`).hidden);

export function tab(name) {
  state.tab = name;
  for (const it of NAMES) {
    const is = it === name;
    by(`tab-${it}`).setAttribute("aria-selected", is);
    by(`tab-${it}`).tabIndex = is ? 0 : -1;
    by(`panel-${it}`).hidden = !is;
  }
  if (NAMES.length) by("controls").classList.toggle("away", name !== "run");
  tell("tab", name);
}

/** Shows or hides the tab of a refusal. */
export function offerNo(rule) {
  by("tab-no").hidden = !rule;
  if (rule) by("tab-no").textContent = `Why no: ${rule}`;
  else if (state.tab === "no") tab("run");
}

/** The next tab, or the one before. */
export function nextTab(step = 1) {
  const names = open(), at = names.indexOf(state.tab);
  if (!names.length) return "";
  const to = names[(at + step + names.length) % names.length];
  tab(to);
  return to;
}

export function wireTabs() {
  for (const it of NAMES) by(`tab-${it}`).onclick = () => tab(it);
  document.querySelector("[role=tablist]").addEventListener("keydown", (event) => {
    const step = { ArrowRight: 1, ArrowLeft: -1 }[event.key];
    if (!step) return;
    event.preventDefault();
    event.stopPropagation();
    by(`tab-${nextTab(step)}`).focus();
  });
}
