// The faults of a text, each under its line, and in the strip below the text the first.
import { by } from "./dom.mjs";
import { moreWords, placeWords } from "./faults.mjs";
import { editors } from "./texts.mjs";

const MOST = 20;

/** Shows faults: at least one. */
export function showFaults(which, faults) {
  const editor = editors[which], strip = by(`${which}-strip`), [first] = faults, place = placeWords(first);
  const marks = faults.filter((it) => it.line).map(({ line }) => ({ from: line, to: line, kind: "bad" }));
  editor.show(marks, faults.slice(0, MOST).map((it) => ({ ...it, kind: "bad" })));
  strip.className = "strip bad";
  strip.innerHTML = `${place ? `<button type="button">${place}</button>${moreWords(faults)}: ` : ""}${first.html}`;
  const go = strip.querySelector("button");
  if (go) go.onclick = () => editor.reveal(first.line, first.column || 1);
  if (first.line && document.activeElement !== editor.area) editor.reveal(first.line);
  editor.area.setAttribute("aria-invalid", "true");
  editor.area.setAttribute("aria-describedby", strip.id);
}

/** Takes the faults away. */
export function noFault(which) {
  const strip = by(`${which}-strip`);
  strip.className = "strip";
  editors[which].area.removeAttribute("aria-invalid");
}
