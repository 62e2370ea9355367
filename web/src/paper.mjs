// The page on paper: the diagram in parts that fit the width, and what the two cards say.
import { by, escaped } from "./dom.mjs";
import { diagramSVG } from "./draw/diagram.mjs";
import { rowName } from "./grid.mjs";
import { titled } from "./pictures.mjs";
import { drawingNow } from "./player.mjs";
import { state } from "./state.mjs";

const WIDE = 26, MOST_PARTS = 30;

function headingOf(id) {
  const parts = [...(by(id)?.querySelector("h2")?.childNodes ?? [])].filter((it) => !it.matches?.("button, .badge"));
  const said = parts.map((it) => it.textContent.trim()).filter(Boolean).join(" ");
  return said ? `${said}. ` : "";
}

function parts(run) {
  const count = run.cycles.length, found = [];
  for (let from = 1; from <= count && found.length < MOST_PARTS; from += WIDE) {
    const to = Math.min(count, from + WIDE - 1);
    found.push(diagramSVG(run, from, to, rowName, count > WIDE ? `cycles ${from} to ${to}` : ""));
  }
  return found;
}

function fill() {
  const { run } = state, theme = document.documentElement.dataset.theme;
  const end = run ? ` ${run.end.cycles} cycles, ${run.end.retired} retired, ${run.end.status}.` : "";
  const drawing = run ? `<h3>Cycle ${state.cycle}</h3>${drawingNow("paper")}<h3>Instructions by cycles</h3>`
    + `${parts(run).join("")}` : "<p>No run.</p>";
  by("paper").innerHTML = `<h2>${escaped(titled())}</h2>`
    + `<p>${escaped(headingOf("outcome"))}${escaped(headingOf("verdict"))}${end}</p>${drawing}`;
  document.documentElement.dataset.theme = "light";
  const back = () => {
    document.documentElement.dataset.theme = theme;
    by("paper").innerHTML = "";
  };
  addEventListener("afterprint", back, { once: true });
}

export function wirePaper() {
  addEventListener("beforeprint", fill);
  by("print").onclick = () => print();
}
