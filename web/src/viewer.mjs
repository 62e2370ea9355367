// A page of one run, or of one refusal, without texts to edit: what `y86-lab page` makes.
import { DATA } from "./data.mjs";
import { by } from "./dom.mjs";
import { wireGrid } from "./grid.mjs";
import { wireKeys } from "./keys.mjs";
import { wirePaper } from "./paper.mjs";
import { wirePictures } from "./pictures.mjs";
import { go, wirePlayer } from "./player.mjs";
import { drawRefusal } from "./refusal.mjs";
import { wireRegisters } from "./registers.mjs";
import { readRun } from "./run.mjs";
import { readSeqRun } from "./seqrun.mjs";
import { on, state, tell } from "./state.mjs";
import { wireTheme } from "./theme.mjs";
import { refusalsOf } from "./why/told.mjs";

const { names, path, lines, diagram, object, hcl, refusal, told } = DATA.viewer;

/** Shows a run, from the cycle that the address names. */
function showRun() {
  state.run = path === "pipe" ? readRun(lines, diagram, object) : readSeqRun(path, lines, object);
  state.cycle = Number(/^#cycle=(\d+)$/.exec(location.hash)?.[1] ?? 1);
  on("cycle", () => history.replaceState(null, "", `#cycle=${state.cycle}`));
  addEventListener("hashchange", () => go(Number(/^#cycle=(\d+)$/.exec(location.hash)?.[1] ?? state.cycle)));
  tell("run");
}

/** Shows a refusal: the obligation that is to be looked at first, and buttons for the others. */
function showRefusal() {
  const { refusals, first } = refusalsOf(hcl, told, path);
  const show = (name) => {
    const shown = refusals.find((it) => it.rule === name) ?? refusals[0];
    drawRefusal({ rule: shown?.rule ?? refusal[0].split(" ")[1], told: shown, lines: refusal, path, refusals });
  };
  by("panel-run").hidden = by("controls").parentElement.hidden = true;
  by("panel-no").hidden = false;
  on("refusal", show);
  show(first);
}

for (const it of [wireTheme, wireGrid, wirePlayer, wireRegisters, wirePictures, wirePaper, wireKeys]) it();
state.names = names;
if (refusal) showRefusal();
else showRun();
window.ready = true;
