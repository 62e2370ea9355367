// Pictures for slides: the datapath in a cycle, and the diagram.
import { by, download } from "./dom.mjs";
import { diagramSVG } from "./draw/diagram.mjs";
import { standalone } from "./exports.mjs";
import { rowName } from "./grid.mjs";
import { drawingNow } from "./player.mjs";
import { state } from "./state.mjs";

const MOST_CYCLES = 400;
const stem = (name) => name.replace(/\.\w+$/, "");

/** What a picture or a sheet of paper is headed by. */
export const titled = () => `${state.names.ys} under ${state.names.hcl}`;

function saveDatapath() {
  if (state.run)
    download(`${stem(state.names.ys)}-cycle${state.cycle}.svg`, standalone(drawingNow("run")), "image/svg+xml");
}

function saveDiagram() {
  if (!state.run) return;
  const svg = diagramSVG(state.run, 1, Math.min(MOST_CYCLES, state.run.cycles.length), rowName, titled());
  download(`${stem(state.names.ys)}-diagram.svg`, standalone(svg), "image/svg+xml");
}

export function wirePictures() {
  by("save-path").onclick = saveDatapath;
  by("save-diagram").onclick = saveDiagram;
}
