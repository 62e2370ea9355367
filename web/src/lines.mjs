// The program's lines and the run: the line that is fetched, and breakpoints in the margin.
import { cycleNow, toggleBreak } from "./player.mjs";
import { on, state } from "./state.mjs";
import { editors } from "./texts.mjs";

const lineOf = (address) => state.lines.lineOf[address] ?? 0;

export function wireLines() {
  on("cycle", () => editors.ys.at(lineOf(parseInt(cycleNow().stages.F.at, 16)), "here"));
  on("breaks", () => editors.ys.breaks([...state.breaks].map(lineOf).filter(Boolean)));
  editors.ys.onLine = (line) => toggleBreak(state.lines.addressOf[line]);
}
