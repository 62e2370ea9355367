// The workbench: two texts, and always the answers that belong to them.
import { wireClassroom } from "./classroom.mjs";
import { ABOUT } from "./data.mjs";
import { by } from "./dom.mjs";
import { ready } from "./engine.mjs";
import { wireFiles } from "./files.mjs";
import { wireGrid } from "./grid.mjs";
import { wireKeys } from "./keys.mjs";
import { wireLines } from "./lines.mjs";
import { fromBefore, fromLink, wireLinks } from "./links.mjs";
import { wireNo } from "./no.mjs";
import { wireOutcome } from "./outcome.mjs";
import { wirePaper } from "./paper.mjs";
import { wirePictures } from "./pictures.mjs";
import { wirePlayer } from "./player.mjs";
import { wireRegisters } from "./registers.mjs";
import { state } from "./state.mjs";
import { wireSteps } from "./steps.mjs";
import { wireStrips } from "./strips.mjs";
import { wireTabs } from "./tabs.mjs";
import { choose, wireTexts } from "./texts.mjs";
import { wireTheme } from "./theme.mjs";
import { wireVerdict } from "./verdict.mjs";
import { wireSearch } from "./witness/search.mjs";

const WIRES = [
  wireTheme, wireTexts, wireTabs, wireVerdict, wireNo, wireOutcome, wireGrid, wirePlayer, wireLines, wireRegisters,
  wireSteps, wireStrips, wireSearch, wireFiles, wireLinks,
  wirePictures, wirePaper, wireClassroom, wireKeys,
];

for (const it of WIRES) it();
by("made").textContent = `${ABOUT.said} Nothing leaves this page.`;
await ready();
if (!(await fromLink()) && !fromBefore()) {
  choose("ys", "asum.ys");
  choose("hcl", "std.hcl");
}
Object.assign(window, { workbench: state, ready: true });
