// Draws a run as SVG: what `y86-lab draw` calls. Standard input has a run as src/viewer.mjs reads it, with `cycle` (0
// for the diagram) and `isDark`.
import { readFileSync } from "node:fs";
import { sceneOfCycle } from "./src/draw/cycle.mjs";
import { diagramSVG } from "./src/draw/diagram.mjs";
import { datapath } from "./src/draw/pipe.mjs";
import { seqPath } from "./src/draw/seq.mjs";
import { address, listed, readRun } from "./src/run.mjs";
import { readSeqRun, seqScene } from "./src/seqrun.mjs";

const MOST = 400;
const style = (name) => readFileSync(new URL(`./styles/${name}.css`, import.meta.url), "utf8");

/** The colours of the page, by their names. */
function colours(isDark) {
  const [light, dark] = [/:root \{([^}]*)\}/, /:root\[data-theme="dark"\] \{([^}]*)\}/]
    .map((it) => it.exec(style("base"))[1]);
  return `${light};${isDark ? dark : ""}`.replace(/color-scheme: \w+;/g, "").replace(/"/g, "'").replace(/\s+/g, " ");
}

function draw({ path, lines, diagram, object, cycle, names }) {
  const run = path === "pipe" ? readRun(lines, diagram, object) : readSeqRun(path, lines, object);
  const count = run.cycles.length;
  if (cycle > count) throw new Error(`the run has ${count} cycles`);
  if (cycle)
    return path === "pipe" ? datapath(sceneOfCycle(run, cycle), "drawn") : seqPath(seqScene(run, cycle), "drawn");
  if (path !== "pipe") throw new Error("the diagram is for PIPE alone: --cycle N draws a cycle");
  const nameOf = (row) => (row.isBubble ? "        bubble" : `${address(row.at)}  ${listed(row)}`);
  return diagramSVG(run, 1, Math.min(MOST, count), nameOf, `${names.ys} under ${names.hcl}`);
}

const asked = JSON.parse(readFileSync(0, "utf8"));
try {
  const rules = style("drawing").replace(/@media[\s\S]*$/, "").replace(/[<&]/g, "");
  const head = (_, rest) => `<svg${rest}${/ width=/.test(rest) ? "" : ' width="1000" height="418"'}>`
    + `<style>svg { ${colours(asked.isDark)}; background: var(--card); } ${rules}</style>`;
  process.stdout.write(`${draw(asked).replace(/<svg([^>]*)>/, head)}\n`);
} catch (it) {
  console.error(it.message);
  process.exitCode = 1;
}
