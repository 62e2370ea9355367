// The cycle that is shown: forward and back, play, to the next hazard, to a breakpoint.
import { by, escaped, toast } from "./dom.mjs";
import { sceneOfCycle } from "./draw/cycle.mjs";
import { datapath } from "./draw/pipe.mjs";
import { SEQ_NAMES, seqPath } from "./draw/seq.mjs";
import { address } from "./run.mjs";
import { seqScene, seqStages } from "./seqrun.mjs";
import { pipeRows, stageRow } from "./stages.mjs";
import { on, state, tell } from "./state.mjs";
import { tab } from "./tabs.mjs";

const MOST_TICKS = 150;

const count = () => state.run?.cycles.length ?? 0;
export const cycleNow = () => state.run?.cycles[state.cycle - 1];
const isPipe = () => state.run.path === "pipe";
const sceneNow = () => (isPipe() ? sceneOfCycle(state.run, state.cycle) : seqScene(state.run, state.cycle));
/** The drawing of the cycle that is shown. `name` tells it from others on the page. */
export const drawingNow = (name) => (isPipe() ? datapath(sceneNow(), name) : seqPath(sceneNow(), name));

/** The stages as a table: what the drawing shows, in words. */
function stagesHTML(scene, cycle) {
  const caption = `<caption>The stages in cycle ${state.cycle}</caption>`;
  if (!isPipe()) {
    const rows = seqStages(scene).map(([it, what, more]) => stageRow(it, SEQ_NAMES[it], scene.row, what, more));
    return `${caption}<tbody>${rows.join("")}</tbody>`;
  }
  const forwards = cycle.forwards.map((it) => `${it.to} = ${it.value} from ${it.from}`).join(", ");
  const more = (it) => {
    const { at, kind } = scene.stages[it];
    return [at, kind === "cancelled" ? "cancelled" : "", it === "D" ? forwards : ""].filter(Boolean).join(" ");
  };
  return `${caption}<tbody>${pipeRows(scene, more)}</tbody>`;
}

function showCycle() {
  const cycle = cycleNow(), scene = sceneNow(), slider = by("slider"), total = Number(state.run.end.cycles);
  const of = total > count() ? `${count()}+` : count();
  by("now").innerHTML = `cycle <b>${state.cycle}</b> of ${of}`;
  slider.value = state.cycle;
  slider.setAttribute("aria-valuetext", `cycle ${state.cycle}: ${cycle.told.map((it) => it.text).join(" ")}`);
  by("told").innerHTML = cycle.told.map((it) => `<li class="${it.kind}">${escaped(it.text)}</li>`).join("");
  by("path").innerHTML = drawingNow("run");
  by("stages").innerHTML = stagesHTML(scene, cycle);
  by("first").disabled = by("back").disabled = state.cycle === 1;
  by("end").disabled = by("on").disabled = state.cycle === count();
}

export function go(number) {
  if (!count()) return;
  const to = Math.max(1, Math.min(count(), number));
  if (to === state.cycle) return;
  state.cycle = to;
  showCycle();
  tell("cycle");
}

/** Goes to the next cycle in which a hazard begins, or to the one before. */
export function nextHazard(step = 1) {
  const cycles = state.run?.cycles ?? [];
  for (let number = state.cycle + step; number >= 1 && number <= cycles.length; number += step) {
    const { hazard } = cycles[number - 1];
    if (hazard && (step < 0 || hazard !== cycles[number - 2]?.hazard)) return go(number);
  }
  toast(step > 0 ? "No hazard after this cycle" : "No hazard before this cycle");
}

function stopPlaying() {
  clearInterval(state.playing);
  state.playing = 0;
  document.body.classList.remove("playing");
  by("play").textContent = "▶ Play";
  by("play").setAttribute("aria-label", "Play");
}

function playOn() {
  go(state.cycle + 1);
  const { F } = cycleNow().stages, before = state.run.cycles[state.cycle - 2]?.stages.F;
  if (state.breaks.has(parseInt(F.at, 16)) && (!isPipe() || before?.row !== F.row)) {
    stopPlaying();
    toast(`Breakpoint at ${F.at}: ${F.text} is fetched`);
  } else if (state.cycle === count()) stopPlaying();
}

export function play() {
  if (state.playing) return stopPlaying();
  if (!state.run) return;
  tab("run");
  if (state.cycle === count()) go(1);
  by("play").textContent = "❚❚ Pause";
  by("play").setAttribute("aria-label", "Pause");
  document.body.classList.add("playing");
  state.playing = setInterval(playOn, 1000 / Number(by("speed").value));
}

export function toggleBreak(at) {
  if (at === null || at === undefined || Number.isNaN(at)) return;
  const had = state.breaks.delete(at);
  if (!had) state.breaks.add(at);
  const place = address(at);
  toast(had ? `No breakpoint at ${place} any more` : `Breakpoint at ${place}: play stops where it is fetched`);
  tell("breaks");
}

/** The cycle in which the n-th instruction retires. */
function retires(number) {
  let seen = 0;
  for (const [at, { stages: { W } }] of state.run.cycles.entries())
    if (W.text !== "bubble" && state.run.cycles[at - 1]?.stages.W.row !== W.row && ++seen === number) return at + 1;
  return count();
}

/** The row of the n-th instruction that retires, and the cycle in which it is decoded last. */
function placeOfRecord(number) {
  if (!isPipe()) return { row: number - 1, cycle: number };
  const at = retires(number), row = state.run.cycles[at - 1].stages.W.row;
  return { row: row - 1, cycle: (state.run.rows[row - 1]?.letters ?? "").toUpperCase().lastIndexOf("D") + 1 || at };
}

function showRun() {
  const { run } = state, ticks = run.cycles.flatMap((it, at) => (it.hazard ? [at] : [])), most = count() - 1;
  by("slider").max = count();
  by("ticks").innerHTML = ticks.length > MOST_TICKS ? ""
    : ticks.map((at) => `<i style="left:${most ? (at / most) * 100 : 0}%"></i>`).join("");
  by("hazard").disabled = !ticks.length;
  const { cycles } = run.end;
  by("now").title = Number(cycles) > count() ? `The first ${count()} of ${cycles} cycles are shown` : "";
  state.wrongRow = -1;
  // (a breakpoint stays where its address still has an instruction)
  for (const it of state.breaks) if (!run.rows.some((row) => row.at === it)) state.breaks.delete(it);
  const to = Math.min(state.cycle || 1, count());
  state.cycle = 0;
  tell("grid");
  go(to);
  tell("breaks");
}

export function wirePlayer() {
  on("run", () => state.run && showRun());
  on("stale", stopPlaying);
  on("tab", (name) => name !== "run" && stopPlaying());
  on("goto-record", (number) => {
    tab("run");
    if (state.run) go(placeOfRecord(number).cycle);
  });
  on("wrong", (number) => {
    if (!state.run) return;
    state.wrongRow = placeOfRecord(number).row;
    tell("rows");
  });
  const does = { first: () => go(1), back: () => go(state.cycle - 1), on: () => go(state.cycle + 1),
    end: () => go(count()), play, hazard: () => nextHazard() };
  for (const id in does) by(id).onclick = does[id];
  by("slider").oninput = () => go(Number(by("slider").value));
  by("speed").onchange = () => {
    if (!state.playing) return;
    stopPlaying();
    play();
  };
}
