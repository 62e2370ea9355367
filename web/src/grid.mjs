// The diagram of instructions by cycles in the page. Only the rows that can be seen are there.
import { by, escaped } from "./dom.mjs";
import { forwardLines, forwardSVG } from "./draw/diagram.mjs";
import { hue } from "./draw/sheet.mjs";
import { go, toggleBreak } from "./player.mjs";
import { address, listed } from "./run.mjs";
import { on, state } from "./state.mjs";

const ROW = 22, STEP = 24, TOP = 20, MARGIN = 6;
let names = 0;

/** A row's name for a picture. */
export const rowName = (row) => (row.isBubble ? "        bubble" : `${address(row.at)}  ${listed(row)}`);

function makeGrid() {
  const { run } = state, grid = by("grid");
  names = parseFloat(getComputedStyle(grid).getPropertyValue("--names"));
  const head = (it, at) => `<button type="button" tabindex="-1" class="${it.hazard ? "hazard" : ""}" `
    + `style="left:${names + at * STEP}px" data-cycle="${at + 1}" aria-label="cycle ${at + 1}">${at + 1}</button>`;
  const size = `height:${TOP + run.rows.length * ROW + MARGIN}px;width:${names + run.cycles.length * STEP + 10}px`;
  grid.innerHTML = `<div class="all" style="${size}"><div class="column"></div><div class="heads">`
    + `<span class="corner">cycle</span>${run.cycles.map(head).join("")}</div><div class="rows"></div>`
    + `<svg class="lines" aria-hidden="true"></svg></div>`;
  fillGrid();
}

function boxes(row) {
  const out = [];
  for (let at = row.first; at <= row.last; at++) {
    const letter = row.letters[at];
    if (letter === " ") continue;
    const kind = `${/[a-z]/.test(letter) ? " cancelled" : ""}${at + 1 === state.cycle ? " is" : ""}`;
    out.push(`<span class="box${kind}" data-cycle="${at + 1}" style="left:${names + at * STEP + 1}px">`
      + `${letter.toUpperCase()}</span>`);
  }
  return out.join("");
}

function nameHTML(row, at) {
  if (row.isBubble)
    return `<button type="button" tabindex="-1" class="name" data-row="${at}" disabled aria-label="bubble">`
      + `<span class="dot">`
      + `</span>bubble</button>`;
  const place = address(row.at);
  return `<button type="button" tabindex="-1" class="name" data-row="${at}" aria-pressed="${state.breaks.has(row.at)}" `
    + `title="Breakpoint at ${place}: play stops where it is fetched">`
    + `<span class="dot"></span><span class="addr">${place}</span> <span class="ins">${escaped(listed(row))}</span>`
    + "</button>";
}

function rowHTML(row, at) {
  const isHere = row.first + 1 <= state.cycle && row.last + 1 >= state.cycle;
  const is = { wrong: at === state.wrongRow, bubble: row.isBubble, cancelled: row.isCancelled, idle: !isHere };
  const kind = Object.keys(is).filter((it) => is[it]).map((it) => ` ${it}`).join("");
  return `<div class="row${kind}" style="--h:${hue(at + 1)};top:${TOP + at * ROW}px">`
    + `${nameHTML(row, at)}${boxes(row)}</div>`;
}

/** The forwarded words of the cycles that can be seen, from box to box. */
function linesSVG(run, from, to) {
  return forwardLines(run, from, to).map(({ number, giver, taker }) => {
    const place = (row) => TOP + (row - 0.5) * ROW, is = number === state.cycle ? " is" : "";
    return forwardSVG(names + number * STEP - 3, place(giver), place(taker), giver, is);
  }).join("");
}

function fillGrid() {
  const { run } = state, grid = by("grid"), rows = grid.querySelector(".rows");
  if (!run || !rows) return;
  const first = Math.max(0, Math.floor((grid.scrollTop - TOP) / ROW) - MARGIN);
  const last = Math.min(run.rows.length, first + Math.ceil(grid.clientHeight / ROW) + 14);
  const focused = document.activeElement?.dataset?.row;
  rows.innerHTML = run.rows.slice(first, last).map((row, at) => rowHTML(row, first + at)).join("");
  const shown = run.rows.slice(first, last), from = Math.min(...shown.map((it) => it.first + 1));
  const to = Math.max(...shown.map((it) => it.last + 1));
  const lines = shown.length ? linesSVG(run, Math.max(1, from), Math.min(to, run.cycles.length)) : "";
  grid.querySelector(".lines").innerHTML = lines;
  if (focused !== undefined) rows.querySelector(`[data-row="${focused}"]`)?.focus({ preventScroll: true });
}

/** Scrolls so that the cycle's rows and column can be seen. */
function follow() {
  const { run, cycle } = state, grid = by("grid"), x = (cycle - 1) * STEP, wide = grid.clientWidth - names;
  const there = run.rows.flatMap((row, at) => (row.first < cycle && row.last + 1 >= cycle ? [at] : []));
  if (x < grid.scrollLeft + STEP || x > grid.scrollLeft + wide - 3 * STEP)
    grid.scrollLeft = Math.max(0, x - wide * 0.55);
  if (there.length) {
    const top = there[0] * ROW, bottom = (there.at(-1) + 1) * ROW + TOP;
    const whole = (it) => Math.max(0, Math.ceil(it / ROW) * ROW);
    if (bottom > grid.scrollTop + grid.clientHeight - 4) grid.scrollTop = whole(bottom - grid.clientHeight + 4);
    if (top < grid.scrollTop) grid.scrollTop = whole(top - ROW);
  }
  grid.querySelector(".column").style.left = `${names + x}px`;
  for (const it of grid.querySelectorAll(".heads .is")) it.classList.remove("is");
  grid.querySelectorAll(".heads button")[cycle - 1]?.classList.add("is");
}

function show() {
  if (!state.run || !by("grid").firstElementChild) return;
  fillGrid();
  follow();
}

/** Goes to a row's name up or down, from the first row that can be seen; bubbles are left out. */
function goRow(step) {
  const grid = by("grid"), { rows } = state.run, now = document.activeElement.dataset.row;
  let at = now === undefined ? Math.ceil(grid.scrollTop / ROW) - step : Number(now);
  do at += step; while (rows[at]?.isBubble);
  if (!rows[at]) return;
  const top = at * ROW, most = grid.clientHeight - TOP - ROW - MARGIN;
  grid.scrollTop = Math.max(Math.min(grid.scrollTop, top), top - most);
  fillGrid();
  grid.querySelector(`.name[data-row="${at}"]`).focus({ preventScroll: true });
}

function keyed(event) {
  const step = { ArrowDown: 1, ArrowUp: -1 }[event.key];
  if (!step || !state.run) return;
  event.preventDefault();
  goRow(step);
}

export function wireGrid() {
  const grid = by("grid");
  on("grid", makeGrid);
  on("cycle", show);
  on("rows", fillGrid);
  on("breaks", fillGrid);
  on("tab", (name) => name === "run" && show());
  grid.addEventListener("scroll", () => requestAnimationFrame(fillGrid));
  grid.addEventListener("keydown", keyed);
  grid.addEventListener("click", (event) => {
    const cell = event.target.closest("[data-cycle]"), name = event.target.closest("[data-row]");
    if (cell) go(Number(cell.dataset.cycle));
    else if (name) toggleBreak(state.run.rows[Number(name.dataset.row)].at);
  });
  addEventListener("resize", () => {
    if (state.run && parseFloat(getComputedStyle(grid).getPropertyValue("--names")) !== names) makeGrid();
    show();
  });
}
