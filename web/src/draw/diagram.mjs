// The diagram of instructions by cycles as SVG, with forwarded words as lines between the stages, as in CS:APP 3e,
// figures 4.43 to 4.62.
import { escaped } from "../dom.mjs";
import { hue } from "./sheet.mjs";

const WIDE = 250, STEP = 22, TALL = 20, MOST_LETTERS = 32;

function box(row, number, column, letter, x, y) {
  const isCancelled = letter >= "a" && letter <= "z";
  const kind = `${row.isBubble ? " bubble" : ""}${isCancelled ? " cancelled" : ""}`;
  return `<g class="mark${kind}" style="--h:${hue(number)}"><rect x="${x + 1}" y="${y}" width="${STEP - 2}" `
    + `height="${TALL - 2}" rx="4"/>`
    + `<text x="${x + STEP / 2}" y="${y + 13.5}" class="mid">${letter.toUpperCase()}</text></g>`;
}

/** The ways of forwarded words in these cycles: from the giver's box to that of D. */
export function forwardLines(run, from, to) {
  const found = [];
  for (let number = from; number <= to; number++) {
    const { stages, forwards } = run.cycles[number - 1];
    const givers = new Set(forwards.map((it) => stages[it.stage].row));
    for (const giver of givers) found.push({ number, giver, taker: stages.D.row });
  }
  return found;
}

/** A line at the right of two boxes of a column, from the one that gives to the one that takes. */
export function forwardSVG(x, giver, taker, row, kind = "") {
  const out = x + 8, tint = `style="--h:${hue(row)}"`, down = taker > giver ? 1 : -1;
  return `<path class="forward${kind}" ${tint} d="M${x} ${giver}C${out} ${giver} ${out} ${taker} ${x + 1} ${taker}"/>`
    + `<path class="forward head${kind}" ${tint} d="M${x - 1} ${taker + down}L${x + 6} ${taker + down * 1}L${x + 4} `
      + `${taker - down * 5}Z"/>`;
}

/** The diagram of the cycles from `from` to `to`. `nameOf` gives a row's name. */
export function diagramSVG(run, from, to, nameOf, title = "") {
  const rows = run.rows.filter((it) => it.last >= from - 1 && it.first <= to - 1), top = title ? 40 : 20;
  const wide = WIDE + (to - from + 1) * STEP + 8, tall = top + 8 + rows.length * TALL, out = [];
  const placeOf = (number) => rows.indexOf(run.rows[number - 1]), left = (number) => WIDE + (number - from) * STEP;
  if (title) out.push(`<text x="4" y="14" class="what">${escaped(title)}</text>`);
  for (let number = from; number <= to; number++)
    out.push(`<text x="${left(number) + STEP / 2}" y="${top}" class="mid name">${number}</text>`);
  rows.forEach((row, at) => {
    const y = top + 8 + at * TALL, number = run.rows.indexOf(row) + 1;
    out.push(`<text x="4" y="${y + 14}" class="what${row.isBubble ? " none" : ""}">`
      + `${escaped(nameOf(row).slice(0, MOST_LETTERS))}</text>`);
    for (let it = Math.max(from, row.first + 1); it <= Math.min(to, row.last + 1); it++)
      if ((row.letters[it - 1] ?? " ") !== " ") out.push(box(row, number, it, row.letters[it - 1], left(it), y));
  });
  for (const { number, giver, taker } of forwardLines(run, from, to)) {
    const [from, at] = [giver, taker].map((it) => top + 8 + placeOf(it) * TALL + TALL / 2 - 1);
    if (placeOf(giver) >= 0 && placeOf(taker) >= 0) out.push(forwardSVG(left(number) + STEP - 2, from, at, giver));
  }
  return `<svg xmlns="http://www.w3.org/2000/svg" class="datapath diagram" viewBox="0 0 ${wide} `
    + `${tall}" width="${wide}" height="${tall}" role="img" aria-label="Instructions by cycles ${from} to ${to}">`
    + `${out.join("")}</svg>`;
}
