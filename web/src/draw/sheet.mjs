// The parts of a drawing as SVG text. Nothing goes into it unescaped.
import { escaped } from "../dom.mjs";

const HUES = [212, 28, 150, 280, 340, 90, 190, 55];
/** The colour of an instruction, by its row of the diagram. */
export const hue = (row) => HUES[(row + HUES.length - 1) % HUES.length];
const tinted = (row) => (row ? ` style="--h:${hue(row)}"` : "");

/** A word in at most so many letters: small negative numbers by their sign, others without their middle. */
export function shortWord(it, room = 8) {
  if (it === undefined || it === null) return "";
  if (!/^0x/.test(it)) return it.length > room ? `${it.slice(0, room - 1)}…` : it;
  const number = BigInt(it);
  if (number >= 1n << 63n) {
    const minus = `−0x${((1n << 64n) - number).toString(16)}`;
    if (minus.length <= room) return minus;
  }
  return it.length <= room ? it
    : `${it.slice(0, Math.ceil((room - 1) / 2) + 1)}…${it.slice(-Math.floor((room - 1) / 2) + 1)}`;
}

const marker = (id, size, kind) =>
  `<marker id="${id}" viewBox="0 0 8 8" refX="7" refY="4" markerWidth="${size}" markerHeight="${size}" orient="auto" `
    + `markerUnits="userSpaceOnUse">`
  + `<path class="head ${kind}" d="M0 0.5L8 4L0 7.5Z"/></marker>`;
const HEADS = ["lit", "want", "bad", "write"];

export class Sheet {
  /**
   * `marks` are the signals that are drawn as `bad` or `look`. `name` tells the arrows of one drawing from those of
   * another on the page.
   */
  constructor(name, marks = {}) {
    Object.assign(this, { name, marks, out: [] });
  }

  add(text) {
    this.out.push(text);
  }

  mark(name) {
    return this.marks[name] ? ` ${this.marks[name]}` : "";
  }

  /** A line through points; `kind` may be on, lit, want, bad or write. */
  wire(points, kind = "", row = 0, hasArrow = true) {
    const head = HEADS.find((it) => kind.split(" ").includes(it));
    const arrow = `${this.name}-arrow${head ? `-${head}` : ""}`;
    const way = `M${points.map((it) => it.join(" ")).join("L")}`;
    this.add(`<path class="wire ${kind}"${tinted(row)} d="${way}"${hasArrow ? ` marker-end="url(#${arrow})"` : ""}/>`);
  }

  text(x, y, it, kind = "") {
    this.add(`<text x="${x}" y="${y}" class="${kind}">${escaped(it)}</text>`);
  }

  /** A box with lines of text, each a text or a text and its kind. `name` is the signal that it stands for. */
  block([x, y, wide, tall], kind, lines, name = "", row = 0) {
    const step = 13, first = y + tall / 2 - ((lines.length - 1) * step) / 2 + 4;
    this.add(`<g class="block ${kind}${this.mark(name)}"${tinted(row)}>`
      + `<rect x="${x}" y="${y}" width="${wide}" height="${tall}" rx="5"/>`);
    lines.forEach(([text, of = ""], at) => this.text(x + wide / 2, first + at * step, text, `mid ${of}`));
    this.add("</g>");
  }

  /** A label in a rounded box, around a point. */
  tip(x, y, label, kind, row) {
    const wide = label.length * 6.9 + 16;
    this.add(`<g class="tip ${kind}" style="--h:${hue(row || 1)}"><rect x="${x - wide / 2}" y="${y - 9.5}" `
      + `width="${wide}" height="19" rx="9.5"/>`);
    this.text(x, y + 4, label, "mid");
    this.add("</g>");
  }

  /** The whole drawing. */
  whole(wide, tall, label, kind = "") {
    const heads = [marker(`${this.name}-arrow`, 6.5, ""),
      ...HEADS.map((it) => marker(`${this.name}-arrow-${it}`, 9, it))].join("");
    return `<svg xmlns="http://www.w3.org/2000/svg" class="datapath ${kind}" viewBox="0 0 ${wide} `
      + `${tall}" role="img" aria-label="${escaped(label)}">`
      + `<defs>${heads}</defs>${this.out.join("")}</svg>`;
  }
}
