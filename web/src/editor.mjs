// An editor: a textarea over its coloured text, with line numbers, marks, and notes under a line. The textarea keeps
// the browser's own undo and selection. Its text can't be seen, and it has no room for a note between two lines: so it
// is moved by its padding to where the line is that is worked on, by keys or with the pointer.
import { coloured } from "./colours.mjs";
import { Completion } from "./completion.mjs";
import { lineAt, startOf } from "./dom.mjs";
import { Gaps } from "./gaps.mjs";

const PAD = 8, MARGIN = 3, TAB = 8, LABELS = { hcl: "Processor, in HCL", ys: "Program, in Y86-64 assembly" };
const PLAIN = 'spellcheck="false" autocapitalize="off" autocomplete="off" autocorrect="off" wrap="off"';
const frame = (label) => `<div class="gutter"><div></div></div><div class="paper"><div class="under"></div>`
  + `<pre class="colours" aria-hidden="true"></pre><textarea ${PLAIN} aria-label="${label}"></textarea>`
  + `<div class="notes"></div></div>`;

export class Editor {
  constructor(root, which, changed) {
    Object.assign(this, { root, which, changed, marks: [], notes: [], gaps: new Gaps(), lines: 0, onLine: null });
    root.innerHTML = frame(LABELS[which]);
    [this.gutter, this.paper] = root.children;
    [this.under, this.pre, this.area, this.over] = this.paper.children;
    this.completion = new Completion(this.area, which, (list, back) => this.place(list, back));
    this.paper.append(this.completion.list);
    this.listen();
  }

  listen() {
    this.area.addEventListener("input", () => this.typed());
    this.area.addEventListener("scroll", () => this.scrolled());
    this.area.addEventListener("keydown", (it) => this.key(it));
    for (const it of ["keydown", "keyup", "click"]) this.area.addEventListener(it, () => this.toCaret());
    for (const it of ["pointermove", "pointerdown"]) this.area.addEventListener(it, (event) => this.toPointer(event));
    this.area.addEventListener("pointerleave", () => this.toCaret());
    new ResizeObserver(() => this.notes.length && this.paint()).observe(this.paper);
    this.gutter.addEventListener("click", (it) => {
      const line = it.target.closest("[data-line]");
      if (line) this.onLine?.(Number(line.dataset.line));
    });
    this.over.addEventListener("click", (it) => {
      if (it.target.closest("button")) this.hide(it.target.closest(".note"));
    });
    this.over.addEventListener("focusin", (it) => this.uncover(it.target.closest(".note")));
    this.over.addEventListener("wheel", (it) => (this.area.scrollTop += it.deltaY), { passive: true });
  }

  get text() {
    return this.area.value;
  }

  set text(it) {
    this.area.value = it.replace(/\r\n?/g, "\n");
    this.area.scrollTop = this.area.scrollLeft = 0;
    this.show([], []);
    this.draw();
    this.scrolled();
  }

  get lineHeight() {
    return (this.tall ??= parseFloat(getComputedStyle(this.area).lineHeight));
  }

  typed() {
    const before = this.lines;
    this.draw();
    this.keep(this.lines - before);
    this.changed();
    this.completion.offer();
  }

  /** Keeps the notes at their lines until the next answer comes, so that nothing jumps; so many lines are new. */
  keep(more) {
    const [, line] = this.caretLines, first = line - Math.max(more, 0);
    const moved = (it) => (it >= first ? Math.max(line, it + more) : it);
    this.show([], this.notes.map((it) => ({ ...it, line: moved(it.line), column: 0, span: null, isOld: true })));
  }

  key(event) {
    if (event.isComposing) return;
    if (this.completion.key(event)) {
      event.preventDefault();
      event.stopPropagation();
    } else if (event.key === "Enter" && !event.ctrlKey && !event.metaKey) this.indent(event);
  }

  /** Begins the next line as this one begins. */
  indent(event) {
    const { value, selectionStart: at } = this.area, line = value.slice(value.lastIndexOf("\n", at - 1) + 1, at);
    const blanks = /^[ \t]*/.exec(line)[0];
    if (!blanks) return;
    event.preventDefault();
    if (document.execCommand("insertText", false, `\n${blanks}`)) return;
    this.area.setRangeText(`\n${blanks}`, at, this.area.selectionEnd, "end");
    this.area.dispatchEvent(new Event("input"));
  }

  /** Where a line begins, from the text's top; a line that is `more` lines long ends there. */
  top(line, more = 0) {
    return PAD + (line - 1 + more) * this.lineHeight + this.gaps.above(line);
  }

  /** The lines of the selection's ends; that of the caret twice where nothing is selected. */
  get caretLines() {
    const { value, selectionStart, selectionEnd } = this.area, last = lineAt(value, selectionEnd);
    return [document.activeElement === this.area ? lineAt(value, selectionStart) : last, last];
  }

  /** How many letters wide the text of a line before a place is. */
  columnAt(offset) {
    const before = this.text.slice(this.text.lastIndexOf("\n", offset - 1) + 1, offset);
    return Array.from(before).reduce((column, it) => (it === "\t" ? column + TAB - (column % TAB) : column + 1), 0);
  }

  /** Moves the textarea's text to where the caret's line is drawn. A selection over a note closes the gap. */
  toCaret() {
    const [first, last] = this.caretLines, isOver = this.gaps.above(first) !== this.gaps.above(last);
    if (isOver && !this.isClosed) this.close(true);
    else if (this.isClosed && first === last) this.close(false);
    this.align(last);
  }

  /** Moves it to where the line under the pointer is drawn, so that a click meets it. */
  toPointer({ clientY }) {
    if (!this.gaps.total) return;
    const height = clientY - this.area.getBoundingClientRect().top + this.area.scrollTop - PAD;
    this.align(this.gaps.lineAt(height, this.lineHeight));
  }

  align(line) {
    const above = this.gaps.above(line), { style } = this.area;
    style.paddingTop = `${PAD + above}px`;
    style.paddingBottom = `${PAD + this.gaps.total - above}px`;
    this.area.classList.toggle("away", above !== this.gaps.above(this.caretLines[1]));
  }

  /** Hides the notes and their gaps, or shows them again. */
  close(isClosed) {
    this.isClosed = isClosed;
    this.paint();
  }

  /** Puts a list under the caret, so many letters back. */
  place(list, back) {
    const { value, selectionStart: at } = this.area, line = lineAt(value, at);
    const column = this.columnAt(at) - back;
    list.style.top = `${this.top(line, 1) - this.area.scrollTop}px`;
    list.style.left = `calc(${column}ch + 10px - ${this.area.scrollLeft}px)`;
  }

  scrolled() {
    const { scrollTop: y, scrollLeft: x } = this.area;
    this.paper.style.setProperty("--x", `${-x}px`);
    this.pre.style.transform = `translate(${-x}px, ${-y}px)`;
    this.under.style.transform = `translateY(${-y}px)`;
    this.over.style.transform = `translateY(${-y}px)`;
    this.gutter.firstElementChild.style.transform = `translateY(${-y}px)`;
    if (this.completion.isOpen) this.place(this.completion.list, this.completion.typed.length);
  }

  /** Draws the text in colours; a gap takes the place of the end of its line. */
  colour() {
    const gap = (line, none) => {
      const tall = this.gaps.under(line);
      return tall ? `<span class="gap" style="height:${tall}px"></span>` : none;
    };
    const lines = coloured(this.text, this.which).split("\n").map((it, at) => it + gap(at + 1, "\n"));
    this.pre.innerHTML = gap(0, "") + lines.join("");
  }

  draw() {
    this.colour();
    const count = this.text.split("\n").length;
    if (count !== this.lines) {
      this.lines = count;
      const numbers = Array.from({ length: count }, (_, at) => `<span data-line="${at + 1}">${at + 1}</span>`);
      this.gutter.firstElementChild.innerHTML = numbers.join("");
      this.spread();
      this.scrolled();
    }
    this.paint();
  }

  /** Shows marks, `{ from, to, kind }` by lines, and notes under lines, `{ line, column, kind, html, span }`. */
  show(marks, notes) {
    Object.assign(this, { marks, notes, isClosed: false });
    this.paint();
  }

  row(line) {
    return this.gutter.firstElementChild.children[line - 1];
  }

  paint() {
    this.makeRoom();
    const mark = ({ from, to, kind }) => {
      const top = this.top(from), tall = this.top(to, 1) - top;
      return `<div class="mark ${kind}" style="top:${top}px;height:${tall}px"></div>`;
    };
    this.under.innerHTML = this.marks.map(mark).join("");
    for (const it of this.gutter.querySelectorAll(".bad, .case, .no")) it.classList.remove("bad", "case", "no");
    for (const it of this.marks) for (let line = it.from; line <= it.to; line++) this.row(line)?.classList.add(it.kind);
    for (const it of this.notes) if (it.span) this.underline(it);
    this.toCaret();
  }

  /** Puts the notes under their lines, and gaps as tall as they are between the lines. */
  makeRoom() {
    const had = JSON.stringify(this.gaps.list), notes = this.isClosed ? [] : this.notes;
    this.over.innerHTML = notes.map((it, number) => this.note(it, number)).join("");
    const talls = Array.from(this.over.children, (it) => it.offsetHeight + 2 * MARGIN);
    this.gaps.set(notes.map(({ line }, at) => ({ line, tall: talls[at] })));
    const used = new Map();
    notes.forEach(({ line }, at) => {
      const before = used.get(line) ?? 0;
      this.over.children[at].style.top = `${this.top(line, 1) + before + MARGIN}px`;
      used.set(line, before + talls[at]);
    });
    if (JSON.stringify(this.gaps.list) === had) return;
    this.colour();
    this.spread();
    this.scrolled();
  }

  /** Gives the numbers the gaps of their lines. */
  spread() {
    const numbers = this.gutter.firstElementChild;
    numbers.style.paddingTop = `${this.gaps.under(0)}px`;
    for (const it of numbers.children) it.style.marginBottom = `${this.gaps.under(Number(it.dataset.line))}px`;
  }

  note(it, number) {
    const column = it.column ? this.columnAt(startOf(this.text, it.line) + it.column - 1) : 0;
    const caret = it.column ? `<b class="caret" style="left:calc(${column}ch + 2px)"></b>` : "";
    const hide = '<button type="button" aria-label="Hide this note" title="Hide this note">×</button>';
    return `<div class="note ${it.kind}${it.isOld ? " old" : ""}" data-note="${number}">`
      + `${caret}<div class="said">${it.html}</div>${hide}</div>`;
  }

  /** Brings a note into view. */
  uncover(note) {
    const from = note.offsetTop - MARGIN, to = note.offsetTop + note.offsetHeight + MARGIN, { area } = this;
    area.scrollTop = Math.max(Math.min(area.scrollTop, from), to - area.clientHeight);
    this.scrolled();
  }

  hide(note) {
    this.notes = this.notes.filter((_, number) => number !== Number(note.dataset.note));
    this.paint();
    this.area.focus();
  }

  /** Draws a line under the place that a note is about. */
  underline({ span: [from, to], kind }) {
    const line = lineAt(this.text, from), column = this.columnAt(from);
    const end = (this.text.indexOf("\n", from) + 1 || this.text.length + 1) - 1;
    const mark = document.createElement("div");
    mark.className = `span ${kind}`;
    mark.style.top = `${this.top(line)}px`;
    mark.style.height = `${this.lineHeight}px`;
    mark.style.left = `calc(${column}ch + 10px)`;
    mark.style.width = `${Math.max(1, this.columnAt(Math.min(to, end)) - column)}ch`;
    this.under.append(mark);
  }

  breaks(lines) {
    for (const it of this.gutter.querySelectorAll(".break")) it.classList.remove("break");
    for (const line of lines) this.row(line)?.classList.add("break");
  }

  /** Marks one line's number as the place of something. */
  at(line, kind) {
    for (const it of this.gutter.querySelectorAll(`.${kind}`)) it.classList.remove(kind);
    if (line) this.row(line)?.classList.add(kind);
  }

  /** Brings a line into view; with the caret, if a column is given. */
  reveal(line, column = 0) {
    if (column) {
      const at = startOf(this.text, line) + column - 1;
      this.area.setSelectionRange(at, at);
      // (a browser would go to where the caret was before)
      this.area.focus({ preventScroll: true });
      this.root.scrollIntoView({ block: "nearest" });
      this.toCaret();
    }
    const y = this.top(line) - PAD, { scrollTop, clientHeight } = this.area;
    if (y < scrollTop + PAD || y + 4 * this.lineHeight > scrollTop + clientHeight)
      this.area.scrollTop = Math.max(0, y - clientHeight / 3);
    this.scrolled();
  }
}
