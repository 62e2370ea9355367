// Names to complete, from the lists of the datapath or of the instruction set. Nothing is guessed: a name is offered if
// it begins as the one that is typed.
import { make } from "./dom.mjs";
import { CONSTANTS, DEFINED, DIRECTIVES, GIVEN, KEYWORDS, MNEMONICS, REGISTERS, datapath } from "./names.mjs";

const MOST = 8;

/** The names that a text of this kind may have. */
function known(which, text) {
  if (which === "hcl") {
    const path = datapath(text);
    return [...KEYWORDS, ...DEFINED[path], ...GIVEN[path], ...Object.keys(CONSTANTS)];
  }
  const labels = [...text.matchAll(/^\s*([A-Za-z_.$][\w.$]*):/gm)].map((it) => it[1]);
  return [...MNEMONICS, ...DIRECTIVES, ...REGISTERS, ...labels];
}

/** What is typed before the caret, and the names that begin so. */
function found(which, area) {
  const before = area.value.slice(0, area.selectionStart), line = before.slice(before.lastIndexOf("\n") + 1);
  if (/#/.test(line)) return { typed: "", names: [] };
  const typed = (which === "hcl" ? /[A-Za-z_]\w*$/ : /[%.]?[A-Za-z_$][\w$]*$|[%.]$/).exec(line)?.[0] ?? "";
  if (/\w/.test(area.value[area.selectionStart] ?? "")) return { typed, names: [] };
  const names = [...new Set(known(which, area.value))].filter((it) => it.startsWith(typed) && it !== typed);
  return { typed, names: names.slice(0, MOST) };
}

/** The list under the caret of an editor's text. */
export class Completion {
  constructor(area, which, place) {
    Object.assign(this, { area, which, place, names: [], at: 0 });
    this.list = make("ul", { className: "completion", hidden: true, id: `${which}-names` });
    this.list.setAttribute("role", "listbox");
    this.list.setAttribute("aria-label", "Names");
    area.setAttribute("aria-controls", this.list.id);
    area.setAttribute("aria-autocomplete", "list");
    area.addEventListener("blur", () => this.close());
  }

  get isOpen() {
    return !this.list.hidden;
  }

  /** Shows the names for what is typed, where there are at least so many letters. */
  offer(least = 2) {
    const { typed, names } = found(this.which, this.area);
    if (typed.length < least || !names.length) return this.close();
    Object.assign(this, { typed, names, at: 0 });
    this.list.replaceChildren(...names.map((it, number) => this.row(it, number)));
    this.place(this.list, typed.length);
    this.list.hidden = false;
    this.area.setAttribute("aria-expanded", "true");
    this.mark();
  }

  row(name, number) {
    const it = make("li", { id: `${this.which}-name-${number}`, textContent: name });
    it.setAttribute("role", "option");
    it.addEventListener("mousedown", (event) => {
      event.preventDefault();
      this.at = number;
      this.take();
    });
    return it;
  }

  mark() {
    [...this.list.children].forEach((it, number) => it.setAttribute("aria-selected", number === this.at));
    this.area.setAttribute("aria-activedescendant", `${this.which}-name-${this.at}`);
  }

  close() {
    this.list.hidden = true;
    this.area.removeAttribute("aria-activedescendant");
    this.area.setAttribute("aria-expanded", "false");
  }

  take() {
    const name = this.names[this.at];
    this.close();
    // (execCommand keeps the browser's undo)
    if (!document.execCommand("insertText", false, name.slice(this.typed.length))) {
      this.area.setRangeText(name.slice(this.typed.length), this.area.selectionStart, this.area.selectionEnd, "end");
      this.area.dispatchEvent(new Event("input"));
    }
    this.close();
  }

  /** Answers a key, and returns whether it was for the list. */
  key(event) {
    if (event.key === " " && event.ctrlKey) {
      this.offer(0);
      return true;
    }
    if (!this.isOpen) return false;
    const step = { ArrowDown: 1, ArrowUp: -1 }[event.key];
    if (step) {
      this.at = (this.at + step + this.names.length) % this.names.length;
      this.mark();
    } else if (event.key === "Tab" && !event.shiftKey) this.take();
    else if (event.key === "Escape") this.close();
    else return false;
    return true;
  }
}
