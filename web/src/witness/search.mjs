// Looks for a program that comes out wrong under a refused processor, among the examples first, and shortens it.
import { report } from "../compare.mjs";
import { EXAMPLES } from "../data.mjs";
import { by, toast } from "../dom.mjs";
import { Stopped, judge } from "../engine.mjs";
import { lockstep } from "../lockstep.mjs";
import { datapath } from "../names.mjs";
import { on } from "../state.mjs";
import { tab } from "../tabs.mjs";
import { choose, full, isFull, loadFound, moment } from "../texts.mjs";
import { programs, sourceOf } from "./programs.mjs";

const TRIES = 1200, LIMIT = "2000", CYCLES = "10000", COMMANDS = { seq: "ssim", seqplus: "ssimp" };
const HEAD = "# A program that comes out wrong under this processor.\n"
  + "# It was found by trial and shortened: each of its lines counts.\n";

/** Runs programs under a design and as the instructions say. */
class Trial {
  constructor(hcl, path) {
    Object.assign(this, { path, flags: full(), files: { "my.hcl": hcl } });
  }

  async call(words, files, program = "y86") {
    return judge.call(program, [...words, ...this.flags], { ...this.files, ...files });
  }

  /** Whether a program comes out wrong, and is one to judge by: it ends, and the theorem speaks of it. */
  async shows(source) {
    const made = await this.call(["yas", "p.ys"], { "p.ys": source });
    if (made.status !== 0) return false;
    const object = { "p.yo": made.out };
    if (this.path !== "pipe") return this.differs(object);
    const words = ["run", "my.hcl", "p.yo", "--json", "--unchecked", "--limit", CYCLES];
    const told = lockstep((await this.call(words, object, "y86-tell")).out);
    return told?.premise === "holds" && ["instruction", "state"].includes(told.outcome);
  }

  /** Whether the reports of the two runs differ, on SEQ and SEQ+. */
  async differs(object) {
    const right = report((await this.call(["yis", "p.yo", "--limit", LIMIT], object)).out);
    if (!right || right.status === "AOK") return false;
    const mine = report((await this.call([COMMANDS[this.path], "my.hcl", "p.yo", "--limit", LIMIT], object)).out);
    return Boolean(mine) && mine.whole !== right.whole;
  }

  /** A program without the lines that it can do without: many at a time first, then one by one. */
  async shortest(lines) {
    for (let size = Math.max(lines.length >> 1, 1); ; size = Math.max(size >> 1, 1)) {
      let hasChanged = false;
      for (let at = 0; at < lines.length; ) {
        const less = [...lines.slice(0, at), ...lines.slice(at + size)];
        const keepsHalt = less.includes("halt") || !lines.includes("halt");
        if (keepsHalt && (await this.shows(sourceOf(less)))) {
          lines = less;
          hasChanged = true;
        } else at += size;
      }
      if (size === 1 && !hasChanged) return lines;
    }
  }
}

const examplePrograms = () => EXAMPLES.ys.flatMap(([, list]) => list);

async function fromExamples(trial, say) {
  for (const it of examplePrograms()) {
    say(`trying ${it.name} …`);
    if (await trial.shows(it.text)) return it.name;
  }
  return "";
}

async function fromDrawn(trial, say) {
  let number = 0;
  for (const it of programs(isFull())) {
    if (++number > TRIES) return null;
    if (number % 10 === 0) say(`trying program ${number} of ${TRIES} …`);
    if (await trial.shows(sourceOf(it))) {
      say("shortening it …");
      return trial.shortest(it);
    }
  }
  return null;
}

async function search(path) {
  const it = moment(), button = by("find"), trial = new Trial(it.hcl, path || datapath(it.hcl));
  const say = (text) => {
    if (!it.isHcl()) throw new Stopped();
    button.textContent = text;
  };
  const hadFocus = document.activeElement === button;
  button.disabled = true;
  try {
    const name = await fromExamples(trial, say);
    if (!it.isHcl()) return;
    if (name) choose("ys", name);
    else {
      const lines = await fromDrawn(trial, say);
      if (!it.isHcl()) return;
      if (!lines) return say(`none of ${TRIES} programs comes out wrong`);
      loadFound(HEAD + sourceOf(lines), "witness.ys");
    }
    tab("run");
    // (the button is gone)
    if (hadFocus) by("result").focus({ preventScroll: true });
    toast(`${name || "A program"} comes out wrong`);
  } catch (stopped) {
    if (!(stopped instanceof Stopped)) throw stopped;
  }
}

export function wireSearch() {
  on("find", search);
}
