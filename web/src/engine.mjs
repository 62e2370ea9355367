// The programs in workers that can be stopped. Two of them: a long check doesn't hold up the run.
import { PACKED, unpacked } from "./data.mjs";

const programs = {};
let source = "";

/** What a call ends with that was stopped. */
export class Stopped extends Error {}

export class Engine {
  constructor() {
    this.waiting = new Map();
    this.number = 0;
    this.worker = null;
  }

  get isBusy() {
    return this.waiting.size > 0;
  }

  start() {
    this.worker = new Worker(source);
    this.worker.onmessage = ({ data }) => {
      this.waiting.get(data.id)?.done(data);
      this.waiting.delete(data.id);
    };
    this.worker.onerror = (it) => {
      it.preventDefault?.();
      this.stop(new Error(it.message));
    };
    this.worker.postMessage({ programs });
  }

  /** Calls a program with arguments; `files` are texts by name. Gives status, out, err, fault and ms. */
  call(program, words, files) {
    if (!this.worker) this.start();
    return new Promise((done, fail) => {
      this.waiting.set(++this.number, { done, fail });
      this.worker.postMessage({ id: this.number, program, words, files });
    });
  }

  /** Ends the worker, and with it every call that has no answer yet. */
  stop(why = new Stopped()) {
    this.worker?.terminate();
    this.worker = null;
    const all = [...this.waiting.values()];
    this.waiting.clear();
    for (const it of all) it.fail(why);
  }
}

export const judge = new Engine();
export const runner = new Engine();

/** Whether the page has this program. */
export function has(program) {
  return program in PACKED;
}

/** Unpacks the programs; to be awaited before the first call. */
export async function ready() {
  source = URL.createObjectURL(new Blob([document.getElementById("worker").textContent], { type: "text/javascript" }));
  for (const name in PACKED) programs[name] = await unpacked(PACKED[name]);
}
