// The worker: compiles the programs once, and answers one call after another. The page ends it to stop a call.
import { call } from "./call.mjs";

const modules = {}, MOST_TEXT = 96 << 20, MOST_MEMORY = 1 << 30;
const utf8 = new TextEncoder();

/** What a stream was given, in one array that grows: the programs write a few bytes at a time. */
class Output {
  constructor() {
    this.bytes = new Uint8Array(4096);
    this.length = 0;
  }

  add(more) {
    const length = this.length + more.length;
    if (length > this.bytes.length) {
      const larger = new Uint8Array(Math.max(length, 2 * this.bytes.length));
      larger.set(this.bytes);
      this.bytes = larger;
    }
    this.bytes.set(more, this.length);
    this.length = length;
  }

  text() {
    return new TextDecoder().decode(this.bytes.subarray(0, this.length));
  }
}

function answer(program, words, files) {
  const bytes = {}, outputs = [null, new Output(), new Output()];
  for (const name in files) bytes[name] = utf8.encode(files[name]);
  let room = MOST_TEXT;
  const took = (stream, it) => {
    room -= it.length;
    if (room < 0) return false;
    outputs[stream].add(it);
    return true;
  };
  const said = call(modules[program], words, (name) => bytes[name] ?? null, took, MOST_MEMORY);
  return { ...said, out: outputs[1].text(), err: outputs[2].text() };
}

self.onmessage = ({ data }) => {
  if (data.programs) {
    for (const name in data.programs) modules[name] = new WebAssembly.Module(data.programs[name]);
    return;
  }
  const began = performance.now(), said = answer(data.program, data.words, data.files);
  self.postMessage({ id: data.id, ...said, ms: performance.now() - began });
};
