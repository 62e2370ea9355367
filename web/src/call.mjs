// A call of a program: its WebAssembly, its arguments, its files. Each call has an instance of its own, so memory is
// given back whole, and nothing is left of a call that was stopped. launch/wasm/shim.c is the other side.

const NO_ANSWER = 126;

/** The functions that the program asks of the page. `memory()` gives its memory, which moves when it grows. */
function host(memory, argv, lookup, out) {
  const files = [];
  const bytes = (at, length) => new Uint8Array(memory().buffer, at >>> 0, length);
  return {
    word(i, at, room) {
      if (i >= argv.length) return -1;
      bytes(at, Math.min(room, argv[i].length)).set(argv[i].subarray(0, room));
      return argv[i].length;
    },
    open(at, length) {
      const data = lookup(new TextDecoder().decode(bytes(at, length).slice()));
      return data ? files.push({ data, at: 0 }) - 1 : -1;
    },
    read(number, at, room) {
      const file = files[number], part = file.data.subarray(file.at, file.at + room);
      bytes(at, part.length).set(part);
      file.at += part.length;
      return part.length;
    },
    write: (stream, at, length) => (out(stream, bytes(at, length).slice()) === false ? -1 : length),
  };
}

/**
 * Runs a program. `lookup(name)` gives the bytes of a file, or null. `out(stream, bytes)` takes output, and answers
 * false where it takes no more. `limit` is the most memory in bytes; 0 is as much as there is. Returns the exit status;
 * 126 where the program broke off, with the fault.
 */
export function call(module, words, lookup, out, limit = 0) {
  const utf8 = new TextEncoder(), argv = ["y86", ...words].map((it) => utf8.encode(it));
  const instance = new WebAssembly.Instance(module, { host: host(() => instance.exports.memory, argv, lookup, out) });
  let status = NO_ANSWER, fault = "";
  try {
    status = instance.exports.run(BigInt(limit));
  } catch (it) {
    fault = String(it.message || it);
  }
  return { status, fault, memory: instance.exports.memory.buffer.byteLength };
}
