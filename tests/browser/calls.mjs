// calls.mjs CALLS.json: runs calls of WebAssembly programs, as the page does, and prints an answer for each as a line
// of JSON.
// CALLS.json has `programs` (files of WebAssembly by name) and `calls`: [program, words, files, limit, room], where a
// file is a name and bytes in base64, and output of more bytes than `room` is refused (0: none is).
import { readFileSync } from "node:fs";
import { call } from "../../web/src/call.mjs";

const { programs, calls } = JSON.parse(readFileSync(process.argv[2], "utf8")), modules = {};
for (const name in programs) modules[name] = new WebAssembly.Module(readFileSync(programs[name]));

for (const [program, words, files, limit, room] of calls) {
  let left = room || Infinity;
  const bytes = Object.fromEntries(Object.entries(files).map(([name, text]) => [name, Buffer.from(text, "base64")]));
  const parts = [null, [], []];
  const took = (stream, it) => {
    left -= it.length;
    return left >= 0 && Boolean(parts[stream].push(it));
  };
  const said = call(modules[program], words, (name) => bytes[name] ?? null, took, limit);
  const [out, err] = [1, 2].map((stream) => Buffer.concat(parts[stream]).toString("base64"));
  console.log(JSON.stringify({ status: said.status, fault: said.fault, out, err }));
}
