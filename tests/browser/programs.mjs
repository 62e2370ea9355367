// programs.mjs COUNT [full]: the first programs that the page tries to find one that comes out wrong, as JSON.
import { programs } from "../../web/src/witness/programs.mjs";

const [count, full] = process.argv.slice(2), found = [];
for (const it of programs(full === "full")) {
  if (found.length >= Number(count)) break;
  found.push(it);
}
console.log(JSON.stringify(found));
