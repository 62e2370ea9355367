// Numbers of a situation as HCL and assembly write them.
import { ICODES, STATUSES as STATUS_NAMES, register } from "../names.mjs";

export const STATUSES = ["bubble", "AOK", "HLT", "ADR", "INS"];
const MNEMONICS = ["halt", "nop", "rrmovq", "irmovq", "rmmovq", "mrmovq", "OPq", "jXX", "call", "ret", "pushq", "popq",
  "iaddq"];

/** The mnemonic of an instruction by its two numbers. */
export function mnemonic(icode, ifun = 0) {
  const condition = ["", "le", "l", "e", "ne", "ge", "g"][ifun];
  if (icode === 6) return ["addq", "subq", "andq", "xorq"][ifun] ?? "OPq";
  if (icode === 7) return condition ? `j${condition}` : "jmp";
  if (icode === 2) return condition ? `cmov${condition}` : "rrmovq";
  return MNEMONICS[icode] ?? "invalid";
}

/** How HCL writes a number of this signal. */
export function constant(name, number) {
  if (typeof number !== "number") return String(number);
  const last = name.split("_").pop();
  if (/icode$/i.test(last)) return ICODES[number] ?? String(number);
  if (/^stat$/i.test(last)) return STATUS_NAMES[number] ?? String(number);
  if (/^(src|dst)[ABEM]$|^r[AB]$/.test(last)) return number === 15 ? "RNONE" : register(number);
  return String(number);
}
