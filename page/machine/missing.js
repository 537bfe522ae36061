// What software asks for and the machine lacks, in words.
import { hex } from "../common/bytes.js";

/** What is told by these numbers, which are those of interrupts; with FLAT its place is an offset past 64 KiB. */
const LACKING = 0x06, COPROCESSOR = 0x07, FLAT = 0x100;
const WORDS = { 0x00: "divides by zero", [LACKING]: "has an instruction that this processor lacks",
  [COPROCESSOR]: "uses a coprocessor, which this machine lacks", 0x0d: "reaches past the end of a segment",
  0x10: "asks for a video function that is refused", 0x21: "asks for a function of DOS that is missing" };
/** Those that the machine tells with the value of AX; the others have the place of an instruction. */
const CALLS = [0x10, 0x21];

const isLacking = ({ number }) => [LACKING, COPROCESSOR].includes(number & ~FLAT);

function valueText({ number, value }) {
  if (CALLS.includes(number)) return `AX ${hex(value, 4)}`;
  return number & FLAT ? hex(value, 8) : `${hex(value >>> 16, 4)}:${hex(value & 0xffff, 4)}`;
}

/**
 * What the software asked for last, of a list of { number, value }, in words. Of instructions that are lacking it is
 * the first: the others may come of that.
 */
export function missingText(missing) {
  const last = missing.at(-1), told = isLacking(last) ? missing.find(isLacking) : last;
  return `It ${WORDS[told.number & ~FLAT] ?? "asks for what is missing"} (${valueText(told)}).`;
}
