// The steps of a script as text: their names, and the numbers behind each. docs/SCRIPT.md tells
// them whole. python/zaklimot/format/table.py has the same table;
// page/tests/reasons.mjs holds the two together.

/** A number of at most so many hexadecimal digits, from 0. */
function digitsNumber(name, digits, most = 16 ** digits - 1) {
  return { name, digits, least: 0, most };
}

/** A number of decimal digits, within bounds. */
function decimalNumber(name, most, least = 0) {
  return { name, digits: 0, least, most };
}

const PORT = digitsNumber("PORT", 4), ADDRESS = digitsNumber("ADDRESS", 8);
const BYTE = digitsNumber("VALUE", 2), WORD = digitsNumber("VALUE", 4);

/** The steps that have a name and numbers. */
export const SHAPES = {
  out: [PORT, BYTE],
  outw: [PORT, WORD],
  in: [PORT],
  inw: [PORT],
  put: [ADDRESS, BYTE],
  putw: [ADDRESS, WORD],
  get: [ADDRESS],
  getw: [ADDRESS],
  advance: [decimalNumber("DOTS", 4294967295)],
  frame: [],
};
/** The lines of version 2: what it begins with, and the ends of a block. */
export const BLOCK_LINES = { version: [decimalNumber("2", 2, 2)],
  repeat: [decimalNumber("N", 65535, 1)], end: [] };
/** What `show` shows. */
export const SHOWN = {
  regs: [],
  dac: [digitsNumber("INDEX", 2)],
  beam: [],
  latches: [],
  plane: [digitsNumber("P", 1, 3), digitsNumber("OFFSET", 4), decimalNumber("COUNT", 256, 1)],
  bda: [],
  cells: [],
};
/** What stands behind `int`, in this order, and then the block. */
export const CALL_REGISTERS = ["ax", "bx", "cx", "dx"];
/** The word before the bytes that a call is handed. */
export const BLOCK = "block";
/** The steps that answer a byte or a word. */
export const READING = ["in", "inw", "get", "getw"];
/** A script means at most so many steps. */
export const MOST_STEPS = 16777216;
/** A script, and its text, has at most so many bytes. */
export const MOST_BYTES = 16777216;
