// Where a machine stops by itself: what is chosen and typed, and the conditions on registers behind it.
import { Trouble } from "../common/trouble.js";

/** What a machine can stop at, by the words of the list; `example` is what can be typed for it. */
export const STOPS = {
  "nothing": { example: "" },
  "a port or an address": { example: "3DA, or A000:0140" },
  "an instruction": { example: "1010:0123 if AX=13 and CX<8" },
  "a frame": { example: "350" },
  "a mode that is set": { example: "" },
  "a refused cycle": { example: "" },
};

const MOST_PLACE = 0xffff, MOST_ADDRESS = 0xfffff;
const CONDITION = /^([A-Z]{2,3})\s*(=|!=|<|>)\s*([0-9A-F]{1,8})$/i;
const COMPARES = { "=": (one, other) => one === other, "!=": (one, other) => one !== other,
  "<": (one, other) => one < other, ">": (one, other) => one > other };
const WIDE = ["EAX", "EBX", "ECX", "EDX", "ESI", "EDI", "EBP", "ESP", "EIP"];
const SEGMENTS = ["CS", "DS", "ES", "FS", "GS", "SS"];

/** What reads a register of the processor: "EAX", "AX", "AL", "DS" and so on; null for other words. */
function readerOf(name) {
  if (WIDE.includes(name) || SEGMENTS.includes(name)) return registers => registers[name];
  if (WIDE.includes(`E${name}`)) return registers => registers[`E${name}`] & 0xffff;
  const whole = `E${name[0]}X`, shift = { L: 0, H: 8 }[name[1]];
  if (name.length !== 2 || shift === undefined || !"ABCD".includes(name[0])) return null;
  return registers => registers[whole] >> shift & 0xff;
}

function conditionOf(words) {
  const [, name, sign, digits] = words.trim().match(CONDITION) ?? [];
  const read = name && readerOf(name.toUpperCase());
  if (!read) throw new Trouble(`"${words.trim()}" is no condition. One is AX=13, or BL<80: numbers are hexadecimal.`);
  const wanted = parseInt(digits, 16);
  return registers => COMPARES[sign](read(registers), wanted);
}

/** The two numbers of a place of code or memory, "1010:0123"; null for other words. */
function pairOf(words) {
  const found = words.match(/^([0-9A-F]{1,4}):([0-9A-F]{1,4})$/i);
  return found && found.slice(1).map(digits => parseInt(digits, 16));
}

function addressOf(words) {
  const pair = pairOf(words), plain = /^[0-9A-F]{1,5}$/i.test(words) ? parseInt(words, 16) : null;
  const address = pair ? 16 * pair[0] + pair[1] : plain;
  if (address !== null && address <= MOST_ADDRESS) return address;
  throw new Trouble(`"${words}" is no port or address. A port is 3DA; an address is A0000, or A000:0000.`);
}

function placeOf(words) {
  const pair = pairOf(words);
  if (pair) return (pair[0] * (MOST_PLACE + 1)) + pair[1];
  throw new Trouble(`"${words}" is no instruction's place. One is 1010:0123: its segment and offset.`);
}

function frameOf(words) {
  if (/^[0-9]{1,9}$/.test(words)) return Number(words);
  throw new Trouble(`"${words}" is no number of a frame. One is 350: they count from the start.`);
}

/**
 * What a machine stops at, of what was chosen and typed: `machine`, which Machine.stopAt takes; `frame`,
 * the number of a frame, or null; and `holds(registers)`, whether the conditions hold.
 */
export function stopOf(kind, typed) {
  const [front, behind] = typed.trim().split(/\s+if\b/i);
  const conditions = behind === undefined ? [] : behind.split(/\s+and\s+/i).map(conditionOf);
  const found = { machine: {}, frame: null,
    holds: registers => conditions.every(condition => condition(registers)) };
  if (kind === "a port or an address") found.machine = { addresses: [addressOf(front)] };
  if (kind === "an instruction") found.machine = { places: [placeOf(front)] };
  if (kind === "a frame") found.frame = frameOf(front);
  if (kind === "a mode that is set") found.machine = { isMode: true };
  if (kind === "a refused cycle") found.machine = { isRefusal: true };
  return found;
}
