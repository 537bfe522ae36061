// What a fault of a script of bytes means, in the words of the tools.
import { MOST_BYTES, MOST_STEPS } from "./grammar.js";
import { hex } from "../common/bytes.js";
import { notAScript } from "./foreign.js";
import { said } from "./said.js";

const OPCODE_NAMES = ["", "out", "outw", "in", "inw", "put", "putw", "get", "getw", "int",
  "advance",
  "frame", "show", "repeat", "end"];
const SHOW = 12, REPEAT = 13, END = 14, LAST_KIND = 6;
const UNKNOWN_FAULT = "refused, and I can't say why";
const ofFault = (which, values) => said("faults", which, values);

/** The faults of a run by their statuses (include/zaklimot.h), as docs/REPORT.md names them. */
export const FAULT_NAMES = { 102: "F2 BadMagic", 103: "F3 BadVersion", 104: "F4 BadStep",
  105: "F5 Truncated",
  106: "F6 TooLong", 107: "F7 BadLine", 111: "F11 TooMany" };

const isTextLike = bytes => bytes.length > 0 && notAScript(bytes) === null;

function badStep(bytes, place) {
  const opcode = bytes[place];
  if (opcode === undefined) return UNKNOWN_FAULT;
  if ((opcode === REPEAT || opcode === END) && bytes[4] === 2) {
    const which = opcode === REPEAT ? "bad repeat" : "bad end";
    return ofFault(which, { name: OPCODE_NAMES[opcode], place });
  }
  if (opcode < 1 || opcode > SHOW) return ofFault("no opcode", { place, opcode, last: SHOW });
  const kind = bytes[place + 1];
  if (opcode === SHOW && kind > LAST_KIND) {
    return ofFault("no kind", { place, kind, last: LAST_KIND });
  }
  return opcode === SHOW ? ofFault("bad plane", { place }) : UNKNOWN_FAULT;
}

function truncated(bytes, place) {
  if (place >= bytes.length) return ofFault("no version");
  const name = OPCODE_NAMES[bytes[place]] ?? "";
  return ofFault("cut off", { name, place, count: bytes.length - place });
}

function badMagic(bytes) {
  const none = notAScript(bytes) ?? said("files", "no script");
  const looks = isTextLike(bytes) ? said("files", "a text") : none;
  const first = Array.from(bytes.subarray(0, 4), byte => hex(byte, 2)).join(" ");
  const begins = first || ofFault("nothing");
  return ofFault("magic", { begins, looks });
}

/** Why a script of bytes is no script, where the module answers this status and place. */
export function reasonOfBytes(bytes, status, place) {
  switch (status) {
    case 102: return badMagic(bytes);
    case 103: return ofFault("version", { version: bytes[4], versions: "01 and 02" });
    case 104: return badStep(bytes, place);
    case 105: return truncated(bytes, place);
    case 106: return ofFault("too long", { what: ofFault("file has"), most: MOST_BYTES });
    case 111: return ofFault("too many", { place, most: MOST_STEPS });
    default: return UNKNOWN_FAULT;
  }
}
