// Why a step was refused: the adapter's own sentence (zak_explain_step), with a section to read.
import { SERVICE_ANCHORS } from "../help/services.js";

/** The kinds of reasons (ZAK_WHY_..) that are about ports, memory, registers and calls. */
const PORTS = [1, 2, 3, 4, 10], MEMORY = [8, 9, 11], REGISTERS = [5, 6, 7];
const FIRST_OF_CALLS = 12, LAST_OF_CALLS = 28;
/** The groups of registers with an index (ZAK_GROUP_..): a section, and what it is called. */
const GROUPS = [["sequencer", "the sequencer"], ["graphics-controller", "the graphics controller"],
  ["crt-controller", "the CRT controller"], ["attribute-controller", "the attribute controller"]];

const link = (page, anchor, title) => ({ page, anchor, title });

/** The section to read about a reason; `ah` is the function of a call. */
function linkOf({ kind, numbers }, ah) {
  if (PORTS.includes(kind)) return link("REGISTERS.md", "ports", "all ports");
  if (MEMORY.includes(kind)) return link("HOST-PATH.md", "windows", "windows of memory");
  if (REGISTERS.includes(kind)) return link("REGISTERS.md", ...GROUPS[numbers[0]]);
  const isOfCall = kind >= FIRST_OF_CALLS && kind <= LAST_OF_CALLS;
  if (!isOfCall) return link("REPORT.md", "refusals", "refusals");
  return link("SERVICES.md", SERVICE_ANCHORS[ah] ?? "refusals", "the function");
}

/** The byte AH of a script of one call: behind its five bytes and its opcode AX stands, low byte first. */
const AH = 7;

/**
 * Why a step of a session, from 0, is refused in the state before it: { text, link: { page, anchor,
 * title } }; null if it is not.
 */
export function whyRefused({ outline, pieces }, step, before) {
  const script = pieces.bytes(outline.entryOf(step), 1, 1), told = before.card.explainStep(script);
  return told && { text: told.sentence, link: linkOf(told, script[AH]) };
}
