// The ports by name, as docs/REGISTERS.md has them under "Ports"; page/tests/help.mjs holds them to
// it. And which register a cycle of a port writes, where the lines before tell it.
import { GROUPS } from "../script/registers.js";

const CRTC_BASES = [0x3b4, 0x3d4], FLIP_FLOP = 0x3c0, STATUS = [0x3ba, 0x3da];
/** The steps of a script before a line are looked at as far as so many lines. */
const LOOKED_BACK = 2000;

/** [port, what a write is, what a read is; the same as a write where it is left out]. */
export const PORTS = [
  [0x3c0, "attribute index or data, in turn", "attribute index, with the palette address source"],
  [0x3c1, "", "the attribute register of the index"],
  [0x3c2, "miscellaneous output", "input status 0, which is left out"],
  [0x3c4, "sequencer index"], [0x3c5, "the sequencer register of the index"],
  [0x3c6, "DAC mask"], [0x3c7, "DAC index, for reading", "the DAC state, which is left out"],
  [0x3c8, "DAC index, for writing", "DAC index"], [0x3c9, "DAC component"],
  [0x3ca, "", "feature control, which is left out"], [0x3cc, "", "miscellaneous output"],
  [0x3ce, "graphics index"], [0x3cf, "the graphics register of the index"],
  [0x3d4, "CRT controller index"], [0x3d5, "the CRT controller register of the index"],
  [0x3da, "feature control, which is left out", "input status 1"],
  [0x3b4, "CRT controller index"], [0x3b5, "the CRT controller register of the index"],
  [0x3ba, "feature control, which is left out", "input status 1"],
].map(([port, write, read = write]) => ({ port, write, read }));

const groupOf = id => GROUPS.find(group => group.id === id);

/** The group of registers whose index is at a port; null for another port. */
export function groupAt(port) {
  if (CRTC_BASES.includes(port)) return groupOf("crtc");
  if (port === FLIP_FLOP) return null;
  return GROUPS.find(group => group.port === port) ?? null;
}

/** A line's step: { name, numbers } of hexadecimal numbers; null where it is none that is known. */
function stepIn(line) {
  const [name, ...words] = line.split(";", 1)[0].trim().toLowerCase().split(/[ \t\r]+/);
  return name ? { name, numbers: words.map(word => parseInt(word, 16)) } : null;
}

/** The steps before a line, the nearest first. */
function* stepsBefore(lineText, line) {
  for (let at = line - 1; at > Math.max(0, line - LOOKED_BACK); at--) {
    const step = stepIn(lineText(at));
    if (step) yield step;
  }
}

/** The index that was written last to a port above a line; null where the text doesn't tell. */
function indexAbove(port, lineText, line) {
  for (const { name, numbers: [to, value] } of stepsBefore(lineText, line)) {
    if (name === "int") return null;
    const isThis = to === port && name.startsWith("out") && !Number.isNaN(value);
    if (isThis) return value & 0xff;
    if (name === "outw" && to === port - 1) return value >> 8;
  }
  return null;
}

/**
 * The attribute controller's index, where the next write to 3C0 is its data; null where it is not
 * told.
 */
function attributeIndex(lineText, line) {
  const written = [];
  for (const { name, numbers: [port, value] } of stepsBefore(lineText, line)) {
    if (name === "int") return null;
    if (name === "in" && STATUS.includes(port)) return written.length % 2 ? written[0] & 31 : null;
    if (name.startsWith("out") && port === FLIP_FLOP) written.push(value);
  }
  return null;
}

const registerIn = (group, index, value) =>
  ({ group, index, register: group.registers[index] ?? null, value });

/**
 * The register that a step writes or reads: { group, index, register, value }; value is null where
 * it is read. Null where the text doesn't tell.
 */
export function registerOf(name, [port, value = null], lineText, line) {
  const isOut = name.startsWith("out");
  if (port === (isOut ? 0x3c2 : 0x3cc)) return registerIn(groupOf("misc"), 0, value);
  if (name === "outw" && groupAt(port)) return registerIn(groupAt(port), value & 0xff, value >> 8);
  if (port === FLIP_FLOP && isOut) {
    const index = attributeIndex(lineText, line);
    return index === null ? null : registerIn(groupOf("attr"), index, value);
  }
  const group = groupAt(port - 1), index = group && indexAbove(port - 1, lineText, line);
  return group && index !== null ? registerIn(group, index, value) : null;
}
