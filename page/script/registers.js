// The registers by name, kept bits and fields, as docs/REGISTERS.md has them:
// page/tests/registers.mjs compares the two.
import { WORDINGS } from "./wordings.js";

const fieldOf = ([bits, name, stored]) => ({ bits, name, isStored: stored !== undefined });
const registerOf = ({ name, kept, fields }) =>
  ({ name, kept: parseInt(kept, 16), fields: fields.map(fieldOf) });

/**
 * The groups of registers: the word that a dump has for it, where docs/REGISTERS.md tells of them,
 * the port that picks one, and the registers. A field without an effect is only stored.
 */
export const GROUPS = WORDINGS.registers.map(({ port, registers, ...group }) => ({ ...group,
  ...(port && { port: parseInt(port, 16) }), registers: registers.map(registerOf) }));

/** The bits that a field has, from its highest: "5,3-2" are 5, 3 and 2. */
export function bitsOf(field) {
  return field.bits.split(",").flatMap(part => {
    const [high, low = high] = part.split("-").map(Number);
    return Array.from({ length: high - low + 1 }, (_, i) => high - i);
  });
}

/** The value of a field where its register has this one. */
export function fieldValue(field, value) {
  return bitsOf(field).reduce((sum, bit) => 2 * sum + (value >> bit & 1), 0);
}

/** The bits of a field in its register. */
export function fieldMask(field) {
  return bitsOf(field).reduce((mask, bit) => mask | 1 << bit, 0);
}

/** The registers of a group in a state's registers: a list, also where there is only one. */
export function valuesOf(registers, group) {
  return group === "misc" ? [registers.misc] : registers[group];
}

/** The port of a group's index; that of the CRT controller moves with miscellaneous output. */
export function indexPort(registers, group) {
  return group.id === "crtc" ? (registers.misc & 1 ? 0x3d4 : 0x3b4) : group.port;
}
