// What a step has changed: the differences of the states before and after it.
import { GROUPS, valuesOf } from "../script/registers.js";
import { counted, differingWord, hex, wordsOfBytes } from "../common/bytes.js";

const POINTERS = { seqIndex: "sequencer index", gfxIndex: "graphics index",
  crtcIndex: "CRT controller index", attrIndex: "attribute index",
  dacIndex: "DAC index", dacMask: "DAC mask" };

/** The numbers of the bytes in which two parts differ. */
export function differingBytes(before, after) {
  const found = [];
  for (let at = 0; at < after.length; at++) if (before[at] !== after[at]) found.push(at);
  return found;
}

/** The same of parts that are many words, most of which are alike. */
function differingInWords(before, after) {
  const found = [], old = wordsOfBytes(before), now = wordsOfBytes(after), { length } = now;
  for (let word = differingWord(old, now); word < length; word = differingWord(old, now, word + 1)) {
    for (let at = 4 * word; at < 4 * word + 4; at++) if (before[at] !== after[at]) found.push(at);
  }
  return found;
}

/** What was found of the changed bytes of planes, by the state after the step. */
const CHANGED_PLANES = new WeakMap();

/** Of each plane, the numbers of the bytes in which two states differ. */
export function changedPlanes(before, after) {
  const known = CHANGED_PLANES.get(after);
  if (known?.before === before) return known.found;
  const found = [0, 1, 2, 3].map(plane =>
    differingInWords(before.plane(plane), after.plane(plane)));
  CHANGED_PLANES.set(after, { before, found });
  return found;
}

/** The entries of the DAC in which two states differ. */
export function differingColours(before, after) {
  const found = [], old = before.dac, now = after.dac;
  for (let index = 0; index < 256; index++) {
    const isSame = old[index] === now[index] && old[index + 256] === now[index + 256];
    if (!isSame || old[index + 512] !== now[index + 512]) found.push(index);
  }
  return found;
}

function changedRegisters(before, after) {
  return GROUPS.flatMap(group => {
    const [old, now] = [before, after].map(state => valuesOf(state.registers, group.id));
    const nameOf = i => (group.id === "misc" ? "" : `${group.title} ${hex(i, 1)}, `) +
      group.registers[i].name;
    return differingBytes(old, now).map(i => `${nameOf(i)} ${hex(old[i], 2)} → ${hex(now[i], 2)}`);
  });
}

function changedPointers(before, after) {
  const [old, now] = [before.registers, after.registers];
  const changes = Object.keys(POINTERS).filter(name => old[name] !== now[name])
    .map(name => `${POINTERS[name]} ${hex(old[name], 2)} → ${hex(now[name], 2)}`);
  if (old.attrIsData !== now.attrIsData) {
    changes.push(`3C0 takes ${now.attrIsData ? "data" : "an index"} next`);
  }
  if (old.dacComponent !== now.dacComponent) {
    changes.push(`${["red", "green", "blue"][now.dacComponent]} is next of the DAC`);
  }
  return changes;
}

function changedMemory(before, after) {
  return changedPlanes(before, after).flatMap((found, plane) => {
    if (!found.length) return [];
    const [old, now] = [before.plane(plane), after.plane(plane)];
    const [first] = found, last = found.at(-1);
    if (first === last) return [
      `plane ${plane} ${hex(first, 4)}: ${hex(old[first], 2)} → ${hex(now[first], 2)}`];
    const count = counted(found.length, "byte");
    return [`plane ${plane}: ${count} from ${hex(first, 4)} to ${hex(last, 4)}`];
  });
}

/**
 * What changed between two states, a few words each; of more than `most` the first, and how many
 * more there are.
 */
export function changesOf(before, after, most = 6) {
  const changes = [...changedRegisters(before, after), ...changedPointers(before, after)];
  const colours = differingColours(before, after);
  if (colours.length) {
    changes.push(colours.length === 1 ? `DAC entry ${hex(colours[0], 2)}`
      : `${colours.length} entries of the DAC`);
  }
  if (differingBytes(before.latches, after.latches).length) {
    changes.push(`latches ${Array.from(after.latches, byte => hex(byte, 2)).join(" ")}`);
  }
  changes.push(...changedMemory(before, after));
  const [old, now] = [before.beam, after.beam];
  const isMoved = ["frame", "line", "character", "dot"].some(name => old[name] !== now[name]);
  if (isMoved) changes.push("the beam");
  if (JSON.stringify(before.bda) !== JSON.stringify(after.bda)) changes.push("BIOS data");
  const more = changes.length - most;
  return more > 0 ? [...changes.slice(0, most), `${more} more`] : changes;
}
