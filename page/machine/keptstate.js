// A machine's state as the browser keeps it beside a run, so that the run comes back without running again from its
// start. It is that of the same software, after the same inputs; whatever else it is, it is ignored.
import { listedInputs } from "./savedrun.js";

const FORM = 1;
/** A state has so many bytes at most. */
export const MOST_STATE_BYTES = 1 << 24;
const GROUPS = ["ram", "store", "front", "back", "state"];
const encoder = new TextEncoder();

/** A sum over lists of bytes, as 16 hexadecimal digits: FNV-1a of 32 bits, from two beginnings. */
export function sumOf(...lists) {
  const sums = [0x811c9dc5, 0x01000193].map(begin => {
    let sum = begin;
    for (const bytes of lists) for (let at = 0; at < bytes.length; at++) sum = Math.imul(sum ^ bytes[at], 0x01000193);
    return sum >>> 0;
  });
  return sums.map(sum => sum.toString(16).padStart(8, "0")).join("");
}

const bytesIn = value => encoder.encode(JSON.stringify(value));

/** The sum of all that a state is. */
export function sumOfState({ version, inputs, packed, notes }) {
  const { groups, ...numbers } = packed, listed = GROUPS.map(name => groups[name]);
  const sizes = listed.map(({ size, numbers: places }) => [size, [...places]]);
  return sumOf(bytesIn([version, inputs, numbers, sizes, notes]), ...listed.map(({ bytes }) => bytes));
}

/** The inputs until a time, how many and their sum. */
function inputsUntil(inputs, time) {
  const come = inputs.filter(one => one.time <= time);
  return { count: come.length, sum: sumOf(bytesIn(listedInputs(come))) };
}

/**
 * The state of a machine at one of its snapshots; `first` is that of its start. Null where it has too many bytes, or
 * an input came at that very moment: then the snapshot does not tell whether before or after it.
 */
export function stateOf(snapshot, { first, machine, version }) {
  const packed = snapshot.packed(first), { time } = snapshot;
  const bytes = GROUPS.reduce((sum, name) => sum + packed.groups[name].bytes.length, 0);
  if (bytes > MOST_STATE_BYTES || machine.inputs.some(one => one.time === time)) return null;
  const state = { form: FORM, version, inputs: inputsUntil(machine.inputs, time), packed,
    notes: machine.notesUntil(snapshot) };
  return { ...state, sum: sumOfState(state) };
}

/** Whether something is a state of a run with these inputs, of a time until one, and of this version. */
export function isStateOf(given, { version, inputs, until }) {
  try {
    if (given?.form !== FORM || given.version !== version || !(given.packed.time <= until)) return false;
    const { count, sum } = inputsUntil(inputs, given.packed.time);
    return given.inputs.count === count && given.inputs.sum === sum && given.sum === sumOfState(given);
  } catch {
    return false;
  }
}
