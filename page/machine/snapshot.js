// The state of the machine at a moment, in parts of 4 KiB. Snapshots share a part that is the same in both.
import { joinedBytes } from "../common/bytes.js";
import { Trouble } from "../common/trouble.js";

const PART = 4096, SHIFT = 12;
const ZEROS = new Uint8Array(PART);
const GROUPS = ["ram", "store", "front", "back", "state"];
/** What a snapshot takes besides the bytes of its parts: of its own, for each place in a list, and for each part. */
const OWN_BYTES = 512, PLACE_BYTES = 8, OBJECT_BYTES = 256;

/** Whether two parts have the same bytes. */
function isSame(one, other) {
  if (one.length !== other.length) return false;
  const isWords = (one.byteOffset | other.byteOffset | one.length) % 4 === 0;
  const [a, b] = isWords ? [one, other].map(({ buffer, byteOffset, length }) =>
    new Uint32Array(buffer, byteOffset, length >> 2)) : [one, other];
  for (let at = 0; at < a.length; at++) if (a[at] !== b[at]) return false;
  return true;
}

/** A copy of a part, or one of those that are there already. */
function partOf(bytes, old) {
  if (old && isSame(bytes, old)) return old;
  return bytes.length === PART && isSame(bytes, ZEROS) ? ZEROS : bytes.slice();
}

/**
 * Cuts bytes into parts. `old` has the parts of the snapshot before. `isMarked(n)` tells whether part n was written
 * since, and `given(n)` the bytes that the machine was given for a part; null for none.
 */
function cut(bytes, old, isMarked = () => true, given = () => null) {
  const parts = [];
  for (let at = 0, n = 0; at < bytes.length; at += PART, n++) {
    const before = old?.[n];
    parts.push(before && !isMarked(n) ? before : partOf(bytes.subarray(at, at + PART), before ?? given(n)));
  }
  // A list in which nothing is new is shared, too: that of a large disk is long.
  return parts.length === old?.length && parts.every((part, n) => part === old[n]) ? old : parts;
}

const sizeOf = parts => parts.reduce((sum, { length }) => sum + length, 0);

/** The parts of so many bytes: those that are numbered, one after the other, and for the others those of the start. */
function unpackedParts({ size, numbers, bytes }, first) {
  const count = Math.ceil(size / PART), parts = Array.from({ length: count }, (_, n) => first[n]);
  let at = 0;
  for (const n of numbers) {
    const length = Math.min(PART, size - n * PART);
    parts[n] = bytes.slice(at, at + length);
    at += length;
  }
  const isWhole = parts.length === count && at === bytes.length &&
    parts.every((part, n) => part?.length === Math.min(PART, size - n * PART));
  if (!isWhole) throw new Trouble("The state is damaged.");
  return parts;
}

/** The bytes that a part takes. One that shows the software's own bytes takes none beside them. */
function bytesOf(part) {
  if (part === ZEROS) return 0;
  return OBJECT_BYTES + (part.buffer.byteLength === part.length ? part.length : 0);
}

/** A snapshot of a machine. */
export class Snapshot {
  /** The snapshot of a machine as it is; `before` is the last one of it, since which memory is marked. */
  constructor(machine, before) {
    const { cpu, bytes } = machine;
    const ramMarks = bytes.subarray(cpu.ram_marks(), cpu.ram_marks() + (cpu.ram_bytes() >> SHIFT));
    const storeMarks = bytes.subarray(cpu.store_marks(),
      cpu.store_marks() + (cpu.store_used() >> SHIFT));
    const store = cpu.store_at(0), state = machine.savedState();
    /** The PC's memory, drives and files, the machine's own state beside them, and the adapter's. */
    this.ram = cut(machine.ram, before?.ram, n => ramMarks[n] !== 0);
    this.store = cut(bytes.subarray(store, store + cpu.store_used()), before?.store,
      n => storeMarks[n] !== 0, n => machine.givenAt(n * PART, PART));
    ramMarks.fill(0);
    storeMarks.fill(0);
    this.front = cut(bytes.subarray(0, cpu.ram()), before?.front);
    this.back = cut(bytes.subarray(cpu.ram() + cpu.ram_bytes(), machine.base), before?.back);
    this.state = cut(state, before?.state);
    this.stateBytes = state.length;
    /** Nanoseconds of the machine, cycles of the display and frames until then. */
    this.time = cpu.now();
    this.cycles = cpu.cycles();
    this.frames = cpu.frames();
  }

  /** The bytes that this snapshot takes beside another one, with which it shares parts; null for none. */
  bytesBeside(other) {
    let sum = OWN_BYTES;
    for (const name of GROUPS) {
      const parts = this[name], others = other?.[name];
      if (parts === others) continue;
      sum = parts.reduce((bytes, part, n) => bytes + (part === others?.[n] ? 0 : bytesOf(part)),
        sum + PLACE_BYTES * parts.length);
    }
    return sum;
  }

  /** The snapshot in few bytes: what it has beside `first`, the snapshot of the start. */
  packed(first) {
    const groups = {};
    for (const name of GROUPS) {
      const parts = this[name], numbers = [...parts.keys()].filter(n => parts[n] !== first[name][n]);
      groups[name] = { size: sizeOf(parts), numbers: Uint32Array.from(numbers),
        bytes: joinedBytes(numbers.map(n => parts[n])) };
    }
    const { time, cycles, frames, stateBytes } = this;
    return { time, cycles, frames, stateBytes, groups };
  }

  /** A snapshot that was packed, of a run that has the same start; a Trouble where it is damaged. */
  static unpacked({ groups, ...numbers }, first) {
    const parts = Object.fromEntries(GROUPS.map(name => [name, unpackedParts(groups[name], first[name])]));
    const isSized = ["ram", "front", "back"].every(name => groups[name].size === sizeOf(first[name])) &&
      groups.state.size === numbers.stateBytes && groups.store.size % PART === 0;
    if (!isSized) throw new Trouble("The state is damaged.");
    return Object.assign(Object.create(Snapshot.prototype), parts, numbers);
  }

  /** The bytes of drives and files. */
  get storeBytes() {
    return sizeOf(this.store);
  }

  /** Makes a machine what it was. `latest` is the snapshot since which its memory is marked. */
  restore(machine, latest) {
    const { cpu } = machine, { bytes } = machine;
    const put = (parts, at) => parts.forEach((part, n) => bytes.set(part, at + n * PART));
    const putMarked = (parts, at, marks, old) => parts.forEach((part, n) => {
      if (bytes[marks + n] || part !== old?.[n]) bytes.set(part, at + n * PART);
    });
    putMarked(this.ram, cpu.ram(), cpu.ram_marks(), latest?.ram);
    putMarked(this.store, cpu.store_at(0), cpu.store_marks(), latest?.store);
    put(this.front, 0);
    put(this.back, cpu.ram() + cpu.ram_bytes());
    // The marks are of this snapshot now.
    bytes.fill(0, cpu.ram_marks(), cpu.ram_marks() + (cpu.ram_bytes() >> SHIFT));
    bytes.fill(0, cpu.store_marks(), cpu.store_marks() + (cpu.store_used() >> SHIFT));
    machine.restoreState(this.state, this.stateBytes);
  }
}
