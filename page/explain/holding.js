// A dot's own place of memory, while registers change by which the beam comes to it. The adapter is asked by other beams
// until it tells that one leads to that place.
import { kindOf } from "./dotrows.js";
import { hex } from "../common/bytes.js";
import { sourceAt } from "./way.js";
import { placeInStruct, sizeOfStruct } from "../../javascript/zaklimot.js";

const MOST_DOTS = 9, COUNTERS = 0x10000;

const REGISTERS_SIZE = sizeOfStruct("zak_registers");
/** The registers on which the place of a dot may hang, by their groups; and of these the ones on which it does not. */
const GROUPS = { crtc: 25, seq: 5, gfx: 9, attr: 21, misc: 1 };
const OTHERS = { crtc: [10, 11, 14, 15], seq: [2], gfx: [0, 1, 2, 3, 4, 7, 8], attr: [...Array(16).keys()], misc: [] };
/** Where they stand in a zak_registers. */
const COUNTED = Object.entries(GROUPS).flatMap(([group, length]) => Array.from({ length }, (_, index) => index)
  .filter(index => !OTHERS[group].includes(index)).map(index => placeInStruct("zak_registers", group) + index));

/** The registers on which the place of dots hangs, as a card told them last. */
export class Layout {
  #known = new Uint8Array(REGISTERS_SIZE);

  /** Whether one of them has another value than when this was asked before. */
  isOther({ adapter, card, room }) {
    adapter.calls.zak_read_registers(card.address, room);
    const { bytes } = adapter, known = this.#known;
    let isOther = false;
    for (const at of COUNTED) {
      if (bytes[room + at] === known[at]) continue;
      known[at] = bytes[room + at];
      isOther = true;
    }
    return isOther;
  }
}

/** What stands in memory at a dot's place, by the names of partsOfDot; `bytes` are those of the planes there. */
export function memoryParts(source, bytes) {
  const { dot } = source, kind = kindOf(source);
  if (kind === "text") return { character: hex(bytes[0], 2), attribute: hex(bytes[1], 2) };
  if (kind === "256 colours") return { byte: hex(dot > 7 ? 0 : bytes[dot >> 1], 2) };
  const bits = bytes.reduce((sum, byte, plane) => sum | (byte << dot >> 7 & 1) << plane, 0);
  return { "bits in memory": hex(dot > 7 ? 0 : bits, 1) };
}

/** Whether two sources are the same dot of the same place of memory. */
export function isSamePlace(one, other) {
  return one !== null && one.isDisplay === other.isDisplay && one.address === other.address &&
    one.dot === other.dot && kindOf(one) === kindOf(other);
}

/** The counters that may lead to an address: by bytes, by words and by double words. */
function countersOf(address) {
  const quarter = [0, 1, 2, 3].map(high => address >> 2 | high << 14);
  return [address, address >> 1, address >> 1 | 0x8000, ...quarter];
}

/** Beams that may lead to a place: with each counter, and a dot that panning moves, also from the character before. */
function* beamsTo(beam, { address, counter }) {
  for (const one of [counter, ...countersOf(address)]) {
    for (const base of [one, one - 1].map(count => count - beam.character + 2 * COUNTERS & COUNTERS - 1)) {
      for (let dot = 0; dot < MOST_DOTS; dot++) yield { ...beam, base, dot };
    }
  }
}

/**
 * Where a dot comes from by a card's registers and memory, at the place from which it was drawn: { beam, source, isHeld }. `made`
 * is the dot as it was drawn, { beam, source }. Where no beam leads to that place it is told by the dot's own, and
 * `isHeld` is false.
 */
export function heldSource(card, { beam, source: wanted }) {
  const own = sourceAt(card, beam);
  if (isSamePlace(own, wanted) || !wanted.isDisplay) return { beam, source: own, isHeld: true };
  for (const other of beamsTo(beam, wanted)) {
    const source = sourceAt(card, other);
    if (isSamePlace(source, wanted)) return { beam: other, source, isHeld: true };
  }
  return { beam, source: own, isHeld: false };
}

/**
 * What a dot is made of at its own place: { parts, memory, isHeld }. Where no beam leads to that place, `memory` tells
 * alone.
 */
export function heldParts(card, made, held, partsOfDot) {
  const { address } = made.source, { source, isHeld } = held, parts = partsOfDot(source);
  const bytes = isHeld ? source?.bytes : [0, 1, 2, 3].map(plane => card.plane(plane, address, 1)[0]);
  return { parts, memory: bytes ? { shown: parts.shown, ...memoryParts(made.source, Array.from(bytes)) } : parts, isHeld };
}
