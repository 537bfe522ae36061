// What a search watches: registers, entries of the DAC, bytes of the planes, BIOS data, the beam. A
// watch tells by a step's words whether the step may change what is watched, so that the others
// need not be looked at, and holds the value after a step to the one before.
import { KIND } from "../script/steplist.js";
import { biosDataOf } from "./state.js";
import { placeInStruct } from "../../javascript/zaklimot.js";

const PLANES = [0, 1, 2, 3], ENTRIES = 256;
/** The ports by which the registers of a group, and its index, are written. */
const PORTS = { misc: [0x3c2], seq: [0x3c5], gfx: [0x3cf], crtc: [0x3d5, 0x3b5], attr: [0x3c0],
  attrIndex: [0x3c0], dacMask: [0x3c6] };

/**
 * Whether a step may write one of some ports, by its words; a call of the video BIOS may write all
 * of them.
 */
function mayWrite(ports, { kind, place }) {
  if (kind === KIND.int) return true;
  if (kind === KIND.out) return ports.includes(place);
  return kind === KIND.outw && (ports.includes(place) || ports.includes(place + 1));
}

/** The steps that may write bytes of the planes. */
const STORES = [KIND.put, KIND.putw, KIND.int];

/** Numbers of a struct or of planes, as they were when they were looked at last. */
class Watch {
  /** Reads what is watched, before a step. */
  start(scout) {
    this.old = this.read(scout);
  }

  /** Whether the step that was just taken has changed it; then `was` and `is` are its values. */
  isChanged(scout, operation) {
    const now = this.read(scout, operation);
    if (!this.differs(this.old, now)) return false;
    Object.assign(this, { was: this.old, is: now, old: now });
    return true;
  }

  differs(old, now) {
    return old !== now;
  }
}

/**
 * Fields of registers: parts { group, index, mask } of zak_registers; without a mask the whole
 * register.
 */
export class RegisterWatch extends Watch {
  constructor(parts) {
    super();
    this.parts = parts.map(({ group, index, mask = 255 }) =>
      ({ at: placeInStruct("zak_registers", group) + index, mask }));
    this.ports = [...new Set(parts.flatMap(({ group }) => PORTS[group]))];
  }

  mayChange(operation) {
    return mayWrite(this.ports, operation);
  }

  read({ adapter, card, room }) {
    adapter.calls.zak_read_registers(card.address, room);
    const { bytes } = adapter;
    return this.parts.map(({ at, mask }) => bytes[room + at] & mask);
  }

  differs(old, now) {
    return now.some((value, i) => value !== old[i]);
  }
}

/** An entry of the DAC, as one number of its three colours. */
export class ColourWatch extends Watch {
  constructor(index) {
    super();
    this.index = index;
  }

  mayChange(operation) {
    return mayWrite([0x3c9], operation);
  }

  read({ adapter, card, room }) {
    return colourAt(adapter, card, room, this.index);
  }
}

function colourAt(adapter, card, room, index) {
  adapter.calls.zak_read_colour(card.address, index, room);
  const { bytes } = adapter;
  return bytes[room] << 16 | bytes[room + 1] << 8 | bytes[room + 2];
}

/**
 * All entries of the DAC. After a write of a port only the entry of the index, or that before, can
 * differ.
 */
export class PaletteWatch extends Watch {
  mayChange(operation) {
    return mayWrite([0x3c9], operation);
  }

  read({ adapter, card, room }) {
    return Array.from({ length: ENTRIES }, (_, index) => colourAt(adapter, card, room, index));
  }

  isChanged(scout, operation) {
    const { adapter, card, room } = scout;
    if (operation.kind === KIND.int) return super.isChanged(scout, operation);
    adapter.calls.zak_read_registers(card.address, room);
    const index = adapter.bytes[room + placeInStruct("zak_registers", "dacIndex")];
    return [index, index - 1 & 255].map(one => {
      const now = colourAt(adapter, card, room, one), isOther = now !== this.old[one];
      this.old[one] = now;
      return isOther;
    }).some(isOther => isOther);
  }

  differs(old, now) {
    return now.some((value, i) => value !== old[i]);
  }
}

const OFFSET = placeInStruct("zak_write_stages", "offset");

/** The offset in each plane to which a write leads; -1 where no memory answers. */
function offsetOf({ adapter, card, room }, address) {
  if (adapter.calls.zak_explain_put(card.address, address, 0, room)) return -1;
  const { bytes } = adapter;
  return bytes[room + OFFSET] | bytes[room + OFFSET + 1] << 8;
}

/** Bytes of planes: those of `planes`, a bit each, at offsets from `from` to `to`. */
export class BytesWatch extends Watch {
  constructor(planes, from, to = from) {
    super();
    Object.assign(this, { planes: PLANES.filter(plane => planes >> plane & 1), from, to });
  }

  mayChange({ kind }) {
    return STORES.includes(kind);
  }

  read({ card }) {
    const { planes, from, to } = this;
    return planes.map(plane => card.plane(plane, from, to + 1 - from));
  }

  /** A write changes bytes at its own offsets alone, two for a word. */
  isChanged(scout, { kind, place }) {
    if (kind === KIND.int) return super.isChanged(scout);
    if (this.from === this.to) return this.isOther(scout, this.from);
    const isOther = address => this.isOther(scout, offsetOf(scout, address));
    const isFirst = isOther(place);
    return kind === KIND.put ? isFirst : isOther(place + 1) || isFirst;
  }

  /** Whether a byte at an offset is another one than before. */
  isOther({ adapter, card, room }, offset) {
    const { from, to, planes, old } = this;
    if (offset < from || offset > to) return false;
    let isFound = false;
    for (let i = 0; i < planes.length; i++) {
      adapter.calls.zak_read_plane(card.address, planes[i], offset, room, 1);
      const now = adapter.bytes[room], bytes = old[i], at = offset - from;
      if (now === bytes[at]) continue;
      bytes[at] = now;
      isFound = true;
    }
    return isFound;
  }

  differs(old, now) {
    return now.some((bytes, i) => !sameBytes(bytes, old[i]));
  }
}

function sameBytes(one, other) {
  for (let at = 0; at < one.length; at++) if (one[at] !== other[at]) return false;
  return true;
}

/** A field of the BIOS data, by its name in `State.bda`; of the cursor positions also the page. */
export class BiosWatch extends Watch {
  constructor(name, page = 0) {
    super();
    Object.assign(this, { name, page });
  }

  mayChange({ kind }) {
    return kind === KIND.int;
  }

  read({ card }) {
    const value = biosDataOf(card)[this.name];
    return Array.isArray(value) ? value[this.page] : value;
  }
}

/** Several watches as one. */
export class AnyWatch {
  constructor(watches) {
    this.watches = watches;
  }

  mayChange(operation) {
    return this.watches.some(watch => watch.mayChange(operation));
  }

  start(scout) {
    for (const watch of this.watches) watch.start(scout);
  }

  isChanged(scout, operation) {
    // Each of them has to see the step.
    const found = this.watches.map(watch =>
      watch.mayChange(operation) && watch.isChanged(scout, operation));
    return found.some(isFound => isFound);
  }
}

