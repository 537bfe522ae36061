// The state of a card: what the module's readers tell of it, and its saved bytes, in which planes,
// the DAC and the dots drawn so far stand (docs/STATE.md); and what follows from registers.
// page/tests/state.mjs holds each of them to the module's own calls.
import { FIRST_STATE, HIGHEST, PLANE_SIZE } from "../../javascript/zaklimot.js";

/** So many bytes before a state make its planes begin at multiples of four. */
const AHEAD = 2;
const AT = { dac: 101, planes: 894, drawn: 263038 };

/** How many dots a line of the frame under way has so far, in saved bytes. */
export function drawnDots(bytes, line) {
  return bytes[AT.drawn + 2 * line] | bytes[AT.drawn + 2 * line + 1] << 8;
}

/** Of each module the card that is asked about states, and the state in which it is. */
const asked = new WeakMap();

/** Opens the card that is asked about states of a module, unless it is open. */
export function openAsked(adapter, fonts) {
  if (!asked.has(adapter)) asked.set(adapter, { card: adapter.open(fonts), state: null });
  return asked.get(adapter);
}

/** A copy of a card's saved bytes, in which planes begin at multiples of four. */
export function savedBytes(card) {
  const saved = card.saveView(), bytes = new Uint8Array(new ArrayBuffer(saved.length + AHEAD), AHEAD);
  bytes.set(saved);
  return bytes;
}

/** The BIOS data of a card, by the names that the page has for them. */
export function biosDataOf(card) {
  const { cursorPlaces, cursorType: type, crtcAddress: crtc, ...others } = card.biosData();
  return { ...others, places: Array.from(cursorPlaces), type, crtc };
}

/** A state, by name. */
export class State {
  #home;

  /** The state of a card as it is. */
  static of(card) {
    const { rows, ...beam } = card.beam();
    return new State(savedBytes(card), { registers: card.registers(), latches: card.latches(), beam,
      bda: biosDataOf(card) }, card);
  }

  /**
   * The saved bytes, the registers, latches, beam and BIOS data that a card tells, and `home`, the
   * card's { library, fonts }.
   */
  constructor(bytes, { registers, latches, beam, bda }, { library, fonts }) {
    this.bytes = bytes;
    this.registers = registers;
    this.latches = latches;
    this.beam = beam;
    this.bda = bda;
    this.#home = { library, fonts };
  }

  /**
   * A card in this state, for questions that change nothing. All states of a module share one: it
   * is this state's until another one is asked.
   */
  get card() {
    const { library, fonts } = this.#home, found = openAsked(library, fonts);
    if (found.state === this) return found.card;
    found.state = null;
    found.card.restore(this.bytes);
    found.state = this;
    return found.card;
  }

  /** The same card, for steps: whoever asks next brings it back. */
  get scratch() {
    const { card } = this;
    openAsked(this.#home.library).state = null;
    return card;
  }

  part(at, length) {
    return this.bytes.subarray(at, at + length);
  }

  plane(number) {
    return this.part(AT.planes + PLANE_SIZE * number, PLANE_SIZE);
  }

  /** The DAC: the reds of its 256 entries, then the greens, then the blues, 0 to 63 each. */
  get dac() {
    return this.part(AT.dac, 768);
  }

  /** Red, green and blue of an entry of the DAC, 0 to 63 each. */
  colour(index) {
    return [0, 256, 512].map(part => this.bytes[AT.dac + part + index]);
  }

  /** Whether a mode was set by the video BIOS. */
  get hasMode() {
    return this.bda.columns > 0;
  }

  /** Of each of 1,024 lines, how many dots the frame under way has so far. */
  get drawn() {
    return new Uint16Array(this.bytes.slice(AT.drawn, AT.drawn + 2 * HIGHEST).buffer);
  }

  /** How many dots of a line of the frame under way are drawn so far. */
  drawnOf(line) {
    return line < HIGHEST ? drawnDots(this.bytes, line) : 0;
  }

  /** Whether a dot of the frame under way is drawn. */
  get isBegun() {
    return this.bytes.length > FIRST_STATE;
  }
}

/** How wide a character is, in dots. */
export function characterWidth(registers) {
  return registers.seq[1] & 1 ? 8 : 9;
}

/** How many lines a row of characters has, each of them twice or not, and how far rows are apart. */
export function rowShape({ crtc }) {
  return { lines: (crtc[9] & 31) + 1, isDoubled: crtc[9] >> 7 === 1, pitch: 2 * crtc[19],
    start: (256 * crtc[12] + crtc[13] + (crtc[8] >> 5 & 3)) & 65535 };
}

/** How many bytes of a plane lead from a row to the next: 0 where the offset register is. */
export function rowBytes(registers) {
  const { crtc } = registers, step = crtc[20] & 64 ? 4 : crtc[23] & 64 ? 1 : 2;
  return 2 * crtc[19] * step;
}

/**
 * The entry of the DAC that four bits of a dot pick (docs/REGISTERS.md, "Attribute controller").
 */
export function dacEntry({ attr, dacMask }, four) {
  const own = attr[four & attr[18] & 15], select = attr[20];
  const low = attr[16] & 128 ? own & 15 | (select & 3) << 4 : own;
  return (low | (select & 12) << 4) & dacMask;
}
