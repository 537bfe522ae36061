// The module: its memory, and the calls that need no card. Its memory has addresses of 32 bits, so
// pointers and lengths are Numbers. A length that a call writes into memory has 8 bytes.
import { Card } from "./card.js";
import { bytesOf, errorOf, inRange } from "./errors.js";
import { readStruct } from "./structs.js";
import { API_VERSION, CARD_SIZE, FONTS_SIZE, MOST_MISTAKE_TEXT, MOST_STATUS_TEXT, STATUS } from "./statuses.js";
import { ANSWER } from "./rooms.js";

/** The room for what a call writes whose length nobody knows before, and for a report. */
const FIRST_ROOM = 1 << 12, FIRST_REPORT = 1 << 20;
/** Rooms of at least so many bytes are given back by `trim`. */
const LARGE = 1 << 16;
/** Bytes for what calls write that is short: eight lengths, and behind them a struct. */
const SCRATCH_SIZE = 2048, LENGTHS_SIZE = 64;
const encoder = new TextEncoder(), decoder = new TextDecoder();
const NO_BYTES = new Uint8Array();

/** The bytes of a text, or bytes as they are. */
function textBytes(text) {
  return typeof text === "string" ? encoder.encode(text) : bytesOf("the text's bytes", text);
}

/** A module of WebAssembly that is running, with the font of the cards that it opens. */
export class Library {
  #bytes = NO_BYTES;
  #view = null;
  #rooms = new Map();

  /** `instance` is one of zaklimot.wasm, and `fonts` are the bytes of a font file. */
  constructor(instance, fonts = null) {
    /** The module's own exports: `memory`, `page_take`, `page_give`, and the calls of zaklimot.h. */
    this.calls = instance.exports;
    const { zak_version: version } = this.calls;
    if (!version || version() >>> 16 !== API_VERSION >>> 16 || version() < API_VERSION) {
      throw new TypeError("this is no module of Zaklimot that fits this package");
    }
    /** The font of cards that are opened without one; null where there is none. */
    this.fonts = fonts && bytesOf("the fonts", fonts);
    const scratch = this.calls.page_take(SCRATCH_SIZE) >>> 0;
    if (!scratch) throw new RangeError("the module has no memory for its first bytes");
    /** Where calls write lengths, 8 bytes each, and where they write a struct. */
    this.lengths = scratch;
    this.struct = scratch + LENGTHS_SIZE;
    /** A card that is closed and stays so: calls on closed cards go there. */
    this.closedCard = this.take(CARD_SIZE);
    this.bytes.fill(0, this.closedCard, this.closedCard + CARD_SIZE);
  }

  /** A library of a module: its bytes, or a WebAssembly.Module. */
  static async of(module, fonts = null) {
    const made = await WebAssembly.instantiate(module, {});
    return new this(made instanceof WebAssembly.Instance ? made : made.instance, fonts);
  }

  // The module's memory. A view of it holds until memory grows, which any call may do.

  /** The module's memory as it is now, in bytes. */
  get bytes() {
    // Where memory has grown, the old bytes are gone, and their array has none.
    if (!this.#bytes.length) this.#renew();
    return this.#bytes;
  }

  /** The same as a DataView. */
  get view() {
    if (!this.#bytes.length) this.#renew();
    return this.#view;
  }

  #renew() {
    const { buffer } = this.calls.memory;
    this.#bytes = new Uint8Array(buffer);
    this.#view = new DataView(buffer);
  }

  /** Takes so many bytes of the module's memory that nothing else has: their address. */
  take(size) {
    // A call answers an integer with a sign, and addresses have none.
    const at = this.calls.page_take(size) >>> 0;
    if (!at) throw this.error(STATUS.OUT_OF_MEMORY);
    return at;
  }

  /** Gives back what `take` has taken. */
  give(at) {
    this.calls.page_give(at);
  }

  /** Memory of the module under a name, of at least so many bytes: { at, length }. */
  room(name, size) {
    const old = this.#rooms.get(name);
    if (old && old.length >= size) return old;
    if (old) this.give(old.at);
    this.#rooms.delete(name);
    const room = { at: this.take(size), length: size };
    this.#rooms.set(name, room);
    return room;
  }

  /** Gives back the module's memory that long scripts, states and pictures have taken. */
  trim() {
    for (const [name, room] of this.#rooms) {
      if (room.length < LARGE) continue;
      this.give(room.at);
      this.#rooms.delete(name);
    }
  }

  /** Bytes that stay where they are if memory grows: a copy of those that are the module's own. */
  outside(bytes) {
    return bytes.buffer === this.calls.memory.buffer ? bytes.slice() : bytes;
  }

  /** Bytes in the module's memory, in the room of a name: { at, length }. They may come in parts. */
  given(name, ...parts) {
    const safe = parts.map(part => this.outside(part));
    const length = safe.reduce((sum, part) => sum + part.length, 0);
    let { at } = this.room(name, Math.max(1, length));
    const given = { at, length }, { bytes } = this;
    for (const part of safe) {
      bytes.set(part, at);
      at += part.length;
    }
    return given;
  }

  /** A copy of what a call has written. */
  copied(at, length) {
    return this.bytes.slice(at, at + length);
  }

  /** The first, second .. of the lengths and places that a call has written. */
  number(which) {
    const { view } = this, place = this.lengths + 8 * which;
    return view.getUint32(place, true) + 2 ** 32 * view.getUint32(place + 4, true);
  }

  /** A struct that a call has written, by the names of its fields. */
  told(name) {
    return readStruct(name, this.view, this.struct);
  }

  // Calls that fail.

  /** The error of a status. */
  error(status, place = null) {
    return errorOf(status, this.statusText(status), place);
  }

  /** Throws the error of a status, unless it is 0. */
  check(status, place = null) {
    if (status) throw this.error(status, place);
  }

  /** What a status means: "ZAK_NO_MODE: No mode is set yet.". */
  statusText(status) {
    // Also where memory is spent, so it takes none.
    const { struct, lengths } = this;
    this.calls.zak_status_text(inRange("the status", status, 0xFFFFFFFF), struct, MOST_STATUS_TEXT, lengths);
    return decoder.decode(this.copied(struct, this.number(0)));
  }

  /**
   * What a call writes into a room of a name, and tells the length of: a copy. `call` gets the room;
   * if it needs more, it is made again with as much. A place is told as the second length.
   */
  written(name, first, call) {
    let room = this.room(name, first), status = call(room);
    if (status === STATUS.NO_ROOM) {
      room = this.room(name, this.number(0));
      status = call(room);
    }
    if (status) throw this.error(status, this.number(1));
    return this.copied(room.at, this.number(0));
  }

  // Cards, scripts and texts.

  /** Opens a card at power-on. `fonts` are the bytes of a font file; the library's are usual. */
  open(fonts = this.fonts) {
    return new Card(this, fonts);
  }

  /** The version of the module's interface: { major, minor }. */
  get version() {
    const number = this.calls.zak_version();
    return { major: number >>> 16, minor: number & 0xFFFF };
  }

  /** Assembles a text, or the bytes of one, into the bytes of a script. */
  assemble(text) {
    const { at, length } = this.given("text", textBytes(text)), { lengths } = this;
    return this.written("script", Math.max(FIRST_ROOM, length), room => this.calls.zak_assemble(at, length,
      room.at, room.length, lengths, lengths + 8));
  }

  /** The bytes of a script that is given as its text or as its bytes. */
  scriptOf(script) {
    return typeof script === "string" ? this.assemble(script) : bytesOf("the script's bytes", script);
  }

  /** Disassembles a script: its text, a line for each step. */
  print(script) {
    const { at, length } = this.given("script", bytesOf("the script's bytes", script)), { lengths } = this;
    return decoder.decode(this.written("text", Math.max(FIRST_ROOM, 8 * length), room =>
      this.calls.zak_print(at, length, room.at, room.length, lengths, lengths + 8)));
  }

  /**
   * Makes a whole run from power-on, with no card: the bytes of its report. `room` is how many bytes
   * the report has, about: a longer one takes a second run.
   */
  run(script, { fonts = this.fonts, room = FIRST_REPORT } = {}) {
    const [code, glyphs] = [this.scriptOf(script), this.fontsOf(fonts)].map(bytes => this.outside(bytes));
    const { at, length } = this.given("steps", code), font = this.given("fonts", glyphs), { lengths } = this;
    inRange("room", room, 0xFFFFFFFF);
    return this.written(ANSWER, Math.max(1, room), place => this.calls.zak_run(at, length, font.at, font.length,
      place.at, place.length, lengths, lengths + 8));
  }

  /** The bytes of a font file that are given, held to their length by the call that takes them. */
  fontsOf(fonts) {
    if (fonts === null || fonts === undefined) {
      throw new TypeError(`no fonts are given: the ${FONTS_SIZE} bytes of a font file`);
    }
    return bytesOf("the fonts", fonts);
  }

  /**
   * What is wrong in a text that `assemble` refuses; null if it spells a script. `start` and `length`
   * are the part of the line: in characters of a string, and in bytes of bytes.
   */
  explainText(text) {
    const { at, length } = this.given("text", textBytes(text)), { calls, struct, lengths } = this;
    const words = this.room("sentence", MOST_MISTAKE_TEXT);
    this.check(calls.zak_explain_text(at, length, struct, words.at, words.length, lengths));
    const told = this.told("zak_mistake");
    if (!told.kind) return null;
    if (typeof text === "string" && told.line) Object.assign(told, inCharacters(text, told));
    return { ...told, sentence: decoder.decode(this.copied(words.at, this.number(0))) };
  }
}

/** A part of a line that is counted in bytes, counted in characters. */
function inCharacters(text, { line, start, length }) {
  const bytes = encoder.encode(text.split("\n")[line - 1]), count = part => decoder.decode(part).length;
  return { start: count(bytes.subarray(0, start)), length: count(bytes.subarray(start, start + length)) };
}
