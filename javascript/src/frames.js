// Frames: the clock runs to the end of a frame or of a line, and the picture is given.
import { CycleCard } from "./cycles.js";
import { bytesOf } from "./errors.js";
import { HIGHEST, MOST_RGB, ONCE, OPAQUE, WIDEST } from "./statuses.js";
import { readStruct, sizeOfStruct } from "./structs.js";
import { ANSWER } from "./rooms.js";

/** Bytes of the words of any picture. */
const MOST_WORDS = 4 * WIDEST * HIGHEST;
/** Words of a row in the module's memory, where a picture's width is not known before. */
const PITCH = WIDEST;

/** Turns words FFRRGGBB of a row into the bytes of a canvas, R, G, B and A, which are words AABBGGRR. */
function paintRow(words, at, pixels, to, width) {
  for (let x = 0; x < width; x++) {
    const word = words[at + x];
    pixels[to + x] = word & 0xFF00FF00 | (word & 0xFF) << 16 | word >>> 16 & 0xFF;
  }
}

/** Pixels for a canvas, which a card keeps from frame to frame. */
class Canvas {
  width = 0;
  height = 0;
  #words = new Uint32Array();
  /** The bytes of the picture: R, G, B and A of each pixel. */
  pixels = new Uint8ClampedArray();

  /** Makes it as large as a picture; whether it was another size. */
  fit({ width, height }) {
    if (this.width === width && this.height === height) return false;
    this.width = width;
    this.height = height;
    this.#words = new Uint32Array(width * height);
    this.pixels = new Uint8ClampedArray(this.#words.buffer);
    return true;
  }

  /** Whether its bytes were sent elsewhere, as a worker sends them. */
  get isGone() {
    return this.width > 0 && !this.pixels.length;
  }

  paint(words, first, count) {
    for (let y = first; y < first + count; y++) {
      paintRow(words, PITCH * y, this.#words, this.width * y, this.width);
    }
  }
}

const formOf = ({ once = true, opaque = false }) => (once ? ONCE : 0) | (opaque ? OPAQUE : 0);

/** A card that gives frames. */
export class FrameCard extends CycleCard {
  #canvas = new Canvas();
  /** The pixels of `frameUpdate`, and which form they have. */
  #updated = new Canvas();
  #form = -1;

  /** The words in the module's memory that calls write pictures into. */
  _words(at = this.library.room(ANSWER, MOST_WORDS).at) {
    return new Uint32Array(this.library.calls.memory.buffer, at, MOST_WORDS / 4);
  }

  tryFrame({ once = true } = {}) {
    const picture = this.#drawn(formOf({ once, opaque: true }));
    if (!picture) return null;
    const canvas = this.#canvas.isGone ? this.#canvas = new Canvas() : this.#canvas;
    canvas.fit(picture);
    canvas.paint(this._words(), 0, picture.height);
    return { ...picture, pixels: canvas.pixels };
  }

  frame(options) {
    return this.tryFrame(options) ?? this._check(this.status);
  }

  /** Draws a frame into words of the module's memory: its size; null where it is refused. */
  #drawn(form) {
    const { library } = this, { at } = library.room(ANSWER, MOST_WORDS), { struct } = library;
    this.status = this._calls.zak_frame_words(this._address, form, struct, at, MOST_WORDS / 4, PITCH);
    return this.status ? null : library.told("zak_picture");
  }

  frameWords(options = {}) {
    const picture = this.#drawn(formOf(options));
    this._check(this.status);
    return { ...picture, pitch: PITCH, words: this._words().subarray(0, PITCH * picture.height) };
  }

  tryFrameUpdate({ once = true } = {}) {
    const { library } = this, { struct } = library, form = formOf({ once, opaque: true });
    const at = this._own("update", MOST_WORDS), rows = struct + sizeOfStruct("zak_picture");
    this.status = this._calls.zak_frame_update(this._address, form, struct, at, MOST_WORDS / 4, PITCH, rows);
    if (this.status) return null;
    const picture = library.told("zak_picture"), told = readStruct("zak_rows", library.view, rows);
    const canvas = this.#updated.isGone ? this.#updated = new Canvas() : this.#updated;
    // What the canvas shows is another picture's: each row is new.
    const isOther = canvas.fit(picture) || this.#form !== form;
    const { first, count } = isOther ? { first: 0, count: picture.height } : told;
    this.#form = form;
    canvas.paint(this._words(at), first, count);
    return { ...picture, pixels: canvas.pixels, first, count };
  }

  frameUpdate(options) {
    return this.tryFrameUpdate(options) ?? this._check(this.status);
  }

  frameXrgb() {
    const { library } = this, { at } = library.room(ANSWER, MOST_WORDS), { struct } = library;
    this._check(this._calls.zak_frame_xrgb(this._address, struct, at, MOST_WORDS / 4, PITCH));
    const size = library.told("zak_size");
    return { ...size, pitch: PITCH, words: this._words().subarray(0, PITCH * size.height) };
  }

  frameRgb() {
    const { library } = this, room = library.room(ANSWER, MOST_RGB);
    this._check(this._calls.zak_frame(this._address, library.struct, room.at, room.length));
    const size = library.told("zak_size"), { bytes } = library;
    return { ...size, rgb: bytes.subarray(room.at, room.at + 3 * size.width * size.height) };
  }

  frameIndexed() {
    const { library } = this, numbers = library.room(ANSWER, MOST_WORDS), { struct } = library;
    const palette = library.room("palette", sizeOfStruct("zak_palette"));
    this._check(this._calls.zak_frame_indexed(this._address, struct, palette.at, numbers.at, numbers.length));
    const size = library.told("zak_size"), { view, bytes } = library;
    const { len, colours } = readStruct("zak_palette", view, palette.at);
    return { ...size, palette: colours.subarray(0, len),
      numbers: bytes.subarray(numbers.at, numbers.at + size.width * size.height) };
  }

  line({ opaque = false } = {}) {
    const { library } = this, { at } = library.room(ANSWER, MOST_WORDS), { struct } = library;
    this._check(this._calls.zak_line(this._address, formOf({ once: false, opaque }), struct, at, WIDEST));
    const told = library.told("zak_scan_line");
    return { ...told, words: this._words().subarray(0, told.width) };
  }

  frameLines(into = null) {
    return this.#lines("zak_frame_lines", into);
  }

  peek(into = null) {
    return this.#lines("zak_peek", into);
  }

  /** The dots of a frame line by line, written into bytes that are given if they are as many. */
  #lines(call, into) {
    const { library } = this, spare = into && bytesOf("bytes", into);
    const widths = library.room("widths", 4 * HIGHEST), rgb = library.room(ANSWER, MOST_RGB);
    this._check(this._calls[call](this._address, widths.at, rgb.at, rgb.length, library.lengths));
    const length = library.number(0), dots = spare?.length === length ? spare : new Uint8Array(length);
    dots.set(library.bytes.subarray(rgb.at, rgb.at + length));
    return { widths: new Uint32Array(library.copied(widths.at, 4 * HIGHEST).buffer), rgb: dots };
  }

  skipFrame() {
    this._check(this._calls.zak_skip_frame(this._address));
  }
}
