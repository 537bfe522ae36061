// The bytes of a recording's steps (docs/SCRIPT.md, "The bytes"): a text of them, which the module would read,
// takes ten times as long.
import { KIND } from "../script/steplist.js";
import { MAGIC, SIZES } from "../run/scout.js";

const LETTERS = [0x56, 0x47, 0x41, 0x53], CALL_BYTES = 11, REPEAT = 13, END = 14, REPEAT_BYTES = 3;
/** The bytes of a block beside its steps. */
export const BLOCK_BYTES = REPEAT_BYTES + 1;
const isWord = kind => kind <= KIND.getw && kind % 2 === 0;
const isRead = kind => [KIND.in, KIND.inw, KIND.get, KIND.getw].includes(kind);

/** Writes steps one after the other. */
export class Encoder {
  #view;
  #bytes;
  #at = MAGIC;

  /** A script of so many bytes, and of a version. */
  constructor(length, version) {
    this.#bytes = new Uint8Array(length);
    this.#view = new DataView(this.#bytes.buffer);
    this.#bytes.set([...LETTERS, version]);
  }

  /** How many bytes a step has; a call's block comes on top. */
  static size(kind, block = 0) {
    return kind === KIND.int ? CALL_BYTES + block : SIZES[kind];
  }

  /** A cycle of a port or an address. */
  cycle(kind, address, value) {
    const view = this.#view, isPort = kind <= KIND.inw, from = this.#at + (isPort ? 3 : 5);
    view.setUint8(this.#at, kind);
    if (isPort) view.setUint16(this.#at + 1, address, true);
    else view.setUint32(this.#at + 1, address, true);
    if (!isRead(kind) && isWord(kind)) view.setUint16(from, value, true);
    else if (!isRead(kind)) view.setUint8(from, value);
    this.#at += SIZES[kind];
  }

  advance(dots) {
    this.#view.setUint8(this.#at, KIND.advance);
    this.#view.setUint32(this.#at + 1, dots, true);
    this.#at += SIZES[KIND.advance];
  }

  /** A call of the video BIOS with AX to DX, and its block. */
  call(registers, block) {
    const view = this.#view;
    view.setUint8(this.#at, KIND.int);
    registers.forEach((value, i) => view.setUint16(this.#at + 1 + 2 * i, value, true));
    view.setUint16(this.#at + 9, block.length, true);
    this.#bytes.set(block, this.#at + CALL_BYTES);
    this.#at += CALL_BYTES + block.length;
  }

  /** The beginning of a block that is taken so many times; `end` ends it. */
  repeat(count) {
    this.#view.setUint8(this.#at, REPEAT);
    this.#view.setUint16(this.#at + 1, count, true);
    this.#at += REPEAT_BYTES;
  }

  end() {
    this.#view.setUint8(this.#at++, END);
  }

  /** Steps that are bytes already. */
  raw(bytes) {
    this.#bytes.set(bytes, this.#at);
    this.#at += bytes.length;
  }

  get bytes() {
    return this.#bytes;
  }
}
