// Cycles of ports and of display memory, the clock, and the calls of the video BIOS.
import { BYTE, LONG, NO_BYTES, OpenCard, WORD, refuseCycle } from "./opened.js";
import { bytesOf, inRange } from "./errors.js";
import { readStruct, sizeOfStruct } from "./structs.js";
import { MOST_TABLE, STATUS } from "./statuses.js";

/** The room for the cycles of most calls. */
const FIRST_CYCLES = 4096;
/** Where int10 writes the length of the table: the registers lie in the struct. */
const TABLE_LENGTH = 0;

/** A card whose cycles are made. */
export class CycleCard extends OpenCard {
  // The calls that begin with try never throw a refusal. Numbers that no cycle has are thrown.

  tryOut(port, value) {
    if (port !== (port & WORD) || value !== (value & BYTE)) refuseCycle(["port", port, WORD], ["value", value, BYTE]);
    return this._calls.zak_out(this._address, port, value);
  }

  tryOutWord(port, value) {
    if (port !== (port & WORD) || value !== (value & WORD)) refuseCycle(["port", port, WORD], ["value", value, WORD]);
    return this._calls.zak_out_word(this._address, port, value);
  }

  tryIn(port) {
    if (port !== (port & WORD)) refuseCycle(["port", port, WORD]);
    const { library } = this, at = library.struct, status = this._calls.zak_in(this._address, port, at);
    return status ? -status : library.bytes[at];
  }

  tryInWord(port) {
    if (port !== (port & WORD)) refuseCycle(["port", port, WORD]);
    const { library } = this, at = library.struct, status = this._calls.zak_in_word(this._address, port, at);
    return status ? -status : library.bytes[at] | library.bytes[at + 1] << 8;
  }

  tryPut(address, value) {
    if (address !== address >>> 0 || value !== (value & BYTE)) {
      refuseCycle(["address", address, LONG], ["value", value, BYTE]);
    }
    return this._calls.zak_put(this._address, address, value);
  }

  tryPutWord(address, value) {
    if (address !== address >>> 0 || value !== (value & WORD)) {
      refuseCycle(["address", address, LONG], ["value", value, WORD]);
    }
    return this._calls.zak_put_word(this._address, address, value);
  }

  tryGet(address) {
    if (address !== address >>> 0) refuseCycle(["address", address, LONG]);
    const { library } = this, at = library.struct, status = this._calls.zak_get(this._address, address, at);
    return status ? -status : library.bytes[at];
  }

  tryGetWord(address) {
    if (address !== address >>> 0) refuseCycle(["address", address, LONG]);
    const { library } = this, at = library.struct, status = this._calls.zak_get_word(this._address, address, at);
    return status ? -status : library.bytes[at] | library.bytes[at + 1] << 8;
  }

  tryAdvance(dots) {
    if (dots !== dots >>> 0) refuseCycle(["dots", dots, LONG]);
    return this._calls.zak_advance(this._address, dots);
  }

  out(port, value) {
    this._check(this.tryOut(port, value));
  }

  outWord(port, value) {
    this._check(this.tryOutWord(port, value));
  }

  in(port) {
    return this._answer(this.tryIn(port));
  }

  inWord(port) {
    return this._answer(this.tryInWord(port));
  }

  put(address, value) {
    this._check(this.tryPut(address, value));
  }

  putWord(address, value) {
    this._check(this.tryPutWord(address, value));
  }

  get(address) {
    return this._answer(this.tryGet(address));
  }

  getWord(address) {
    return this._answer(this.tryGetWord(address));
  }

  advance(dots) {
    this._check(this.tryAdvance(dots));
  }

  /** What a read answers, which is a status with a minus where it is refused. */
  _answer(value) {
    if (value < 0) this._check(-value);
    return value;
  }

  // Many cycles at once.

  putBytes(address, bytes, down = false) {
    inRange("address", address, LONG);
    const given = this.library.given("cycles", bytesOf("bytes", bytes));
    return this._transfer("zak_put_bytes", address, given.at, given.length, down ? 1 : 0);
  }

  fillBytes(address, value, count, down = false) {
    refuseCycle(["address", address, LONG], ["value", value, BYTE], ["count", count, LONG]);
    return this._transfer("zak_fill_bytes", address, value, count, down ? 1 : 0);
  }

  getBytes(address, into, down = false) {
    inRange("address", address, LONG);
    const { library } = this, isBuffer = typeof into !== "number";
    const count = isBuffer ? bytesOf("bytes", into).length : inRange("count", into, LONG);
    // What is refused by the call needs no room.
    const isRefused = !this.isOpen || address + count > LONG;
    const room = library.room("cycles", isRefused ? 1 : Math.max(1, count));
    const decoded = this._transfer("zak_get_bytes", address, room.at, count, down ? 1 : 0);
    if (!isBuffer) return library.copied(room.at, count);
    into.set(library.bytes.subarray(room.at, room.at + count));
    return decoded;
  }

  moveBytes(from, to, count, down = false) {
    refuseCycle(["from", from, LONG], ["to", to, LONG], ["count", count, LONG]);
    return this._transfer("zak_move_bytes", from, to, count, down ? 1 : 0);
  }

  /** Makes many cycles: how many of the addresses are decoded. */
  _transfer(call, ...values) {
    const { library } = this;
    this._check(this._calls[call](this._address, ...values, library.lengths));
    return library.number(0);
  }

  // The clock.

  clock() {
    const { library } = this, at = library.struct;
    this._check(this._calls.zak_clock(this._address, at));
    // A loop asks for it again and again, so it is read field by field.
    const { view } = library;
    return { toFrame: view.getUint32(at, true), toDisplay: view.getUint32(at + 4, true),
      toRetrace: view.getUint32(at + 8, true), lineDots: view.getUint32(at + 12, true),
      frameDots: view.getUint32(at + 16, true), lines: view.getUint32(at + 20, true),
      rate: view.getUint32(at + 24, true), rateDivisor: view.getUint32(at + 28, true) };
  }

  // The video BIOS.

  int10(registers, block = NO_BYTES) {
    const told = this.tryInt10(registers, block);
    if (!told) this._check(this.status);
    return told;
  }

  tryInt10(registers, block = NO_BYTES) {
    const { library } = this, given = library.given("block", bytesOf("the block's bytes", block));
    const table = library.room("table", MOST_TABLE), { struct, lengths } = library;
    this.status = this._calls.zak_int10(this._address, this._registers(registers), given.at, given.length,
      table.at, table.length, lengths);
    if (this.status) return null;
    const answer = readStruct("zak_regs", library.view, struct);
    return { ...answer, table: library.copied(table.at, library.number(TABLE_LENGTH)) };
  }

  block(registers) {
    const { library } = this, regs = this._registers(registers), at = regs + sizeOfStruct("zak_regs");
    this._check(this._calls.zak_block(this._address, regs, at));
    const { len, isAtDx } = readStruct("zak_source", library.view, at);
    return { length: len, isAtDx };
  }

  cycles(registers, block = NO_BYTES) {
    const script = this.tryCycles(registers, block);
    if (!script) this._check(this.status);
    return script;
  }

  tryCycles(registers, block = NO_BYTES) {
    const { library } = this, given = library.given("block", bytesOf("the block's bytes", block));
    let room = library.room("script", FIRST_CYCLES);
    const list = () => this._calls.zak_cycles(this._address, this._registers(registers), given.at, given.length,
      room.at, room.length, library.lengths);
    this.status = list();
    if (this.status === STATUS.NO_ROOM) {
      room = library.room("script", library.number(0));
      this.status = list();
    }
    return this.status ? null : library.copied(room.at, library.number(0));
  }
}
