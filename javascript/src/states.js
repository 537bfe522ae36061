// The state of a card: read by names, dumped, saved and restored.
import { BYTE, WORD } from "./opened.js";
import { FrameCard } from "./frames.js";
import { bytesOf, inRange } from "./errors.js";
import { MOST_STATE, PLANE_SIZE, STATUS } from "./statuses.js";
import { ANSWER } from "./rooms.js";

/** A card that tells its state. */
export class StateCard extends FrameCard {
  // Readers. Nothing changes, not even an index, a latch or the flip-flop.

  registers() {
    return this._read("zak_registers", "zak_read_registers");
  }

  colour(entry) {
    return this._read("zak_colour", "zak_read_colour", inRange("entry", entry, BYTE));
  }

  beam() {
    return this._read("zak_beam", "zak_read_beam");
  }

  latches() {
    return this._read("zak_latches", "zak_read_latches").plane;
  }

  biosData() {
    return this._read("zak_bda", "zak_read_bda");
  }

  plane(plane, offset = 0, count = PLANE_SIZE - offset) {
    inRange("plane", plane, 3);
    inRange("offset", offset, WORD);
    inRange("count", count, PLANE_SIZE);
    const { library } = this, room = library.room("plane", PLANE_SIZE);
    this._check(this._calls.zak_read_plane(this._address, plane, offset, room.at, count));
    return library.copied(room.at, count);
  }

  // The plain screen, as programs that use only the video BIOS see it.

  screen() {
    return this._read("zak_screen", "zak_screen_read");
  }

  cell(row, column, page = 0) {
    return this._read("zak_cell", "zak_screen_cell", inRange("page", page, BYTE), inRange("row", row, BYTE),
      inRange("column", column, BYTE));
  }

  pixel(x, y, page = 0) {
    const { library } = this, at = library.struct;
    this._check(this._calls.zak_screen_pixel(this._address, inRange("page", page, BYTE), inRange("x", x, WORD),
      inRange("y", y, WORD), at));
    return library.bytes[at];
  }

  cursor(page = 0) {
    return this._read("zak_place", "zak_screen_cursor", inRange("page", page, BYTE));
  }

  // Dumps.

  showRegs() {
    return this._text("zak_show_regs");
  }

  showBeam() {
    return this._text("zak_show_beam");
  }

  showLatches() {
    return this._text("zak_show_latches");
  }

  showBda() {
    return this._text("zak_show_bda");
  }

  showCells() {
    return this._text("zak_show_cells");
  }

  showDac(entry) {
    return this._text("zak_show_dac", inRange("entry", entry, BYTE));
  }

  showPlane(plane, offset, count) {
    return this._text("zak_show_plane", inRange("plane", plane, 3), inRange("offset", offset, WORD),
      inRange("count", count, 256, 1));
  }

  // Snapshots.

  saveSize() {
    const { library } = this;
    this._check(this._calls.zak_save_size(this._address, library.lengths));
    return library.number(0);
  }

  save() {
    return this.saveView().slice();
  }

  saveInto(bytes) {
    const room = bytesOf("bytes", bytes).length, view = this.saveView();
    if (view.length > room) this._check(STATUS.NO_ROOM);
    bytes.set(view);
    return view.length;
  }

  saveView() {
    const { library } = this, room = library.room(ANSWER, MOST_STATE);
    this._check(this._calls.zak_save(this._address, room.at, room.length, library.lengths));
    return library.bytes.subarray(room.at, room.at + library.number(0));
  }

  restore(...parts) {
    const given = this.library.given(ANSWER, ...parts.map(part => bytesOf("the state's bytes", part)));
    this._check(this._calls.zak_restore(this._address, given.at, given.length));
  }

  saveFixed(length) {
    inRange("length", length, 0xFFFFFFFF);
    const { library } = this, room = library.room(ANSWER, this.isOpen ? Math.max(1, length) : 1);
    this._check(this._calls.zak_save_fixed(this._address, room.at, length));
    return library.copied(room.at, length);
  }

  restoreFixed(state) {
    const given = this.library.given(ANSWER, bytesOf("the state's bytes", state));
    this._check(this._calls.zak_restore_fixed(this._address, given.at, given.length));
  }
}
