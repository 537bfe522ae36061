// A card as an object: scripts on it, and what it says of itself.
import { BYTE, LONG } from "./opened.js";
import { StateCard } from "./states.js";
import { inRange } from "./errors.js";
import { load } from "../loading.js";
import { MOST_REASON_TEXT, MOST_RGB, STATUS } from "./statuses.js";
import { sizeOfStruct, writeStruct } from "./structs.js";
import { ANSWER } from "./rooms.js";

/** Room for the report of one step, and for a script that rebuilds a state. */
const STEP_ROOM = MOST_RGB + 100, FIRST_REBUILT = 1 << 16;
const decoder = new TextDecoder();

/** A VGA adapter with its video BIOS, at power-on. */
export class Card extends StateCard {
  /** Opens a card of the module that `load` loads once. */
  static async open(fonts = undefined) {
    return (await load()).open(fonts);
  }

  constructor(library, fonts = library?.fonts) {
    super(library, fonts);
  }

  // Steps of a script.

  runOn(script, { first = 0, most = LONG, room = 0 } = {}) {
    for (const [name, value] of Object.entries({ first, most, room })) inRange(name, value, LONG);
    const { library } = this, code = library.outside(library.scriptOf(script));
    if (room) return this.#slice(code, first, most, room);
    // What one step reports has room, and of more steps the card can take all again.
    const state = most === 1 ? null : this.save();
    try {
      return this.#slice(code, first, most, STEP_ROOM);
    } catch (error) {
      if (state) this.restore(state);
      if (!state || error.status !== STATUS.NO_ROOM) throw error;
      return this.#slice(code, first, most, error.needed);
    }
  }

  /** Takes steps whose report has so much room; an error tells how much it needs. */
  #slice(code, first, most, size) {
    const { library } = this, given = library.given("steps", code), { lengths } = library;
    const report = library.room(ANSWER, Math.max(1, size));
    const status = this._calls.zak_run_on(this._address, given.at, given.length, first, most,
      report.at, report.length, lengths, lengths + 8, lengths + 16);
    const numbers = [0, 1, 2].map(which => library.number(which));
    if (status) throw Object.assign(library.error(status, numbers[2]), { needed: numbers[0] });
    return { report: library.copied(report.at, numbers[0]), taken: numbers[1] };
  }

  // What the card says of itself. Nothing changes.

  explainStep(script, step = 0) {
    const { library } = this, given = library.given("steps", library.scriptOf(script));
    const { lengths, struct } = library, words = library.room("sentence", MOST_REASON_TEXT);
    const status = this._calls.zak_explain_step(this._address, given.at, given.length, inRange("step", step, LONG),
      struct, words.at, words.length, lengths, lengths + 8);
    if (status) this._check(status, library.number(1));
    const told = library.told("zak_reason"), sentence = decoder.decode(library.copied(words.at, library.number(0)));
    return told.status ? { ...told, sentence } : null;
  }

  explainDot(beam = null) {
    return this.tryExplainDot(beam) ?? this._check(this.status);
  }

  tryExplainDot(beam = null) {
    const { library } = this, { struct } = library, at = struct + sizeOfStruct("zak_dot_source");
    if (beam) writeStruct("zak_beam", beam, library.view, at);
    this.status = beam ? 0 : this._calls.zak_read_beam(this._address, at);
    this.status ||= this._calls.zak_explain_dot(this._address, at, struct);
    return this.status ? null : library.told("zak_dot_source");
  }

  explainPut(address, value) {
    return this.tryExplainPut(address, value) ?? this._check(this.status);
  }

  tryExplainPut(address, value) {
    return this._tried("zak_write_stages", "zak_explain_put", inRange("address", address, LONG),
      inRange("value", value, BYTE));
  }

  explainGet(address) {
    return this.tryExplainGet(address) ?? this._check(this.status);
  }

  tryExplainGet(address) {
    return this._tried("zak_read_stages", "zak_explain_get", inRange("address", address, LONG));
  }

  rebuild() {
    const { library } = this, { lengths } = library;
    const script = library.written("script", FIRST_REBUILT, room => this._calls.zak_rebuild(this._address,
      room.at, room.length, lengths, lengths + 8));
    return { script, areDotsOther: library.bytes[lengths + 8] !== 0 };
  }
}
