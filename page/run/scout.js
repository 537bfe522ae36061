// A card of its own that goes through a run's steps for a search, by a call of the module for each
// step: the page's picture stays as it is meanwhile, and a step costs less than by zak_run_on,
// since no report is made.
import { Card } from "../../javascript/zaklimot.js";
import { KIND } from "../script/steplist.js";

/** A script's bytes begin with four letters and its version. */
export const MAGIC = 5;
const VERSION_TWO = 2, REPEAT = 13, END = 14;
/** Bytes of the steps by their kinds, but for `int`, which has a block, and `show`. */
export const SIZES = { [KIND.out]: 4, [KIND.outw]: 5, [KIND.in]: 3, [KIND.inw]: 3, [KIND.put]: 6,
  [KIND.putw]: 7, [KIND.get]: 5, [KIND.getw]: 5, [KIND.advance]: 5, [KIND.frame]: 1 };
/** Bytes of `show`, by what it shows. */
const SHOW_SIZES = [2, 3, 2, 2, 7, 2, 2];
/** So many steps are taken before the time is looked at. */
const STEPS_A_LOOK = 512;

/** The steps of a script's bytes: where each begins, as they stand in the text (docs/SCRIPT.md). */
export class Operations {
  constructor(script, count) {
    this.script = script;
    this.view = new DataView(script.buffer, script.byteOffset, script.length);
    this.starts = new Uint32Array(count);
    let at = MAGIC;
    for (let entry = 0; entry < count; entry++) {
      at = this.skipBlocks(at);
      this.starts[entry] = at;
      at += this.sizeAt(at);
    }
  }

  /** Where the next step begins: repeats have bytes before and behind their steps. */
  skipBlocks(from) {
    const { script } = this;
    let at = from;
    while (script[4] === VERSION_TWO && (script[at] === REPEAT || script[at] === END)) {
      at += script[at] === REPEAT ? 3 : 1;
    }
    return at;
  }

  sizeAt(at) {
    const kind = this.script[at];
    if (kind === KIND.int) return 11 + this.view.getUint16(at + 9, true);
    return kind === KIND.show ? SHOW_SIZES[this.script[at + 1]] : SIZES[kind];
  }

  kind(entry) {
    return this.script[this.starts[entry]];
  }

  /** The port or the address of a step that has one, or the dots of an `advance`; else 0. */
  place(entry) {
    const at = this.starts[entry], kind = this.script[at];
    if (kind === KIND.int || kind > KIND.advance) return 0;
    return kind <= KIND.inw ? this.view.getUint16(at + 1, true) : this.view.getUint32(at + 1, true);
  }

  /** The byte or the word that a step writes. */
  value(entry) {
    const at = this.starts[entry], kind = this.script[at], from = at + (kind <= KIND.inw ? 3 : 5);
    const isWord = kind === KIND.outw || kind === KIND.putw;
    return isWord ? this.view.getUint16(from, true) : this.script[from];
  }

  /** The registers of a call, and its block. */
  call(entry) {
    const at = this.starts[entry], length = this.view.getUint16(at + 9, true);
    const [ax, bx, cx, dx] = [1, 3, 5, 7].map(place => this.view.getUint16(at + place, true));
    return { registers: { ax, bx, cx, dx }, block: this.script.subarray(at + 11, at + 11 + length) };
  }
}

/** A card that goes through a session's steps one by one. */
export class Scout {
  constructor(session) {
    const { adapter, outline, script, fonts } = session;
    Object.assign(this, { session, adapter, outline });
    this.operations = new Operations(script, outline.kinds.length);
    this.card = new Card(adapter, fonts);
    this.room = adapter.take(1024);
    /** Where a beam stands that a search asks about, behind what the calls write. */
    this.beam = this.room + 1024 - 64;
    // After how many steps the card is; -1 where nothing is known of it.
    this.at = -1;
  }

  close() {
    this.card.close();
    this.adapter.give(this.room);
  }

  /** Takes one step, the `entry` of the script. */
  take(entry) {
    const { operations, adapter: { calls }, card: { address: card }, room } = this;
    const kind = operations.kind(entry);
    this.at++;
    if (kind >= KIND.int) return this.takeOther(kind, entry);
    const place = operations.place(entry);
    switch (kind) {
      case KIND.out: return calls.zak_out(card, place, operations.value(entry));
      case KIND.outw: return calls.zak_out_word(card, place, operations.value(entry));
      case KIND.in: return calls.zak_in(card, place, room);
      case KIND.inw: return calls.zak_in_word(card, place, room);
      case KIND.put: return calls.zak_put(card, place, operations.value(entry));
      case KIND.putw: return calls.zak_put_word(card, place, operations.value(entry));
      case KIND.get: return calls.zak_get(card, place, room);
      default: return calls.zak_get_word(card, place, room);
    }
  }

  /** Takes a step that has no port and no address. */
  takeOther(kind, entry) {
    const { adapter: { calls }, card: { address: card }, room } = this;
    if (kind === KIND.int) return this.callBios(entry);
    if (kind === KIND.advance) return calls.zak_advance(card, this.operations.place(entry));
    // With no room for the picture the frame passes all the same.
    return kind === KIND.frame ? calls.zak_frame(card, room, room + 16, 0) : 0;
  }

  callBios(entry) {
    const { registers, block } = this.operations.call(entry);
    this.card.tryInt10(registers, block);
    return this.card.status;
  }

  /**
   * Goes to the state after so many steps, for about so many milliseconds; whether it is there. It
   * goes on from where it is, or from the last checkpoint that is nearer.
   */
  seek(steps, milliseconds = Infinity) {
    const from = this.session.checkpointBefore(steps);
    if (this.at < 0 || this.at > steps || this.at < from.at) this.restore(from);
    const until = performance.now() + milliseconds;
    for (let now = 0; this.at < steps && now < until; now = performance.now()) {
      this.takeSteps(Math.min(steps, this.at + STEPS_A_LOOK), until);
    }
    return this.at === steps;
  }

  /** Takes steps until the card is after so many, or the time is over. */
  takeSteps(steps, until) {
    const { outline } = this, run = outline.runOf(this.at);
    const end = Math.min(steps, run.first + run.count * run.size);
    let within = (this.at - run.first) % run.size;
    while (this.at < end) {
      const entry = run.from + within;
      this.take(entry);
      if (++within === run.size) within = 0;
      if (outline.kinds[entry] >= KIND.int && performance.now() > until) return;
    }
  }

  restore({ at, parts }) {
    this.at = -1;
    this.card.restore(...parts);
    this.at = at;
  }
}
