// A script in pieces: the module takes some steps of it at a time, and each piece is a script of
// its own that it has assembled from the script's text. A step therefore costs as much at the end
// of a long script as at its beginning.
import { KIND } from "../script/steplist.js";
import { MOST_RGB } from "../../javascript/zaklimot.js";

/** The steps of a piece outside blocks, and the steps that a small block is repeated to. */
const PIECE_STEPS = 2048;
/** The bytes of assembled pieces that are cached. */
const MOST_PIECES = 1 << 25;
/** The least room for a report. */
const LEAST_ROOM = 4096;
/** The bytes of report that a slice of steps may have, unless a single step has more. */
const MOST_REPORT = 1 << 20;

/** Bytes of the largest picture, with its head and a newline. */
const MOST_PICTURE = MOST_RGB + 32;
/** The milliseconds that a step of a kind takes, about, and the most bytes of its report line. */
const COSTS = {
  [KIND.int]: { time: 1, report: 2048 },
  [KIND.frame]: { time: 2, report: MOST_PICTURE },
  [KIND.show]: { time: 0.05, report: 32768 },
};
const USUAL_COST = { time: 0.0002, report: 24 };
const DOTS_A_MILLISECOND = 200000;

/** The pieces of a text that the module has assembled. */
export class Pieces {
  #cache = new Map();
  #size = 0;

  constructor(adapter, outline) {
    this.adapter = adapter;
    this.outline = outline;
  }

  /** The piece that has a step: its bytes, which of its steps this is, and how many follow. */
  at(step) {
    const { outline } = this, run = outline.runOf(step), within = step - run.first;
    const left = run.count * run.size - within, turn = within % run.size;
    if (run.isBlock && run.size <= PIECE_STEPS / 2 && run.count > 1) {
      const turns = Math.min(run.count, Math.floor(PIECE_STEPS / run.size));
      const bytes = this.bytes(run.from, run.size, turns);
      return { bytes, first: turn, most: Math.min(left, turns * run.size - turn) };
    }
    const chunk = Math.floor(turn / PIECE_STEPS), from = chunk * PIECE_STEPS;
    const count = Math.min(PIECE_STEPS, run.size - from);
    const bytes = this.bytes(run.from + from, count, 1);
    return { bytes, first: turn - from, most: count - (turn - from) };
  }

  /** The bytes of a script of some entries, all of them taken so many times. */
  bytes(from, count, turns) {
    const key = `${from} ${count} ${turns}`, old = this.#cache.get(key);
    if (old) return old;
    const bytes = this.outline.bytesOf?.(from, count, turns) ?? this.#assembled(from, count, turns);
    if (this.#size > MOST_PIECES) {
      this.#cache.clear();
      this.#size = 0;
    }
    this.#cache.set(key, bytes);
    this.#size += bytes.length;
    return bytes;
  }

  /** The bytes of steps that are a text. */
  #assembled(from, count, turns) {
    const steps = this.outline.textOf(from, count);
    return this.adapter.assemble(turns === 1 ? steps : `version 2\nrepeat ${turns}\n${steps}\nend\n`);
  }

  costOf(entry) {
    const kind = this.outline.kinds[entry];
    if (kind !== KIND.advance) return COSTS[kind] ?? USUAL_COST;
    const dots = this.outline.dotsOf(entry);
    const time = USUAL_COST.time + Math.min(dots, 1 << 24) / DOTS_A_MILLISECOND;
    return { time, report: USUAL_COST.report };
  }

  /**
   * How many steps from one on take about so many milliseconds, one at least, and the most bytes of
   * their report.
   */
  slice(step, most, milliseconds) {
    const { outline } = this, run = outline.runOf(step);
    let time = 0, room = 0, count = 0, entry = run.from + (step - run.first) % run.size;
    while (count < most) {
      const cost = this.costOf(entry);
      if (count && (time + cost.time > milliseconds || room + cost.report > MOST_REPORT)) break;
      time += cost.time;
      room += cost.report;
      count++;
      if (++entry === run.from + run.size) entry = run.from;
    }
    return { count, room };
  }

  /**
   * Has a card take steps from one on, at most so many and for about so many milliseconds:
   * { taken, first, report }.
   */
  runOn(card, step, most, milliseconds) {
    const piece = this.at(step);
    const { count, room } = this.slice(step, Math.min(most, piece.most), milliseconds);
    const { taken, report } = card.runOn(piece.bytes, { first: piece.first, most: count,
      room: Math.max(room, LEAST_ROOM) });
    return { taken, first: piece.first + 1, report };
  }
}
