// A run of a script: the answers of all its steps, and the way of a card to any step, forward and
// back. Each step and each answer is the module's (zak_run_on); states are its bytes (zak_save,
// zak_restore).
import { Answers } from "./answers.js";
import { Card, STATUS } from "../../javascript/zaklimot.js";
import { Checkpoints } from "./checkpoints.js";
import { KIND } from "../script/steplist.js";
import { Outline } from "../script/outline.js";
import { MOST_BYTES } from "../script/grammar.js";
import { MOST_COMPARED, comparedToRun, digitsTo, sumOfBytes, sumOfText } from "./comparing.js";
import { Pieces } from "./pieces.js";
import { Scout } from "./scout.js";
import { State, openAsked } from "./state.js";
import { Trouble } from "../common/trouble.js";
import { counted, grouped } from "../common/bytes.js";
import { encodingTrouble } from "../script/foreign.js";
import { isAsExpected, isRefusal } from "../script/expecting.js";
import { mistakeIn } from "../script/mistakes.js";
import { readReport } from "./report.js";

/**
 * Without a worker, the page compares runs of at most so many steps, bytes of report and
 * milliseconds with zak_run.
 */
const MOST_WITHOUT_WORKER = { steps: 100000, report: 1 << 27, time: 3000 };
// Checkpoints have so many bytes at most, and stand so many milliseconds of running apart, or more.
// On a longer way further ones are made near the step that was asked for.
const MOST_CHECKPOINTS = 1 << 28, MOST_NEAR = 1 << 26, SPACING = 4;
const MOST_DIFFERING = 100000, SLICE = 8;
/** The first letter of a refusal, E. */
const LETTER_E = 69;

/** The bytes of the script that a text spells: { script, line }. A bad line's number is `line`, else 0. */
function assembled(adapter, text) {
  try {
    return { script: adapter.assemble(text), line: 0 };
  } catch (error) {
    if (error.status === STATUS.BAD_LINE) return { line: error.place };
    if (error.status !== STATUS.TOO_LONG) throw error;
    throw new Trouble(`The steps of the text have more bytes, and ${grouped(MOST_BYTES)} bytes are the most.`);
  }
}

/**
 * The steps of a text as the module reads it: { script, outline }. A bad text is a Trouble with the
 * line and the reason.
 */
export function judgedText(adapter, text) {
  const bytes = new TextEncoder().encode(text);
  if (bytes.length > MOST_BYTES) {
    throw new Trouble(`The text has more than ${grouped(MOST_BYTES)} bytes.`);
  }
  const { script, line } = assembled(adapter, bytes);
  if (!line) return { script, outline: new Outline(text) };
  const whole = line === 1 ? encodingTrouble(bytes) : null, { reason, at, width } = mistakeIn(adapter, bytes);
  throw Object.assign(new Trouble(whole ?? reason, line), { at, width });
}

/** A run of a text with the fonts that its mode sets load. */
export class Session {
  /** The steps that are run so far, and the milliseconds that they took. */
  ran = 0;
  time = 0;
  /** The card that shows steps stands after so many; -1 while it goes on. */
  at = 0;
  answers = new Answers();
  /**
   * How many answers are expected, how many of them are wrong, and the steps of the first of these.
   */
  expected = 0;
  wrong = 0;
  differing = [];
  refused = 0;
  /** How many pictures there are, and the size of each, as "720x400", by its step. */
  pictures = 0;
  sizes = new Map();
  /** A sum of each picture, by its step. */
  pictureSums = new Map();
  /** Of each picture, and of each answer whose text is cut off, a sum. */
  sums = [];
  /** The length of the whole report, and of the part that is short enough to be compared. */
  reported = 0;
  comparable = { steps: 0, reported: 0 };
  mostCompared = MOST_COMPARED;
  checkpoints = new Checkpoints(MOST_CHECKPOINTS);
  near = new Checkpoints(MOST_NEAR);
  /** The milliseconds between checkpoints. */
  spacing = SPACING;
  /** Dots of a picture that is no longer shown: the next one is written into them. */
  spare = null;
  /** What its steps are called, and whether they are the cycles of a call. */
  noun = "step";
  isCall = false;
  #sinceCheckpoint = 0;
  #sinceNear = 0;
  #scout = null;
  #card;
  /** The state to which the card is brought back before it is used; null if it is there. */
  #left = null;

  /**
   * `judged` is the text as `judgedText` tells it: then no text is needed. `begin` is the saved state
   * in which the run begins; else that is power-on.
   */
  constructor(adapter, fonts, text, judged = judgedText(adapter, text), begin = null) {
    this.adapter = adapter;
    this.fonts = fonts;
    this.judged = judged;
    this.outline = judged.outline;
    this.length = judged.outline.length;
    this.pieces = new Pieces(adapter, judged.outline);
    // So that there is memory for it, or none is found to be left before anything is shown.
    openAsked(adapter, fonts);
    /** The card that takes all steps, ahead of the one that shows them. */
    this.ahead = new Card(adapter, fonts);
    try {
      this.#card = new Card(adapter, fonts);
    } catch (trouble) {
      this.ahead.close();
      throw trouble;
    }
    if (begin) for (const card of [this.ahead, this.card]) card.restore(begin);
    this.#checkpoint();
  }

  /** The script's bytes. */
  get script() {
    return this.judged.script;
  }

  close() {
    this.ahead.close();
    this.#card.close();
    this.#scout?.close();
    this.adapter.trim();
  }

  get isDone() {
    return this.ran === this.length;
  }

  /** The card that shows steps, in the state after `at` of them. */
  get card() {
    if (this.#left) this.#card.restore(this.#left.bytes);
    this.#left = null;
    return this.#card;
  }

  /** A card by which searches go through the steps; it is opened once one is asked for. */
  get scout() {
    this.#scout ??= new Scout(this);
    return this.#scout;
  }

  /** Runs steps for about so many milliseconds; whether some are left. */
  runFor(milliseconds) {
    const until = performance.now() + milliseconds;
    while (!this.isDone && performance.now() < until) {
      const begun = performance.now();
      const { taken, first, report } = this.pieces.runOn(this.ahead, this.ran, this.length, SLICE);
      if (!taken) throw new Trouble(`The module takes no step after step ${this.ran}.`);
      this.#note(taken, first, report);
      this.ran += taken;
      if (this.reported <= this.mostCompared) {
        this.comparable = { steps: this.ran, reported: this.reported };
      }
      const spent = performance.now() - begun;
      this.time += spent;
      this.#sinceCheckpoint += spent;
      if (this.#sinceCheckpoint > this.spacing) this.#checkpoint();
    }
    return !this.isDone;
  }

  #notePicture(picture, step) {
    this.pictures++;
    const sum = sumOfBytes(picture.ppm);
    this.sizes.set(step, picture.size);
    this.pictureSums.set(step, sum);
    this.sums.push(sum);
  }

  /** Notes the answers of the steps that the card ahead has taken. */
  #note(taken, first, report) {
    const digits = (before, count) => digitsTo(before + count) - digitsTo(before);
    // Steps have other numbers in the whole report than in that of a piece.
    this.reported += report.length + digits(this.ran, taken) - digits(first - 1, taken);
    readReport(report, first, taken, (i, answer, picture) => {
      const step = this.ran + i;
      if (!this.answers.push(answer)) this.sums.push(sumOfText(answer));
      if (picture) this.#notePicture(picture, step);
      if (answer.charCodeAt(0) === LETTER_E && isRefusal(answer)) this.refused++;
      if (this.outline.hasExpected) this.#noteExpected(answer, picture, step);
    });
  }

  #noteExpected(answer, picture, step) {
    const entry = this.outline.entryOf(step), expected = this.outline.expectedOf(entry);
    if (expected === null) return;
    this.expected++;
    if (isAsExpected(answer, picture, expected, this.outline.nameOf(entry))) return;
    this.wrong++;
    if (this.differing.length < MOST_DIFFERING) this.differing.push(step);
  }

  /** Saves the state of the card ahead. If the checkpoints are full, every other one goes. */
  #checkpoint() {
    this.checkpoints.add(this.ran, this.ahead.saveView());
    this.#sinceCheckpoint = 0;
    if (!this.checkpoints.isFull) return;
    this.spacing *= 2;
    this.checkpoints.thin();
  }

  /** Saves the state of the card on its way to a step, if the last checkpoint is far behind. */
  #checkpointNear() {
    if (this.#sinceNear < SPACING) return;
    if (this.near.isFull) this.near.clear();
    this.near.add(this.at, this.card.saveView());
    this.#sinceNear = 0;
  }

  /** The last checkpoint at or before a step. */
  checkpointBefore(step) {
    const far = this.checkpoints.before(step), near = this.near.before(step);
    return near && near.at > far.at ? near : far;
  }

  /**
   * Brings the card to the state after so many steps, or nearer to it, for about so many
   * milliseconds; whether it is there.
   */
  seek(steps, milliseconds = Infinity) {
    const from = this.checkpointBefore(steps);
    if (this.at > steps || this.at < from.at) this.restore(from);
    const until = performance.now() + milliseconds;
    for (let now = performance.now(); this.at < steps && now < until;) {
      this.advance(steps - this.at);
      const then = performance.now();
      this.#sinceNear += then - now;
      this.#checkpointNear();
      now = then;
    }
    return this.at === steps;
  }

  /** Brings the card to a checkpoint. */
  restore({ at, parts }) {
    this.at = -1;
    this.#left = null;
    this.#card.restore(...parts);
    this.at = at;
    this.#sinceNear = 0;
  }

  /**
   * Has the card take some of the next steps, at most so many; what they answered, as
   * { taken, first, report }.
   */
  advance(most) {
    const from = this.at;
    this.at = -1;
    const result = this.pieces.runOn(this.card, from, most, SLICE);
    this.at = from + result.taken;
    return result;
  }

  /** The card's state. */
  state() {
    return State.of(this.card);
  }

  /**
   * What there is to see after so many steps: { steps, before, after, picture }, the states before
   * and after the last of them, and the picture. The card must stand before the last step already.
   */
  seen(steps) {
    const before = steps ? this.state() : null;
    let picture = null;
    if (steps) {
      const { first, report } = this.advance(1);
      readReport(report, first, 1, (_, answer, found) => {
        picture = found && { isWhole: true, width: found.width, height: found.height,
          rgb: found.rgb.slice() };
      });
    }
    const after = this.state();
    return { steps, before: before ?? after, after, picture: picture ?? this.pictureSoFar(after) };
  }

  /**
   * What there is to see at the end of a run that has hardly begun, by the saved state there: as `seen` answers it,
   * but that nothing is known of its last step.
   */
  glimpse(saved) {
    this.restore({ at: -1, parts: [saved] });
    const after = this.state();
    return { steps: this.length, before: after, after, picture: this.pictureSoFar(after), isGlimpse: true };
  }

  /**
   * The picture of the frame under way in the card's state: all its lines, and how many dots of each are drawn.
   * The card goes on to the frame's end, and is brought back once it is used: to go elsewhere, nothing else needs it.
   */
  pictureSoFar(state) {
    const { card } = this;
    this.#left = state;
    const lines = card.frameLines(this.spare);
    this.spare = null;
    return { isWhole: false, ...lines, drawn: state.drawn, isBegun: state.isBegun };
  }

  /**
   * A step's answer as the page shows it. For a picture it has the size, not the length in bytes.
   */
  answerOf(step) {
    const size = this.sizes.get(step);
    return size === undefined ? this.answers.get(step) : `picture ${size}`;
  }

  /** Whether a step is a `frame`. */
  isFrame(step) {
    return this.outline.kinds[this.outline.entryOf(step)] === KIND.frame;
  }

  /** Whether a step answers otherwise than its line expects. */
  isWrong(step) {
    let low = 0, high = this.differing.length - 1;
    while (low < high) {
      const middle = (low + high) >> 1;
      if (this.differing[middle] < step) low = middle + 1;
      else high = middle;
    }
    return this.differing[low] === step;
  }

  /** Why the page doesn't compare this run with zak_run if it has no worker; null if it does. */
  get whyNotCompared() {
    const { steps, report, time } = MOST_WITHOUT_WORKER;
    if (this.length > steps) return `more than ${grouped(steps)} steps`;
    if (this.reported > report) return `more than ${report >> 20} MiB of pictures`;
    if (this.time > time) return `more than ${time / 1000} seconds`;
    return null;
  }

  /**
   * The run as comparedToRun takes it: only its first steps if the whole report would be too long.
   */
  get whole() {
    const { fonts, outline, length, answers, sums, comparable: { steps, reported } } = this;
    const script = steps === length ? this.script
      : this.adapter.assemble(outline.firstSteps(steps));
    return { script, fonts, steps, reported, numbers: answers.numbers.slice(0, steps),
      texts: answers.texts, cut: answers.cut, sums: Int32Array.from(sums) };
  }

  /**
   * Compares the answers, pictures too, with one run by zak_run: what differs, or an empty text.
   */
  compared() {
    return comparedToRun(this.adapter, this.whole);
  }

  /** The result of the run so far, in a few words. */
  summary() {
    const parts = [counted(this.length, this.noun)];
    if (this.pictures) parts.push(counted(this.pictures, "picture"));
    if (this.refused) parts.push(`${grouped(this.refused)} refused`);
    if (this.expected) {
      const right = this.expected - this.wrong;
      parts.push(`${grouped(right)} of ${grouped(this.expected)} answers as expected`);
    }
    return parts.join(", ");
  }
}
