// Compares the answers of a run, which was taken some steps at a time, with those of one call of
// zak_run, which takes the whole script. A worker does it in a module of its own, so that the page
// goes on meanwhile.
import { Adapter } from "./adapter.js";
import { STATUS } from "../../javascript/zaklimot.js";
import { Trouble } from "../common/trouble.js";
import { grouped, wordsOfBytes } from "../common/bytes.js";
import { readReport } from "./report.js";

/**
 * zak_run is asked for a report of so many bytes at most. It puts the report together in memory,
 * which takes up to five times as much in all, and some engines give a module four GiB.
 */
export const MOST_COMPARED = 1 << 29;
const PRIME = 16777619;

/** A number that tells byte sequences apart, such as pictures. */
export function sumOfBytes(bytes) {
  // A copy begins at a multiple of four.
  const whole = bytes.slice(), words = wordsOfBytes(whole);
  let sum = whole.length;
  for (let at = 0; at < words.length; at++) sum = Math.imul(sum ^ words[at], PRIME);
  for (let at = 4 * words.length; at < whole.length; at++) sum = Math.imul(sum ^ whole[at], PRIME);
  return sum;
}

/** A number that tells texts apart. */
export function sumOfText(text) {
  let sum = text.length;
  for (let at = 0; at < text.length; at++) sum = Math.imul(sum ^ text.charCodeAt(at), PRIME);
  return sum;
}

/** How many decimal digits the numbers from 1 to this one have. */
export function digitsTo(number) {
  let count = 0;
  for (let least = 1; least <= number; least *= 10) count += number - least + 1;
  return count;
}

/**
 * A whole run from power-on whose report may have so many bytes as are told: { status, length, report }.
 * The report is a view of the module's memory, since it may be long; its length is told where it has no
 * room.
 */
function runWithin(adapter, { script, fonts, reported }) {
  const { calls, lengths } = adapter, given = adapter.given("steps", script), font = adapter.given("fonts", fonts);
  const room = adapter.room("report", Math.max(1, reported));
  const status = calls.zak_run(given.at, given.length, font.at, font.length, room.at, reported, lengths, lengths + 8);
  if (status === STATUS.OUT_OF_MEMORY) throw adapter.error(status);
  const isKnown = !status || status === STATUS.NO_ROOM, length = isKnown ? adapter.number(0) : 0;
  return { status, length, report: adapter.bytes.subarray(room.at, room.at + (status ? 0 : length)) };
}

/**
 * Compares a run with one by zak_run: what differs, in words; an empty text if nothing does.
 *
 * A run is { script, fonts, steps, reported, numbers, texts, cut, sums }: `reported` is the length
 * of its report, texts[numbers[i]] is the answer of step i, and `sums` has a number for each
 * picture and for each answer whose text is cut off; `cut` has the numbers of these texts.
 */
export function comparedToRun(adapter, run) {
  const { status, length, report } = runWithin(adapter, run);
  if (status && status !== STATUS.NO_ROOM) return `zak_run answers ${status}`;
  if (length === run.reported) return firstDifference(report, run);
  return `its report has ${grouped(length)} bytes, and this run's ${grouped(run.reported)}`;
}

/**
 * The first step whose answers in a report and in a run differ, in words; an empty text for none.
 */
function firstDifference(report, { steps, numbers, texts, cut, sums }) {
  let difference = "", place = 0;
  try {
    readReport(report, 1, steps, (i, answer, picture) => {
      const number = numbers[i], isCut = cut.has(number);
      const isSame = (isCut ? sumOfText(answer) === sums[place++] : answer === texts[number]) &&
        (!picture || sumOfBytes(picture.ppm) === sums[place++]);
      if (!isSame && !difference) difference = `step ${grouped(i + 1)} answers otherwise`;
    });
  } catch (trouble) {
    if (!(trouble instanceof Trouble)) throw trouble;
    return trouble.message;
  }
  return difference;
}

/** In a worker: compares the run that the page sends; what came of it, or why nothing did. */
export async function comparedToSend(module, run) {
  try {
    return { difference: comparedToRun(await Adapter.of(module), run) };
  } catch (error) {
    return { trouble: error.message };
  }
}

/** Compares runs in a worker, one at a time. */
export class Comparer {
  #worker = null;
  #address = null;

  /** `module`: the adapter's bytes. `code`: the page's own script, which the worker runs too. */
  constructor(module, code) {
    this.module = module;
    this.code = code;
  }

  /**
   * Compares a run. `done` hears { difference }, or { trouble }, a text each, or null if the
   * browser gives the page no worker. Another run, or `stop`, ends this one, and then nothing is
   * heard.
   */
  start(run, done) {
    this.stop();
    try {
      this.#address ??= URL.createObjectURL(new Blob([this.code], { type: "text/javascript" }));
      this.#worker = new Worker(this.#address);
    } catch {
      return done(null);
    }
    const heard = result => {
      this.stop();
      done(result);
    };
    this.#worker.onmessage = ({ data }) => heard(data);
    this.#worker.onerror = event => {
      event.preventDefault();
      heard(null);
    };
    return this.#worker.postMessage({ module: this.module, run });
  }

  stop() {
    this.#worker?.terminate();
    this.#worker = null;
  }
}
