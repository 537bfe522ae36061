// The report of another run (docs/REPORT.md), beside the run of the page: answer by answer, and
// pictures dot by dot.
import { Answers } from "../run/answers.js";
import { counted, grouped } from "../common/bytes.js";
import { readLine } from "../run/report.js";
import { sumOfBytes } from "../run/comparing.js";
import { Trouble } from "../common/trouble.js";

/** So many answers are compared at a time, and so many differences are listed. */
const CHUNK = 4096, MOST_LISTED = 100000;
const MOST_TEXT = 60, MOST_LEVEL = 63;

/** The first words of an answer. */
export function shortened(text) {
  const [line, ...more] = text.split("\n");
  return line.length > MOST_TEXT || more.length ? `${line.slice(0, MOST_TEXT)} …` : line;
}

/** Whether all bytes are levels of the DAC. A loop: a report may have a hundred million of them. */
function areLevels(bytes) {
  for (let at = 0; at < bytes.length; at++) if (bytes[at] > MOST_LEVEL) return false;
  return true;
}

/** The report of another run. */
export class OtherReport {
  /** The steps that differ, from 0, as { step, text }. */
  differences = [];
  /** How many differ in all. */
  count = 0;
  /** What is to be said beside the count, in sentences. */
  note = "";
  #answers = new Answers();
  #pictures = new Map();

  constructor(name) {
    this.name = name;
  }

  /** Reads the bytes of the report; yields now and then. A Trouble if they are no whole report. */
  * read(bytes) {
    for (let at = 0, step = 0; at < bytes.length; step++) {
      if (step % CHUNK === CHUNK - 1 || this.#pictures.has(step - 1)) yield;
      at = readLine(bytes, at, step + 1, step, (_, answer, picture) => {
        this.#answers.push(answer);
        if (picture) this.#addPicture(step, picture);
      });
      if (at > bytes.length) {
        throw new Trouble(`This report is cut off in the answer of step ${grouped(step + 1)}.`);
      }
    }
  }

  #addPicture(step, picture) {
    const { width, height, rgb } = picture, size = 3 * width * height;
    if (!(size > 0) || rgb.length !== size || !areLevels(rgb)) {
      throw new Trouble(`The picture of step ${grouped(step + 1)} in this report is none, ` +
        "or is cut off.");
    }
    this.#pictures.set(step, { picture, sum: sumOfBytes(picture.ppm) });
  }

  /** The picture that the report has of a step, from 0; null if it has none. */
  pictureAt(step) {
    return this.#pictures.get(step)?.picture ?? null;
  }

  /** Compares the report with a run that is done; yields now and then. */
  * compare(session) {
    this.differences = [];
    this.count = 0;
    const { length } = this.#answers, shared = Math.min(length, session.length);
    for (let step = 0; step < shared; step++) {
      if (step % CHUNK === CHUNK - 1) yield;
      const text = this.#differenceAt(session, step);
      if (!text) continue;
      this.count++;
      if (this.differences.length < MOST_LISTED) this.differences.push({ step, text });
    }
    this.note = length === session.length ? ""
      : `It has ${counted(length, "answer")}, and this run ${grouped(session.length)}.`;
  }

  /** How the answers of a step differ, in words; "" if they don't. */
  #differenceAt(session, step) {
    const own = session.answers.get(step), other = this.#answers.get(step);
    const sum = this.#pictures.get(step)?.sum, ownSum = session.pictureSums.get(step);
    if (sum !== undefined && ownSum !== undefined) {
      return sum === ownSum ? "" : "the pictures differ";
    }
    return own === other ? ""
      : `${shortened(session.answerOf(step))} here, ${shortened(other)} there`;
  }

  get summary() {
    return this.count ? `${counted(this.count, "answer")} differ${this.count === 1 ? "s" : ""}.`
      : "All answers are the same.";
  }
}
