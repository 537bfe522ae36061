// The answers in a report (docs/REPORT.md).
import { Trouble } from "../common/trouble.js";
import { codesOfBytes } from "../common/bytes.js";
import { md5 } from "../files/md5.js";

const ZERO = 48, NINE = 57, LINE_END = 10, LETTER_O = 111, LETTER_K = 107;

/** A picture of a report: the bytes of a PPM, and its size in dots. */
export class ReportPicture {
  constructor(ppm) {
    const [, width, height] = codesOfBytes(ppm.subarray(0, 24)).split(/\s/);
    this.ppm = ppm;
    this.width = Number(width);
    this.height = Number(height);
  }

  /** As "720x400". */
  get size() {
    return `${this.width}x${this.height}`;
  }

  /** Red, green and blue of each dot, 0 to 63 each. */
  get rgb() {
    return this.ppm.subarray(this.ppm.length - 3 * this.width * this.height);
  }

  /** The MD5 of the PPM. */
  digest() {
    return md5(this.ppm);
  }
}

/**
 * Reads `count` answers of a report whose first line has the number `first`; calls `take` for each
 * with (index, answer, picture).
 */
export function readReport(report, first, count, take) {
  let at = 0;
  for (let i = 0; i < count; i++) at = readLine(report, at, first + i, i, take);
  if (at !== report.length) throw new Trouble("The report goes on after its last answer.");
}

/**
 * Reads the answer at a place, which must be that of the step with a number; calls `take` with
 * (index, answer, picture). Where the next answer begins.
 */
export function readLine(report, at, wanted, index, take) {
  let number = 0;
  while (report[at] >= ZERO && report[at] <= NINE) number = 10 * number + report[at++] - ZERO;
  if (number !== wanted) throw new Trouble(`The report has no answer of step ${wanted}.`);
  at++;
  if (report[at] !== LETTER_O || report[at + 1] !== LETTER_K || report[at + 2] !== LINE_END) {
    return readAnswer(report, at, index, take);
  }
  take(index, "ok", null);
  return at + 3;
}

/** The line of a report's first step (docs/REPORT.md, "Lines"). */
const FIRST_LINE = new RegExp("^1 (?:ok|ragged|picture \\d+|[0-9A-F]{2}|[0-9A-F]{4}|" +
  "ax=[0-9A-F]{4} .*|E\\d+ [A-Za-z]+|(?:misc|beam|latches|bda|entry|plane|row) .*)$");
const LONGEST_FIRST = 4096;

/** Whether bytes begin as a report does. */
export function isReport(bytes) {
  const [line, ...more] = codesOfBytes(bytes.subarray(0, LONGEST_FIRST)).split("\n");
  return more.length > 0 && FIRST_LINE.test(line);
}

/** The texts of answers of two to four letters, by their letters: in long runs most are such. */
const SHORT_TEXTS = new Map();

function shortText(report, at, end) {
  let letters = 0;
  for (let place = at; place < end; place++) letters = letters << 8 | report[place];
  const known = SHORT_TEXTS.get(letters);
  if (known !== undefined) return known;
  const text = codesOfBytes(report.subarray(at, end));
  SHORT_TEXTS.set(letters, text);
  return text;
}

/** Reads an answer, and tells where the next line begins. */
function readAnswer(report, at, i, take) {
  let end = at;
  while (report[end] !== LINE_END && end < report.length) end++;
  const answer = end - at <= 4 ? shortText(report, at, end)
    : codesOfBytes(report.subarray(at, end));
  if (answer.startsWith("picture ")) {
    const length = Number(answer.slice(8));
    take(i, answer, new ReportPicture(report.subarray(end + 1, end + 1 + length)));
    return end + length + 2;
  }
  const first = end;
  while (end + 1 < report.length && !(report[end + 1] >= ZERO && report[end + 1] <= NINE)) {
    end = report.indexOf(LINE_END, end + 1);
  }
  take(i, end === first ? answer : codesOfBytes(report.subarray(at, end)), null);
  return end + 1;
}
