// A text that is too long to be edited: its lines in sight are shown.
import { Rows, isWritten } from "../common/rows.js";
import { classesOf, element, setAll, setText } from "../common/dom.js";
import { grouped } from "../common/bytes.js";

/**
 * The field has texts of so many lines and characters at most: browsers have no elements that are
 * much higher.
 */
export const MOST_LINES = 300000, MOST_EDITED = 8000000, LONGEST_EDITED = 200000;
const WIDEST_LINE = 400;

/** Where the lines of a text begin. */
export function lineStarts(text) {
  let count = 1;
  for (let at = text.indexOf("\n"); at >= 0; at = text.indexOf("\n", at + 1)) count++;
  const starts = new Uint32Array(count);
  for (let line = 1, at = 0; line < count; line++) starts[line] = at = text.indexOf("\n", at) + 1;
  return starts;
}

/** Why a text can't be edited in the page, in a sentence; an empty text where it can. */
export function whyNotEdited(text) {
  const told = why =>
    `This text ${why}, and the page edits no text that long; it runs all the same.`;
  if (text.length > MOST_EDITED) return told(`has ${grouped(text.length)} characters`);
  let lines = 1, begin = 0;
  for (let at = text.indexOf("\n"); at >= 0; at = text.indexOf("\n", begin)) {
    if (at - begin > LONGEST_EDITED) break;
    begin = at + 1;
    lines++;
  }
  const end = text.indexOf("\n", begin), last = (end < 0 ? text.length : end) - begin;
  if (last > LONGEST_EDITED) return told(`has a line of ${grouped(last)} characters`);
  return lines > MOST_LINES ? told(`has ${grouped(lines)} lines`) : "";
}

/** The lines of such a text in a box. */
export class LongText {
  text = "";
  starts = new Uint32Array(1);

  constructor(box, rows) {
    this.box = box;
    this.rows = rows;
    this.lines = new Rows(rows, () => element("div", { className: "longrow" }));
  }

  put(text) {
    this.text = text;
    this.starts = lineStarts(text);
  }

  get lineCount() {
    return this.starts.length;
  }

  /** A line as it stands, with its number from 1. */
  lineText(line) {
    const { [line - 1]: begin, [line]: next } = this.starts;
    return this.text.slice(begin, next ? next - 1 : undefined);
  }

  /** The number of the line at a place, in characters from the text's begin. */
  lineAt(place) {
    let low = 0, high = this.starts.length - 1;
    while (low < high) {
      const middle = (low + high + 1) >> 1;
      if (this.starts[middle] <= place) low = middle;
      else high = middle - 1;
    }
    return low + 1;
  }

  /** Gives the box its height, in pixels. */
  resize(height) {
    this.rows.style.height = height + "px";
  }

  /** Shows so many lines from one on, the first at a place of the box, and one of them marked. */
  show(count, first, top, here) {
    this.lines.show(count, top, (made, i) => this.#fill(made, first + i + 1, here));
  }

  #fill(made, line, here) {
    const isHere = line === here;
    if (isWritten(made, this.starts, line, isHere)) return;
    setText(made, this.lineText(line).slice(0, WIDEST_LINE));
    setAll(made, { className: classesOf("longrow", isHere && "here") });
  }
}
