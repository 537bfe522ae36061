// Rows of a list, of which those in sight are in the page. They are used again, so that only what
// differs in them is written, and the browser lays out little.
import { element } from "./dom.js";

/**
 * Whether a row tells of these values already; from now on it does. So what they come to is worked
 * out, and the page is touched, where one of them differs.
 */
export function isWritten(row, ...values) {
  const old = row.written;
  row.written = values;
  return old !== undefined && values.every((value, i) => value === old[i]);
}

/** Where lines are higher, since they are touched: the style's condition. */
export const TOUCHED = "(max-width: 860px), (pointer: coarse)";
/**
 * How high a line of the script is, and a row of the list of steps, in pixels: the style's `--row`.
 */
export const ROW = { height: 18 };

/** Takes the height of rows from the style, now and when it changes, which is heard. */
export function followRowHeight(heard) {
  const read = () => {
    ROW.height = parseInt(getComputedStyle(document.documentElement).getPropertyValue("--row"), 10);
    heard();
  };
  matchMedia(TOUCHED).addEventListener("change", read);
  read();
}

/** The rows in a box. `make` makes a row with nothing in it. */
export class Rows {
  rows = [];
  top = 0;
  inner = element("div", { className: "inner", role: "presentation" });

  constructor(box, make) {
    this.make = make;
    box.append(this.inner);
  }

  /**
   * Shows so many rows, the first at a place in the box; `fill(row, i)` writes the i-th of them.
   */
  show(count, top, fill) {
    const { rows, inner } = this, place = Math.round(top);
    for (; rows.length > count; rows.pop()) inner.lastChild.remove();
    while (rows.length < count) {
      const made = this.make();
      inner.append(made);
      rows.push(made);
    }
    if (place !== this.top) inner.style.top = place + "px";
    this.top = place;
    rows.forEach(fill);
  }
}
