// The way of the last step's byte between the host and the planes, stage by stage.
import { KIND } from "../script/steplist.js";
import { bitsText, tablesOfStep } from "../explain/cycletable.js";
import { classesOf, element, pageLink } from "../common/dom.js";
import { hex } from "../common/bytes.js";
import { whyRefused } from "../explain/refusals.js";

const MEMORY_STEPS = [KIND.put, KIND.putw, KIND.get, KIND.getw];

/** The bits of a byte, of which some are marked. */
function bitsOf({ byte, bits, marked }) {
  if (!marked) return [bits];
  return Array.from(bitsText(byte), (letter, i) => {
    const bit = 7 - (i > 4 ? i - 1 : i);
    return letter !== " " && marked >> bit & 1 ? element("b", {}, letter) : letter;
  });
}

function cellOf(cell, isUsed) {
  const className = classesOf(!isUsed && "unused", cell?.marked && "changed");
  if (!cell) return element("td", { className });
  return element("td", { className }, `${hex(cell.byte, 2)} `,
    element("span", { className: "eight" }, ...bitsOf(cell)));
}

/** A cycle as an element. */
function cycleOf({ title, sentences, heads, rows }) {
  const [address, ...more] = sentences.map(text => element("p", {}, text));
  const head = heads.map(({ plane, isUsed, source }) => element("th", { scope: "col",
    className: classesOf(!isUsed && "unused") }, `plane ${plane}`, element("small", {}, source)));
  const body = rows.map(row => element("tr", {}, element("th", { scope: "row" }, row.title),
    ...row.cells.map((cell, i) => cellOf(cell, heads[i].isUsed))));
  const table = element("table", { className: "cycle" },
    element("thead", {}, element("tr", {}, element("td", {}, element("h3", {}, title)), ...head)),
    element("tbody", {}, ...body));
  return element("div", {}, element("div", { className: "scroll" }, table), address, ...more);
}

/** What to say where the last step has no cycle of memory that could be shown. */
function noneText(kind) {
  const where = "Go to a put or a get, or click a dot and ask for the last step that changed it.";
  if (kind !== KIND.int) {
    return `The last step neither writes display memory nor reads it. ${where}`;
  }
  return "A BIOS call makes many cycles. Step into it by the button above or I, and each of them is " +
    "shown here. The yellow marks in the other tabs show what all of them changed.";
}

/** The panel of the last step's write or read. */
export class WritePanel {
  #link;

  constructor(pages) {
    this.#link = pageLink(pages, "HOST-PATH.md", "a-write-bit-by-bit", "How a byte goes");
    this.root = element("div", { className: "write" });
  }

  made(seen) {
    if (this.shown !== seen) this.root.replaceChildren(...this.#inside(seen));
    this.shown = seen;
    return this.root;
  }

  #inside({ session, steps, before }) {
    const { outline } = session, entry = steps ? outline.entryOf(steps - 1) : -1;
    const kind = entry < 0 ? 0 : outline.kinds[entry];
    if (!MEMORY_STEPS.includes(kind)) {
      return [element("p", { className: "hint" }, noneText(kind))];
    }
    const [name, place, value = "0"] = outline.wordsOf(entry).toLowerCase().split(" ");
    const step = { name, place: parseInt(place, 16), value: parseInt(value, 16) };
    const why = whyRefused(session, steps - 1, before);
    if (why) {
      return [element("p", { className: "wrong" }, `The step is refused, so nothing is written or read. ${why.text}`)];
    }
    const hint = element("p", { className: "hint" }, "The registers and latches are those before " +
      "the step. Bits that changed are bold; planes that take no part are pale. ", this.#link, ".");
    return [...tablesOfStep(before, step).map(cycleOf), hint];
  }
}
