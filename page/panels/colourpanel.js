// The palette and the DAC as swatches with numbers.
import { classesOf, cssColour, element, pageLink, setAll, setText } from "../common/dom.js";
import { dacEntry } from "../run/state.js";
import { differingColours } from "../run/changes.js";
import { hex } from "../common/bytes.js";
import { isWritten } from "../common/rows.js";

/** A swatch of the palette or the DAC, which is written anew where what it shows differs. */
class Swatch {
  constructor(text, subject) {
    this.button = element("button", { type: "button" }, text);
    this.button.dataset.subject = subject;
    this.key = "";
  }

  show(colour, title, isChanged, isPicked) {
    const parts = colour.map(six => hex(six, 2)).join(" ");
    const key = `${title} ${parts} ${isChanged} ${isPicked}`;
    if (this.key === key) return;
    this.key = key;
    const { button } = this, said = `${title}: ${parts}`;
    setAll(button, { title: said, ariaLabel: said,
      className: classesOf("entry", isChanged && "changed", isPicked && "picked") });
    button.dataset.told = `${title}: red, green, blue ${parts}`;
    button.style.background = cssColour(colour);
    button.style.color = 2 * colour[0] + 5 * colour[1] + colour[2] > 220 ? "#000" : "#fff";
  }
}

/** The panel of colours. */
export class ColourPanel {
  constructor(base) {
    const link = pageLink(base, "DECISIONS.md", "the-dacs-palettes", "Why");
    this.said = element("p", { className: "hint", hidden: true },
      "A mode set of mode 13 gives this adapter's own palette, not IBM's: 00 to 0F are the text colours, " +
      "10 to 1F greys, and from 20 on bits 7 to 5 of the number are red, 4 to 2 green, 1 and 0 blue. ",
      link, ".");
    const told = element("output", { className: "told" }),
      title = "Palette: four bits of a dot, and their entry of the DAC";
    const tell = event => { told.textContent = event.target.dataset?.told ?? ""; };
    this.palette = Array.from({ length: 16 }, (_, four) =>
      new Swatch(hex(four, 1), `register attr ${hex(four, 2)}`));
    this.entries = this.palette.map(() => element("small"));
    this.dac = Array.from({ length: 256 }, (_, entry) =>
      new Swatch(hex(entry, 2), `colour ${hex(entry, 2)}`));
    this.title = element("h3");
    const pairs = this.palette.map(({ button }, four) =>
      element("span", { className: "pair" }, button, this.entries[four]));
    this.root = element("div", { className: "colours" }, this.said, element("h3", {}, title),
      element("div", { className: "palette" }, ...pairs), this.title,
      element("div", { className: "dac" }, ...this.dac.map(({ button }) => button)), told);
    for (const event of ["pointerover", "focusin"]) this.root.addEventListener(event, tell);
  }

  made({ before, after }) {
    const { registers } = after, changed = new Set(differingColours(before, after));
    const mask = hex(registers.dacMask, 2);
    setAll(this.said, { hidden: after.bda.mode !== 0x13 });
    setText(this.title, `DAC: 256 entries, mask ${mask}; the index's entry has a border`);
    this.palette.forEach((swatch, four) => {
      const entry = dacEntry(registers, four), own = registers.attr[four];
      const isChanged = before.registers.attr[four] !== own || changed.has(entry);
      const title = `palette ${hex(four, 1)} is ${hex(own, 2)}, entry ${hex(entry, 2)} of the DAC`;
      swatch.show(after.colour(entry), title, isChanged, false);
      setText(this.entries[four], hex(entry, 2));
    });
    this.dac.forEach((swatch, entry) => {
      const [red, green, blue] = after.colour(entry), isPicked = entry === registers.dacIndex;
      if (isWritten(swatch, red, green, blue, changed.has(entry), isPicked)) return;
      swatch.show([red, green, blue], `DAC entry ${hex(entry, 2)}`, changed.has(entry), isPicked);
    });
    return this.root;
  }
}
