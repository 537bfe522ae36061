// The BIOS data by name.
import { PlainTable, rowsOfStates } from "./registerpanel.js";
import { element, pageLink, setText } from "../common/dom.js";
import { hex } from "../common/bytes.js";

/** What the rows are asked about, in their order. */
const SUBJECTS = ["mode", "columns", "size", "start",
  ...[0, 1, 2, 3, 4, 5, 6, 7].map(page => `places ${page}`), "type", "page", "crtc", "lastRow",
  "height"].map(name => `bios ${name}`);

function biosRows({ bda }) {
  const place = word => `row ${word >> 8}, column ${word & 255}`;
  return [
    ["49 mode", hex(bda.mode, 2)], ["4A columns", String(bda.columns)],
      ["4C size of a page", hex(bda.size, 4)],
    ["4E start of the active page", hex(bda.start, 4)],
    ...bda.places.map((word, page) => [`${hex(0x50 + 2 * page, 2)} cursor on page ${page}`, place(word)]),
    ["60 cursor's scan lines", `${bda.type >> 8} to ${bda.type & 255}`], ["62 active page", String(bda.page)],
    ["63 port of the CRT controller", hex(bda.crtc, 4)], ["84 last row", String(bda.lastRow)],
    ["85 scan lines of a character", String(bda.height)],
  ];
}

/** The panel of BIOS data. */
export class BiosPanel {
  constructor(base) {
    Object.assign(this, { table: new PlainTable("BIOS data", SUBJECTS), said: element("span") });
    const link = pageLink(base, "SERVICES.md", "the-bios-data", "What changes them");
    const hint = element("p", { className: "hint" },
      "Offsets are those of the data area at segment 0040. ", link, ".", this.said);
    this.root = element("div", {}, hint, this.table.made);
  }

  made({ session, before, after }) {
    const none = after.hasMode ? "" : " No mode is set yet, so all of them are 0.";
    setText(this.said, session.isCall ? " A call changes them after its last cycle." : none);
    this.table.fill(rowsOfStates(before, after, biosRows));
    return this.root;
  }
}
