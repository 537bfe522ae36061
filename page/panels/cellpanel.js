// The cells of text that the adapter shows, with their characters' glyphs in plane 2.
import { LETTERS_437 } from "../common/codepage.js";
import { characterWidth, dacEntry } from "../run/state.js";
import { textRows } from "../explain/frame.js";
import { element, setAll, setText } from "../common/dom.js";
import { hex, sameWords, wordsOfBytes } from "../common/bytes.js";
import { widened } from "../picture/png.js";

const GLYPH_WIDTH = 8;
/** Of more rows the first are shown. */
const MOST_ROWS = 128;
/** Bits of what a cell shows: the cursor, and a change by the last step. */
const CURSOR = 1 << 16, CHANGED = 1 << 17;
// The colours of a cell whose own are alike, so that its character can be read.
const ALIKE = [0xff909090, 0xff303030];

/** The cells of a state: rows of { character, attribute, address, glyph, isCursor }. */
export function cellsOf(state) {
  const { crtc } = state.registers, cursor = crtc[10] & 32 ? -1 : 256 * crtc[14] + crtc[15];
  return textRows(state).map(({ lines, cells }) =>
    ({ lines, cells: cells.map(cell => ({ ...cell, isCursor: cell.counter === cursor })) }));
}

function drawCell(words, width, left, top, lines, { attribute, glyph }, { glyphs, colours, hasBlink }) {
  const [own, ground] = [colours[attribute & 15], colours[attribute >> 4 & (hasBlink ? 7 : 15)]];
  const [ink, paper] = own === ground ? ALIKE : [own, ground];
  for (let y = 0; y < lines; y++) {
    const byte = glyphs[glyph + y], at = (top + y) * width + left;
    for (let x = 0; x < GLYPH_WIDTH; x++) words[at + x] = byte >> 7 - x & 1 ? ink : paper;
  }
}

/** What the drawing of cells takes from the registers. */
function cellColours(state) {
  const { registers } = state;
  const word = four => {
    const [red, green, blue] = state.colour(dacEntry(registers, four)).map(widened);
    return 0xff000000 | blue << 16 | green << 8 | red;
  };
  return { glyphs: state.plane(2), colours: Array.from({ length: 16 }, (_, four) => word(four)),
    hasBlink: Boolean(registers.attr[16] & 8), maps: registers.seq[3] };
}

/** The panel of cells, whose canvas is painted where a cell differs from what it shows. */
export class CellPanel {
  constructor() {
    this.canvas = element("canvas", { className: "cells sharp", role: "img" });
    this.told = element("output", { className: "told" });
    this.hint = element("p", { className: "hint" },
      "The adapter shows graphics: bit 0 of miscellaneous, graphics controller 6, is 1.");
    this.brush = this.canvas.getContext("2d", { alpha: false });
    this.canvas.addEventListener("pointermove", event => this.tell(event));
    this.canvas.tabIndex = 0;
    this.canvas.addEventListener("focus", () => this.pick(this.picked.row, this.picked.column));
    this.canvas.addEventListener("keydown", event => this.pressed(event));
    this.canvas.addEventListener("blur", () => { this.mark.hidden = true; });
    this.mark = element("div", { className: "cellpick", hidden: true });
    this.picked = { row: 0, column: 0 };
    const box = element("div", { className: "cellframe" }, this.canvas, this.mark);
    this.root = element("div", { className: "cellbox" }, box, this.told);
  }

  made({ before, after }) {
    if (after.registers.gfx[6] & 1) return this.hint;
    const rows = cellsOf(after).slice(0, MOST_ROWS);
    let high = 0;
    for (const row of rows) [row.top, high] = [high, high + row.lines];
    this.rows = rows;
    this.shape(Math.max(1, GLYPH_WIDTH * (rows[0]?.cells.length ?? 0)), Math.max(1, high));
    const drawing = cellColours(after), old = this.isOther(drawing) ? [] : this.keys;
    const last = before === after ? null : { codes: before.plane(0), attributes: before.plane(1) };
    this.keys = rows.map(row => keysOf(row, last));
    const others = rows.filter((_, i) => !isSameList(this.keys[i], old[i]));
    if (others.length) this.drawRows(others, drawing);
    this.describe(after.registers);
    return this.root;
  }

  shape(width, height) {
    const { canvas } = this;
    if (canvas.width === width && canvas.height === height && this.image) return;
    Object.assign(canvas, { width, height });
    this.image = new ImageData(width, height);
    this.words = new Uint32Array(this.image.data.buffer);
  }

  /** Whether all cells are to be painted: rows, colours or glyphs are not those of what is painted. */
  isOther(drawing) {
    const { colours, hasBlink, maps } = drawing, { width, height } = this.canvas;
    const look = [width, height, ...this.rows.map(row => row.lines), ...colours, hasBlink, maps].join();
    const glyphs = wordsOfBytes(drawing.glyphs);
    const isSame = look === this.look && sameWords(glyphs, this.glyphs);
    Object.assign(this, { look, glyphs });
    return !isSame;
  }

  /** Paints rows in which a cell differs from what stands on the canvas. */
  drawRows(others, drawing) {
    const { rows, image, brush } = this, [first] = others, last = others.at(-1);
    for (const row of others) this.drawRow(row, drawing);
    brush.putImageData(image, 0, 0, 0, first.top, image.width, last.top + last.lines - first.top);
    // What stands between them was put there too, and had marks.
    for (const row of rows) if (row.top >= first.top && row.top <= last.top) this.markRow(row);
  }

  drawRow(row, drawing) {
    const { rows, keys, image: { width }, words } = this, { cells, top, lines } = row, i = rows.indexOf(row);
    const isCopy = i && rows[i - 1].lines === lines && isSameList(keys[i], keys[i - 1]);
    // Most rows of many screens are blank.
    if (isCopy) return words.copyWithin(top * width, (top - lines) * width, top * width);
    for (const [column, cell] of cells.entries()) {
      drawCell(words, width, GLYPH_WIDTH * column, top, lines, cell, drawing);
    }
  }

  /** Frames the cursor, and the cells that have changed. */
  markRow(row) {
    const { brush } = this, { top, lines } = row;
    this.keys[this.rows.indexOf(row)].forEach((key, column) => {
      if (key < CURSOR) return;
      brush.strokeStyle = key & CHANGED ? "#f6c344" : "#4a90d9";
      brush.lineWidth = 2;
      brush.strokeRect(GLYPH_WIDTH * column + 1, top + 1, GLYPH_WIDTH - 2, Math.max(2, lines - 2));
    });
  }

  /** Tells what the panel shows, for who does not see it too. */
  describe(registers) {
    const { rows } = this, size = `${rows.length} rows of ${rows[0]?.cells.length ?? 0} cells`;
    const lines = rows.map(row => row.cells.map(cell => LETTERS_437[cell.character]).join("").trimEnd());
    const ariaLabel = `${size}: ${lines.filter(line => line).join(" / ").slice(0, 2000)}`;
    setAll(this.canvas, { ariaLabel });
    setText(this.told, `${size}, ${characterWidth(registers)} dots wide. ` +
      "Yellow: changed by the last step; blue: the cursor; grey: both colours are alike.");
  }

  /** Tells the cell under the pointer. */
  tell(event) {
    const { canvas, rows } = this, box = canvas.getBoundingClientRect();
    const y = (event.clientY - box.top) * canvas.height / box.height;
    const row = rows.findLastIndex(({ top }) => top <= y);
    const column = Math.floor((event.clientX - box.left) * canvas.width / box.width / GLYPH_WIDTH);
    this.pick(row, column);
    this.mark.hidden = true;
  }

  /** Arrows go from cell to cell, and a frame shows which one is told. */
  pressed(event) {
    const far = { ArrowLeft: [0, -1], ArrowRight: [0, 1], ArrowUp: [-1, 0],
      ArrowDown: [1, 0] }[event.key];
    if (!far) return;
    event.preventDefault();
    event.stopPropagation();
    const { row, column } = this.picked;
    this.pick(row + far[0], column + far[1]);
    this.frame();
  }

  /** Tells a cell, which can be asked about then. */
  pick(row, column) {
    const cell = this.rows[row]?.cells[column];
    if (!cell) return;
    this.picked = { row, column };
    const { character, attribute, address } = cell;
    this.canvas.dataset.subject = `cell ${hex(address, 4)}`;
    setText(this.told,
      `row ${row}, column ${column}: character ${hex(character, 2)} ${LETTERS_437[character]}, ` +
      `attribute ${hex(attribute, 2)}, at ${hex(address, 4)} of planes 0 and 1`);
  }

  /** Frames the cell that is told. */
  frame() {
    const { canvas, rows, mark, picked: { row, column } } = this, part = (size, of) =>
      `${100 * size / of}%`;
    Object.assign(mark.style, { left: part(GLYPH_WIDTH * column, canvas.width),
      width: part(GLYPH_WIDTH, canvas.width), top: part(rows[row].top, canvas.height),
      height: part(rows[row].lines, canvas.height) });
    mark.hidden = false;
  }
}

/** Whether two lists have the same numbers; one of them may not be there. */
function isSameList(one, other) {
  return other?.length === one.length && one.every((value, i) => value === other[i]);
}

/** What a row's cells show, but for colours and glyphs: a number each. */
function keysOf({ cells }, before) {
  return cells.map(({ character, attribute, address, isCursor }) => {
    const isChanged = before !== null &&
      (before.codes[address] !== character || before.attributes[address] !== attribute);
    return character | attribute << 8 | (isCursor ? CURSOR : 0) | (isChanged ? CHANGED : 0);
  });
}
