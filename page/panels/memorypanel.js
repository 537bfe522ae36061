// The four planes, as bitmaps at the pitch of the offset register and as hexadecimal.
import { classesOf, element, selectOf, setAll, setText } from "../common/dom.js";
import { counted, differingWord, grouped, hex, wordsOfBytes } from "../common/bytes.js";
import { changedPlanes } from "../run/changes.js";
import { isWritten } from "../common/rows.js";
import { rowBytes } from "../run/state.js";
import { shownBytes } from "../explain/frame.js";

const PLANE_SIZE = 65536, WORDS = PLANE_SIZE / 4, NOTHING = new Uint8Array(PLANE_SIZE);
const WIDEST_PITCH = 2040, HEX_ROWS = 16, HEX_COLUMNS = 16, USUAL_PITCH = 80;
const COLOURS = { on: 0xffffffff, off: 0xff000000, shownOff: 0xff4a2a14, hiddenOn: 0xff8a8a8a,
  changedOn: 0xff44c3f6, changedOff: 0xff104a6a };
/**
 * Of each byte, the words of its dots, the highest bits first, where those with a one and those without look so.
 * A dot stands for `scale` bits.
 */
const wordsOfDots = (scale, one, zero) => Uint32Array.from({ length: 8 / scale * 256 }, (_, at) => {
  const dots = 8 / scale, byte = Math.floor(at / dots), bits = byte >> scale * (dots - 1 - at % dots);
  return bits & (1 << scale) - 1 ? one : zero;
});
/** By the scale, the words of bytes that are not shown by a frame, of those that are, and of changed ones. */
const DOTS = Object.fromEntries([1, 2].map(scale => [scale, [[COLOURS.hiddenOn, COLOURS.off],
  [COLOURS.on, COLOURS.shownOff], [COLOURS.changedOn, COLOURS.changedOff]]
  .map(([one, zero]) => wordsOfDots(scale, one, zero))]));
/** So many rows of dots that stand as they are part what is put on a canvas at once. */
const APART_ROWS = 8;
const ZOOMS = [["fit", "four planes, to fit"], ["1", "one plane, × 1"], ["2", "one plane, × 2"],
  ["4", "one plane, × 4"]];

/**
 * A plane as a bitmap, of which only what has changed is painted anew. Its dots are bits; or two by two of them, lit
 * where one is 1: so four planes side by side are small, and another pitch costs little.
 */
class PlaneBitmap {
  constructor(plane, heard) {
    const label = `plane ${plane} as a bitmap`;
    this.canvas = element("canvas", { className: "sharp", role: "img", "aria-label": label });
    this.canvas.addEventListener("click", event => {
      const { canvas, pitch, scale } = this, box = canvas.getBoundingClientRect();
      const x = (event.clientX - box.left) * canvas.width * scale / box.width;
      const y = (event.clientY - box.top) * canvas.height * scale / box.height;
      heard(plane, Math.floor(y) * pitch + Math.floor(x / 8));
    });
    this.brush = this.canvas.getContext("2d", { alpha: false });
    /** By the scale, the words of dots, and how many of them something was painted on. */
    this.rooms = {};
    // Marks of the bytes that have changed, and those which stand on the canvas: they take turns.
    this.marks = [new Marks(), new Marks()];
  }

  /** Paints bytes; `shown` has a 1 for each byte that is so, and `found` the numbers of those changed. */
  paint(bytes, shown, found, pitch, scale) {
    if (pitch !== this.pitch || scale !== this.scale) this.shape(pitch, scale);
    const [old, marks] = this.marks = [...this.marks].reverse();
    marks.set(found);
    const pairs = [pairOf(bytes, this.bytes)];
    if (shown !== this.shown) pairs.push(pairOf(shown, this.shown));
    if (found.length || old.found.length) pairs.push(pairOf(marks.bytes, old.bytes));
    this.put(this.paintWords(bytes, shown, marks.bytes, pairs));
    Object.assign(this, { bytes, shown });
  }

  /**
   * Paints the bytes, four at a time, where one of some pairs differs. The rows of the canvas that have some.
   */
  paintWords(bytes, shown, marks, pairs) {
    const { pitch, scale } = this, rows = [];
    for (let word = nextWord(pairs, 0); word < WORDS; word = nextWord(pairs, word + 1)) {
      this.paintWord(4 * word, bytes, shown, marks);
      const row = Math.floor(4 * word / pitch / scale), last = Math.floor((4 * word + 3) / pitch / scale);
      if (rows.at(-1)?.last >= row - APART_ROWS) rows.at(-1).last = Math.max(last, rows.at(-1).last);
      else rows.push({ row, last });
    }
    return rows;
  }

  paintWord(from, bytes, shown, marks) {
    const { bytes: old, scale } = this;
    for (let at = from; at < from + 4; at++) {
      this.used += (bytes[at] ? 1 : 0) - (old[at] ? 1 : 0);
      if (scale === 1) this.paintDots(at, bytes[at], marks[at] ? 2 : shown[at]);
      else this.paintPair(at, bytes, shown, marks);
    }
  }

  /** Paints the dots of a byte together with those of the one above or below. */
  paintPair(at, bytes, shown, marks) {
    const { pitch } = this, row = Math.floor(at / pitch), one = at - (row & 1) * pitch, other = one + pitch;
    const isShown = shown[one] | shown[other], isMarked = marks[one] | marks[other];
    this.paintDots((row >> 1) * pitch + at % pitch, bytes[one] | bytes[other], isMarked ? 2 : isShown);
  }

  paintDots(cell, byte, look) {
    const { words, scale } = this, dots = DOTS[scale][look], count = 8 / scale;
    for (let dot = 0; dot < count; dot++) words[count * cell + dot] = dots[count * byte + dot];
  }

  /** Puts rows of dots on the canvas. */
  put(rows) {
    const { brush, image, image: { width }, room } = this;
    for (const { row, last } of rows) {
      brush.putImageData(image, 0, 0, 0, row, width, last + 1 - row);
      room.end = Math.max(room.end, width * (last + 1));
    }
  }

  /** Clears the canvas: on it stand bytes of which all are 0, none is shown and none has a mark. */
  shape(pitch, scale) {
    const width = 8 * pitch / scale, height = Math.ceil(PLANE_SIZE / pitch / scale);
    Object.assign(this.canvas, { width, height });
    // A last row may go on behind the bytes.
    const length = 8 * (PLANE_SIZE + scale * WIDEST_PITCH) / scale / scale;
    const room = this.rooms[scale] ??= { words: new Uint32Array(length), end: length }, { words } = room;
    words.fill(COLOURS.off, 0, room.end);
    room.end = 0;
    this.marks[1].set([]);
    Object.assign(this, { pitch, scale, room, words, bytes: NOTHING, shown: NOTHING, used: 0,
      image: new ImageData(new Uint8ClampedArray(words.buffer, 0, 4 * width * height), width, height) });
  }
}

/** Bytes that are to be painted, and those that are, four at a time; and the next word in which they differ. */
function pairOf(now, old) {
  return { now: wordsOfBytes(now), old: wordsOfBytes(old), next: -1 };
}

/** The first word from one on in which one of some pairs differs. */
function nextWord(pairs, from) {
  for (const pair of pairs) if (pair.next < from) pair.next = differingWord(pair.now, pair.old, from);
  return Math.min(WORDS, ...pairs.map(({ next }) => next));
}

/** Of each byte of a plane, whether it has a mark. */
class Marks {
  constructor() {
    Object.assign(this, { bytes: new Uint8Array(PLANE_SIZE), found: [] });
  }

  /** Marks these bytes, and no others. */
  set(found) {
    for (const at of this.found) this.bytes[at] = 0;
    for (const at of found) this.bytes[at] = 1;
    this.found = found;
  }
}

/** A plane's bitmap below what is said of it. */
class PlaneFigure {
  constructor(plane, heard) {
    Object.assign(this, { plane, bitmap: new PlaneBitmap(plane, heard), said: element("figcaption") });
    this.made = element("figure", {}, this.said,
      element("div", { className: "scroll" }, this.bitmap.canvas));
  }

  show(bytes, shown, found, pitch, scale) {
    this.bitmap.paint(bytes, shown, found, pitch, scale);
    const used = counted(this.bitmap.used, "byte");
    const said = `plane ${this.plane}: ${used} not 0, ${grouped(found.length)} changed`;
    setText(this.said, said);
    setAll(this.said, { title: said });
  }
}

/** The table of bytes as hexadecimal. */
class HexTable {
  constructor() {
    this.caption = element("caption");
    this.rows = Array.from({ length: HEX_ROWS }, () => {
      const head = element("th", { scope: "row" });
      return { head, cells: Array.from({ length: HEX_COLUMNS }, () => ({ key: -1, made: element("td") })) };
    });
    const rows = this.rows.map(({ head, cells }) => element("tr", {}, head,
      ...cells.map(cell => cell.made)));
    this.made = element("table", { className: "hex" }, this.caption, element("tbody", {}, ...rows));
    this.marked = null;
    this.cells = this.rows.flatMap(({ cells }) => cells);
    this.cells.forEach(({ made }, i) => { made.tabIndex = i ? -1 : 0; });
    this.made.addEventListener("keydown", event => this.pressed(event));
  }

  /** Arrows go from byte to byte. */
  pressed(event) {
    const far = { ArrowLeft: -1, ArrowRight: 1, ArrowUp: -HEX_COLUMNS,
      ArrowDown: HEX_COLUMNS }[event.key];
    const at = this.cells.findIndex(({ made }) => made === event.target);
    if (far === undefined || at < 0) return;
    event.preventDefault();
    event.stopPropagation();
    const next = this.cells[at + far]?.made;
    if (!next) return;
    event.target.tabIndex = -1;
    next.tabIndex = 0;
    next.focus();
  }

  /** Marks the byte at a place of the table, and scrolls the panel so that it is in sight. */
  mark(at) {
    this.marked?.classList.remove("marked");
    this.marked = this.rows[Math.floor(at / HEX_COLUMNS)].cells[at % HEX_COLUMNS].made;
    this.marked.classList.add("marked");
    this.marked.scrollIntoView({ block: "nearest", inline: "nearest" });
  }

  /** Names what each cell is asked about. */
  name(plane, offset) {
    if (isWritten(this, plane, offset)) return;
    this.cells.forEach(({ made }, i) => {
      made.dataset.subject = `byte ${plane} ${hex(offset + i, 4)}`;
    });
  }

  show(plane, offset, bytes, before, shown) {
    this.marked?.classList.remove("marked");
    this.marked = null;
    this.name(plane, offset);
    setText(this.caption, `Plane ${plane} from ${hex(offset, 4)}: bytes on blue are shown`);
    this.rows.forEach(({ head, cells }, row) => {
      const from = offset + HEX_COLUMNS * row;
      setText(head, hex(from, 4));
      cells.forEach((cell, i) => {
        const byte = bytes[from + i], old = before[from + i], isShown = shown[from + i];
        const key = byte | old << 8 | isShown << 16, { made } = cell, isChanged = byte !== old;
        if (cell.key === key) return;
        cell.key = key;
        setText(made, hex(byte, 2));
        setAll(made, { className: classesOf(!byte && "zero", isShown && "shown", isChanged && "changed"),
          title: isChanged ? `${hex(old, 2)} before the last step` : "" });
      });
    });
  }
}

/** The panel of memory, which keeps the plane, the offset and the zoom that are looked at. */
export class MemoryPanel {
  constructor() {
    Object.assign(this, { plane: 0, offset: 0, zoom: "fit" });
    this.figures = [0, 1, 2, 3].map(plane => new PlaneFigure(plane, (chosen, offset) => {
      this.plane = chosen;
      this.lookAt(offset);
    }));
    this.hint = element("p", { className: "hint" });
    this.box = element("div", {}, ...this.figures.map(figure => figure.made));
    this.table = new HexTable();
    this.root = element("div", { className: "memory" }, this.controls(), this.hint, this.box,
      element("div", { className: "scroll" }, this.table.made));
  }

  /** The panel for what is seen. */
  made(seen) {
    const { registers } = seen.after, own = rowBytes(registers);
    this.seen = seen;
    this.pitch = own || USUAL_PITCH;
    // Where they don't change, they stay the same list: then bitmaps need not look through them.
    const { crtc, seq, attr, gfx } = registers;
    const key = [...crtc, seq[1], attr[16], attr[19], gfx[5] & 64, gfx[6] & 1].join();
    if (key !== this.shownBy) Object.assign(this, { shownBy: key, shown: shownBytes(seen.after) });
    this.changed = changedPlanes(seen.before, seen.after);
    this.fill();
    return this.root;
  }

  fill() {
    setText(this.hint, this.hintText());
    this.jump.disabled = this.changed.every(found => !found.length);
    setAll(this.planes, { value: String(this.plane) });
    setAll(this.place, { value: hex(this.offset, 4) });
    this.fillFigures();
    const { before, after } = this.seen, { plane, offset, shown } = this;
    this.table.show(plane, offset, after.plane(plane), before.plane(plane), shown);
  }

  hintText() {
    const own = rowBytes(this.seen.after.registers);
    const pitch = own ? `${own} bytes a row, as the offset register says`
      : `${USUAL_PITCH} bytes a row, since the offset register is 0`;
    const dots = this.zoom === "fit" ? "A dot for two by two bits, lit where one is 1" : "A dot for each bit";
    return `${dots}, ${pitch}. Blue ground: shown by a frame with these registers; yellow: changed by the last ` +
      "step. Click to see the bytes.";
  }

  controls() {
    const planes = [0, 1, 2, 3].map(plane => [plane, `plane ${plane}`]),
      zooms = selectOf("zoom of the bitmaps", ZOOMS);
    this.planes = selectOf("plane", planes, { id: "plane" });
    this.planes.addEventListener("change", () => {
      this.plane = Number(this.planes.value);
      this.fill();
    });
    zooms.id = "planezoom";
    zooms.addEventListener("change", () => {
      this.zoom = zooms.value;
      this.fill();
    });
    const label = "offset, hexadecimal";
    this.place = element("input", { id: "offset", size: 5, maxLength: 4, "aria-label": label });
    this.place.addEventListener("change", () => this.lookAt(parseInt(this.place.value, 16) || 0));
    const by = (title, says, rows) => element("button", { type: "button", title: says, "aria-label": says,
      onclick: () => this.look(this.offset + HEX_COLUMNS * rows) }, title);
    this.jump = element("button", { type: "button", onclick: () => this.lookAtChange() }, "to the change");
    return element("div", { className: "bar" }, this.planes, zooms,
      element("label", {}, "offset ", this.place),
      by("▲", "16 rows up", -HEX_ROWS), by("▼", "16 rows down", HEX_ROWS), this.jump);
  }

  lookAtChange() {
    this.plane = this.changed.findIndex(found => found.length > 0);
    this.lookAt(this.changed[this.plane][0]);
  }

  /** Shows a byte of the plane, and marks it. */
  lookAt(offset) {
    const at = Math.max(0, Math.min(PLANE_SIZE - 1, offset));
    this.look(at);
    this.table.mark(at - this.offset);
  }

  look(offset) {
    this.offset = Math.max(0, Math.min(PLANE_SIZE - HEX_ROWS * HEX_COLUMNS, offset & ~15));
    this.fill();
  }

  fillFigures() {
    const isOne = this.zoom !== "fit", zoom = Number(this.zoom);
    setAll(this.box, { className: classesOf("planes", isOne && "one") });
    this.figures.forEach((figure, plane) => {
      const { made, bitmap: { canvas } } = figure, isPicked = plane === this.plane;
      setAll(made, { hidden: isOne && !isPicked, className: isPicked ? "picked" : "" });
      if (made.hidden) return;
      figure.show(this.seen.after.plane(plane), this.shown, this.changed[plane], this.pitch, isOne ? 1 : 2);
      setAll(canvas.style, { width: isOne ? canvas.width * zoom + "px" : "" });
    });
  }
}
