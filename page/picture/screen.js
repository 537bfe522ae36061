// The picture as it is drawn so far. What is not drawn yet is dark, cross-hairs show the beam, a
// glass dots.
import { byId, cssColour, element, setAll } from "../common/dom.js";
import { characterWidth } from "../run/state.js";
import { dotOfSeen } from "../explain/dotsearch.js";
import { lineOfDot } from "../explain/dotrows.js";
import { differingWord, hex, wordsOfBytes } from "../common/bytes.js";
import { widened } from "./png.js";

/** The register of the graphics controller that says whether it is text, and its bit; what is as good as whole. */
const MISCELLANEOUS = 6, GRAPHICS = 1, NEARLY = 0.004;
const DARK = 0.32, GLASS_DOTS = 15, GLASS_SCALE = 10;

/** The lines of a picture that have dots: { line, width, drawn, from }, and the widest. */
function linesOf(picture) {
  if (picture.isWhole) {
    const { width, height } = picture;
    const rows = Array.from({ length: height },
      (_, line) => ({ line, width, drawn: width, from: 3 * line * width }));
    return { rows, width, height };
  }
  const rows = [];
  let from = 0, widest = 1;
  picture.widths.forEach((width, line) => {
    if (width) rows.push({ line, width, drawn: picture.drawn[line], from });
    from += 3 * width;
    widest = Math.max(widest, width);
  });
  return { rows, width: widest, height: Math.max(1, rows.length) };
}

/**
 * The words of colours of six bits, shifted to their place, and the same of dots that are not drawn
 * yet.
 */
const wordsOf = share => [0, 8, 16].map(shift =>
  Uint32Array.from({ length: 64 }, (_, six) => Math.round(widened(six) * share) << shift));
const LIGHT = wordsOf(1), DIMMED = wordsOf(DARK);

/** Paints dots, one after the other. */
function paintSingly(words, to, rgb, from, count, [reds, greens, blues]) {
  for (let at = 0; at < count; at++, from += 3) {
    words[to + at] = 0xff000000 | blues[rgb[from + 2]] | greens[rgb[from + 1]] | reds[rgb[from]];
  }
}

/** Paints four dots at a time, whose colours are three words. Most look as the four before them. */
function paintFours(words, to, colours, [reds, greens, blues]) {
  let [first, second, third] = [-1, -1, -1], one = 0, two = 0, three = 0, four = 0;
  for (let at = 0, place = to; at < colours.length; at += 3, place += 4) {
    if (colours[at] !== first || colours[at + 1] !== second || colours[at + 2] !== third) {
      [first, second, third] = [colours[at], colours[at + 1], colours[at + 2]];
      one = 0xff000000 | reds[first & 63] | greens[first >> 8 & 63] | blues[first >> 16 & 63];
      two = 0xff000000 | reds[first >> 24] | greens[second & 63] | blues[second >> 8 & 63];
      three = 0xff000000 | reds[second >> 16 & 63] | greens[second >> 24] | blues[third & 63];
      four = 0xff000000 | reds[third >> 8 & 63] | greens[third >> 16 & 63] | blues[third >> 24];
    }
    words[place] = one;
    words[place + 1] = two;
    words[place + 2] = three;
    words[place + 3] = four;
  }
}

/**
 * Paints so many dots, whose colours begin at a place of `rgb`, as words from a place on. `shades` has the words of
 * each red, green and blue.
 */
export function paintDots(words, to, rgb, from, count, shades) {
  const begin = rgb.byteOffset + from;
  // A dot has three bytes, and words begin at multiples of four: after so many dots one does.
  const ahead = Math.min(count, begin % 4), fours = count - ahead >> 2, end = ahead + 4 * fours;
  paintSingly(words, to, rgb, from, ahead, shades);
  if (fours) paintFours(words, to + ahead, new Uint32Array(rgb.buffer, begin + 3 * ahead, 3 * fours), shades);
  paintSingly(words, to + end, rgb, from + 3 * end, count - end, shades);
}

/**
 * Whether a row of dots looks as another one, as far as the words of their pictures tell. Dots that stand in one word
 * with theirs count too, and rows are held to be others where their words begin apart: painting them does no harm.
 */
function isSameRow(row, words, old, oldWords) {
  const ahead = (old.from - row.from) / 4, end = Math.ceil((row.from + 3 * row.width) / 4);
  return old.width === row.width && old.light === row.light && ahead % 1 === 0 && end <= words.length &&
    differingWord(words, oldWords, row.from >> 2, end, ahead) === end;
}

/**
 * The picture on its stage. `heard` has `clicked(line, dot)`, and `asked()`, for Enter where the
 * picture has the keys.
 */
export class Screen {
  /** What is shown, as a session tells it. */
  seen = null;
  stage = byId("stage");
  canvas = byId("picture");
  glass = byId("glass");
  brush = this.canvas.getContext("2d", { alpha: false });
  /** The room of the stage, in pixels. */
  room = { width: 0, height: 0 };
  pointer = null;
  /** How many pixels a dot has; 0: as many as there is room for. */
  scale = 0;
  /** How many pictures stand side by side. */
  pictures = 1;

  constructor(heard) {
    this.heard = heard;
    this.glass.width = this.glass.height = GLASS_DOTS * GLASS_SCALE;
    for (const name of ["aspect", "sharp", "sofar", "hairs", "zoom"]) {
      byId(name).addEventListener("change", () => this.draw());
    }
    this.canvas.addEventListener("pointermove", event => this.point(this.placeOf(event)));
    this.canvas.addEventListener("pointerleave", () => this.point(null));
    this.canvas.addEventListener("click", event => {
      // A click's place is rounded to a pixel, and the dot that is told was that of the pointer's
      // own place.
      const { pointer } = this, { clientX, clientY } = event;
      const isNear = pointer &&
        Math.hypot(pointer.clientX - clientX, pointer.clientY - clientY) < 2;
      const found = this.dotAt(isNear ? pointer : this.placeOf(event));
      if (found) heard.clicked(found.row.line, found.x);
    });
    this.canvas.addEventListener("keydown", event => {
      if (event.key !== "Enter" && event.key !== " ") return;
      event.preventDefault();
      heard.asked();
    });
    new ResizeObserver(([{ contentRect: { width, height } }]) => {
      this.room = { width, height };
      this.shape();
    }).observe(this.stage);
  }

  /**
   * Shows what is seen. Answers the dots of the picture before, which nothing needs any longer; or
   * null.
   */
  show(seen) {
    const old = this.painted?.rgb ?? null;
    this.seen = seen;
    this.draw();
    return old === seen.picture.rgb ? null : old;
  }

  draw() {
    if (!this.seen) return;
    const { picture } = this.seen, shape = linesOf(picture);
    this.isSoFar = byId("sofar").checked && !picture.isWhole && picture.isBegun;
    for (const row of shape.rows) {
      row.light = this.isSoFar ? Math.min(row.drawn, row.width) : row.width;
    }
    this.rows = shape.rows;
    this.paint(shape, picture.rgb);
    setAll(this.canvas, { ariaLabel: this.description() });
    this.shape();
    this.drawHairs();
    this.point(this.pointer);
  }

  /** Paints the rows that do not stand on the canvas yet. */
  paint({ rows, width, height }, rgb) {
    const { canvas } = this;
    if (canvas.width !== width || canvas.height !== height || !this.image) this.resize(width, height);
    const { painted: old, words } = this, dots = wordsOfBytes(rgb);
    let first = height, last = -1;
    for (let y = 0; y < rows.length; y++) {
      if (old.rows[y] && isSameRow(rows[y], dots, old.rows[y], old.dots)) continue;
      // Many rows look as the one above, which is sooner seen than they are painted.
      const at = y * width, isCopy = y && isSameRow(rows[y], dots, rows[y - 1], dots);
      if (isCopy) words.copyWithin(at, at - width, at);
      else this.paintRow(words.subarray(at, at + width), rows[y], rgb);
      first = Math.min(first, y);
      last = y;
    }
    this.painted = { rows, dots, rgb };
    if (last >= 0) this.brush.putImageData(this.image, 0, 0, 0, first, width, last + 1 - first);
  }

  /** Gives the canvas another size. Its dots are made in the same memory where that is long enough. */
  resize(width, height) {
    const length = width * height, { words } = this;
    Object.assign(this.canvas, { width, height });
    const { buffer } = words?.buffer.byteLength >= 4 * length ? words : new Uint32Array(length);
    this.words = new Uint32Array(buffer, 0, length);
    this.image = new ImageData(new Uint8ClampedArray(buffer, 0, 4 * length), width, height);
    this.painted = { rows: [] };
  }

  paintRow(words, { from, light, width }, rgb) {
    paintDots(words, 0, rgb, from, light, LIGHT);
    paintDots(words, light, rgb, from + 3 * light, width - light, DIMMED);
    words.fill(0xff000000, width);
  }

  /** The picture in words, for who does not see it. */
  description() {
    const { canvas, seen } = this, { beam } = seen.after;
    const size = `picture of ${canvas.width} by ${canvas.height} dots`;
    return this.isSoFar ? `${size}, drawn to line ${beam.line}, dot ${this.beamPlace().x}` : size;
  }

  /** Gives each dot so many pixels, or with 0 as many as there is room for. */
  setScale(scale) {
    this.scale = scale;
    if (this.seen) this.shape();
  }

  /** Makes room for so many pictures, one beside the other. */
  setPictures(count) {
    if (count === this.pictures) return;
    this.pictures = count;
    if (this.seen) this.shape();
  }

  /** How wide the picture stands, whose width is so many times its height. */
  widthFor(ratio) {
    const { canvas, room } = this;
    const isFilling = !this.scale || document.fullscreenElement === this.stage;
    return isFilling ? Math.min(room.width / this.pictures, room.height * ratio)
      : this.scale * canvas.width;
  }

  /** Shapes the picture on its stage: as a monitor of 4:3 shows it, or with square dots. */
  shape() {
    const { canvas } = this;
    const ratio = byId("aspect").checked ? 4 / 3 : canvas.width / canvas.height;
    const wide = this.widthFor(ratio);
    const width = Math.floor(wide) * this.pictures + "px", height = Math.floor(wide / ratio) + "px";
    setAll(byId("frame").style, { width, height });
    const scales = [wide * devicePixelRatio / canvas.width, wide / ratio * devicePixelRatio / canvas.height];
    byId("frame").classList.toggle("sharp", byId("sharp").checked && this.canBeSharp(scales));
  }

  /**
   * Whether a picture may have hard edges at these scales. They would drop dots of one that stands smaller than it is,
   * and make stems of letters uneven that are not a whole number of pixels wide.
   */
  canBeSharp(scales) {
    const isText = this.seen && !(this.seen.after.registers.gfx[MISCELLANEOUS] & GRAPHICS);
    return scales.every(scale => scale >= 1 - NEARLY && (!isText || Math.abs(scale - Math.round(scale)) < NEARLY));
  }

  beamPlace() {
    const { after } = this.seen, { beam, registers } = after;
    return { line: beam.line, x: beam.character * characterWidth(registers) + beam.dot };
  }

  drawHairs() {
    const { canvas, rows, seen } = this, { line, x } = this.beamPlace();
    const y = rows.findIndex(row => row.line >= line), isOn = byId("hairs").checked &&
      !seen.picture.isWhole && rows.length > 0;
    const hairs = [byId("hair-x"), byId("hair-y"), byId("ring")];
    for (const hair of hairs) setAll(hair, { hidden: !isOn });
    if (!isOn) return;
    const top = `${100 * ((y < 0 ? rows.length : y) + 0.5) / canvas.height}%`,
      left = `${100 * (Math.min(x, canvas.width) + 0.5) / canvas.width}%`;
    hairs[0].style.left = left;
    hairs[1].style.top = top;
    Object.assign(hairs[2].style, { left, top });
    hairs[2].classList.toggle("outside", x >= canvas.width || y < 0);
  }

  /**
   * Where a pointer is on the canvas: { clientX, clientY, right, down }, the last two as parts of
   * it.
   */
  placeOf({ clientX, clientY }) {
    const box = this.canvas.getBoundingClientRect();
    return { clientX, clientY, right: (clientX - box.left) / box.width,
      down: (clientY - box.top) / box.height };
  }

  /** The dot under a pointer: { row, x, y, colour }; null outside. */
  dotAt({ right, down }) {
    const x = Math.floor(right * this.canvas.width), y = Math.floor(down * this.canvas.height);
    const row = this.rows?.[y];
    if (!row || x < 0 || x >= row.width) return null;
    const at = row.from + 3 * x;
    return { row, x, y, colour: Array.from(this.seen.picture.rgb.subarray(at, at + 3)) };
  }

  /** Tells the dot under the pointer, and shows it in the glass. */
  point(pointer) {
    this.pointer = pointer;
    const found = pointer && this.seen && this.dotAt(pointer);
    const isOn = Boolean(found) && byId("zoom").checked;
    setAll(this.glass, { hidden: !isOn });
    if (isOn) this.drawGlass(found);
    if (found) this.describe(found);
    else byId("dot").replaceChildren();
  }

  /** Tells a dot: its line, its colour, and in text its cell. */
  describe(found) {
    const { row: { line, drawn }, x, colour } = found;
    const swatch = element("span", { className: "swatch" });
    swatch.style.background = cssColour(colour);
    const isDark = this.isSoFar && x >= drawn ? ", not drawn yet" : "";
    const digits = colour.map(six => hex(six, 2)).join(" ");
    byId("dot").replaceChildren(swatch,
      ` dot ${x} of line ${line}: ${digits}${isDark}${this.wayOf(found)}`);
  }

  /** Where a dot comes from, in words behind others. */
  wayOf({ row: { line }, x: dot }) {
    if (this.seen.isGlimpse) return "";
    const found = dotOfSeen(this.seen, { line, dot });
    return found ? ` · ${lineOfDot(found, { line, dot })}` : "";
  }

  /** The dot under the pointer, as { line, dot }; null if the pointer is elsewhere. */
  get pointed() {
    const found = this.pointer && this.seen && this.dotAt(this.pointer);
    return found ? { line: found.row.line, dot: found.x } : null;
  }

  /** The colour of a dot of the picture, six bits a component; null if it has no such dot. */
  colourAt(line, dot) {
    const row = this.rows?.find(one => one.line === line);
    if (!row || !(dot >= 0 && dot < row.width)) return null;
    const at = row.from + 3 * dot;
    return Array.from(this.seen.picture.rgb.subarray(at, at + 3));
  }

  /** Where a dot stands in the window, or would stand. */
  placeOfDot(line, dot) {
    const { left, top, width, height } = this.canvas.getBoundingClientRect();
    const y = Math.max(0, this.rows?.findIndex(row => row.line >= line) ?? 0);
    return { x: left + width * Math.min(1, (dot + 0.5) / this.canvas.width),
      y: top + height * (y + 0.5) / this.canvas.height };
  }

  /** The dots round the pointer, large. */
  drawGlass({ x, y }) {
    const brush = this.glass.getContext("2d");
    const half = GLASS_DOTS >> 1, side = GLASS_DOTS * GLASS_SCALE;
    brush.imageSmoothingEnabled = false;
    brush.fillStyle = "#000";
    brush.fillRect(0, 0, side, side);
    brush.drawImage(this.canvas, x - half, y - half, GLASS_DOTS, GLASS_DOTS, 0, 0, side, side);
    brush.strokeStyle = "#f0f";
    const edge = half * GLASS_SCALE + 0.5;
    brush.strokeRect(edge, edge, GLASS_SCALE - 1, GLASS_SCALE - 1);
    this.glass.classList.toggle("left", x > this.canvas.width / 2);
  }
}
