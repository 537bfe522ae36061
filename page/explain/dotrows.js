// What the page tells of a dot, in words: on the line below the pointer, and as rows of its card.
// Where the dot comes from, zak_explain_dot tells.
import { LETTERS_437 } from "../common/codepage.js";
import { addressOf } from "./address.js";
import { characterWidth, rowShape } from "../run/state.js";
import { grouped, hex } from "../common/bytes.js";

const PLANES = [0, 1, 2, 3];

/** How sure the page is of what it tells, by `how` of `dotOfSeen`. */
export const HOW_TEXTS = {
  drawn: "by the registers as they were when the last step drew it",
  then: "by the registers as they were when it was drawn",
  ahead: "by the registers as they stand: the dot is not drawn yet",
  now: "by the registers as they stand: an earlier step drew it",
  changed: "after the step that changed it, at the place of memory from which it is drawn later",
};

const coloursText = colour => colour.map(six => hex(six, 2)).join(" ");

/** What makes a dot: glyphs of text, the bits of four planes, or bytes of 256 colours. */
export function kindOf({ isText, hasPalette }) {
  return isText ? "text" : hasPalette ? "16 colours" : "256 colours";
}

/** The bit of a byte that a dot of a character shows; the ninth dot has none of its own. */
const bitOf = dot => (dot < 8 ? 128 >> dot : 0);

/**
 * The bytes that a dot is made of: { plane, offset, byte, bits, what } each; `bits` are those that
 * count. `enabled` has a bit for each plane that the palette sees.
 */
export function bytesOfDot(source, enabled) {
  const { address, glyphAddress, glyphRow, dot, bytes, isGlyphDot } = source, kind = kindOf(source);
  const byte = (plane, bits, what) => ({ plane, offset: address, byte: bytes[plane], bits, what });
  if (kind === "text") {
    const bits = bitOf(dot) || (isGlyphDot ? 1 : 0);
    return [byte(0, 255, "character"), byte(1, 255, "attribute"),
      { plane: 2, offset: glyphAddress, byte: glyphRow, bits, what: "glyph" }];
  }
  // Each byte of 256 colours has two dots.
  if (kind === "256 colours") return dot > 7 ? [] : [byte(dot >> 1, 255, "colour")];
  return PLANES.map(plane => byte(plane, enabled >> plane & 1 ? bitOf(dot) : 0, "bits"));
}

/**
 * The pixel of the screen that a dot of the picture belongs to, and how many dots it is wide and
 * high.
 */
export function pixelOf(registers, kind, line, dot) {
  const { lines, isDoubled } = rowShape(registers);
  const across = kind === "256 colours" && characterWidth(registers) === 8 ? 2 : 1;
  const down = (kind === "text" ? 1 : lines) * (isDoubled ? 2 : 1);
  return { x: Math.floor(dot / across), y: Math.floor(line / down), across, down };
}

/**
 * The row and column of a text's cell; the row is null where the counter is in none of the frame's
 * rows.
 */
export function cellOf(registers, { counter }, { base, split }) {
  const { pitch, start } = rowShape(registers), from = split ? 0 : start;
  const row = pitch ? (base - from & 65535) / pitch : 0;
  return { row: Number.isInteger(row) ? row : null, column: counter - base & 65535 };
}

/** The bit that counts, if it is one. */
const bitText = bits => (bits && bits !== 255 ? `, bit ${Math.log2(bits)}` : "");

/** A byte of a dot: its plane, its value, and the bit that counts if they don't all. */
function byteText({ plane, byte, bits, what }) {
  return `plane ${plane} ${hex(byte, 2)}${what === "bits" ? bitText(bits) : ` (${what})`}`;
}

/** The palette register and what it makes, in words. */
function paletteText({ attr }, { nibble, paletteRegister, paletteValue, number }) {
  const masked = paletteRegister === nibble ? "" : ` & ${hex(attr[18] & 15, 1)}`;
  return `${hex(nibble, 1)}${masked} → palette ${hex(paletteRegister, 1)} = ` +
    `${hex(paletteValue, 2)} → number ${hex(number, 2)}`;
}

/** What gives a dot its colour. */
export function colourBy({ isScreenOff, isPaletteShown, hasPalette }) {
  return isScreenOff ? "screen off" : !isPaletteShown ? "overscan" : hasPalette ? "palette" : "byte";
}

/** Where the colour's number comes from, in words. */
function numberText(registers, source) {
  const by = colourBy(source), number = hex(source.number, 2);
  if (by === "screen off") return "none: the screen is off (clocking mode bit 5)";
  if (by === "overscan") return `${number}: overscan, since the palette address source is 0`;
  return by === "byte" ? `${number}, the byte` : paletteText(registers, source);
}

/** What makes a dot of text ink or ground. */
function ruleText({ isCursor, isBlinkedAway, isUnderlined, isGlyphDot, isForeground, dot }) {
  const is = isForeground ? "ink" : "ground";
  if (isCursor) return `${is}: the cursor`;
  if (isBlinkedAway) return `${is}: it blinks, and is off in this frame`;
  if (isUnderlined) return `${is}: the underline`;
  if (dot < 8) return is;
  return `${is}: the ninth dot ${isGlyphDot ? "repeats the eighth" : "is ground"}`;
}

/** The cell of a dot of text, in words. */
function cellText(registers, source, beam) {
  const { row, column } = cellOf(registers, source, beam), { character, attribute } = source;
  return `row ${row ?? "none"}, column ${column}, character ${hex(character, 2)} ` +
    `${LETTERS_437[character]}, attribute ${hex(attribute, 2)}`;
}

/** The host's addresses of a dot's bytes, in words. */
function addressesText(state, bytes) {
  const found = bytes.map(({ plane, offset }) => addressOf(state, plane, offset));
  const known = [...new Set(found.filter(one => one !== null))];
  return known.map(one => hex(one, 5)).join(", ") || "none: no window leads there";
}

function entryText({ isScreenOff, entry, number, mask, colour }) {
  if (isScreenOff) return coloursText(colour);
  const masked = number === entry ? "" : `${hex(number, 2)} & mask ${hex(mask, 2)} = `;
  return `${masked}${hex(entry, 2)}: ${coloursText(colour)}`;
}

/**
 * The rows of a dot's card: [name, value] each. `found` is what `dotOfSeen` or a search tells of
 * it, `place` its line and dot, and `shown` its colour in the picture, if it has one there. After
 * `drawnBy` steps it was drawn, if `how` is "then".
 */
export function rowsOfDot({ state, source, beam, how, drawnBy }, place, shown = null) {
  const { registers } = state, kind = kindOf(source), bytes = bytesOfDot(source, registers.attr[18]);
  const pixel = pixelOf(registers, kind, place.line, place.dot);
  const size = pixel.across * pixel.down > 1 ? `, of ${pixel.across} × ${pixel.down} dots` : "";
  const counted = bytes.filter(({ what }) => what !== "glyph");
  const rows = [["dot", `${place.dot} of line ${place.line}, frame ${beam.frame}`],
    ["pixel", `${pixel.x}, ${pixel.y}${size}`],
    ["made by", `${kind}${source.panning ? `, panned by ${source.panning}` : ""}` +
      `${beam.split ? ", below the line compare" : ""}`]];
  if (source.isText) rows.push(["cell", cellText(registers, source, beam)]);
  rows.push(["address", addressesText(state, counted)],
    ["offset", `${hex(source.address, 4)} of the planes, counter ${hex(source.counter, 4)}`],
    ["bytes", counted.map(byteText).join(", ") || "none: the ninth dot is 0"]);
  if (source.isText) {
    const [glyph] = bytes.filter(({ what }) => what === "glyph");
    rows.push(["glyph", `row ${beam.scan} of map ${source.map}: plane 2 ` +
      `${hex(glyph.offset, 4)} is ${hex(glyph.byte, 2)}${bitText(glyph.bits)}`],
    ["it is", ruleText(source)]);
  }
  rows.push(["colour", numberText(registers, source)], ["DAC entry", entryText(source)]);
  if (shown && coloursText(shown) !== coloursText(source.colour)) {
    const why = how === "changed" ? ": the frame of this step shows something else there"
      : ", since something changed after it was drawn";
    rows.push(["but shown", `${coloursText(shown)}${why}`]);
  }
  const by = how === "then" ? `, by step ${grouped(drawnBy)}` : "";
  return [...rows, ["told", HOW_TEXTS[how] + by]];
}

/** The same in one line, for a pointer. */
export function lineOfDot({ state: { registers }, source, beam, how }, place) {
  const kind = kindOf(source), pixel = pixelOf(registers, kind, place.line, place.dot), parts = [];
  if (pixel.across * pixel.down > 1) parts.push(`pixel ${pixel.x}, ${pixel.y}`);
  const { isText, address, glyphAddress, character, attribute, nibble, paletteValue, entry } = source;
  if (isText) {
    const { row, column } = cellOf(registers, source, beam);
    parts.push(`cell of row ${row ?? "none"}, column ${column}: character ${hex(character, 2)}, ` +
      `attribute ${hex(attribute, 2)}`, `glyph row ${beam.scan} at ${hex(glyphAddress, 4)}`);
  }
  const values = bytesOfDot(source, registers.attr[18]).map(({ plane, byte }) =>
    `${plane}:${hex(byte, 2)}`).join(" ");
  parts.push(`offset ${hex(address, 4)}${isText ? "" : `, planes ${values || "none"}`}`);
  const by = colourBy(source);
  parts.push(by === "palette" ? `${hex(nibble, 1)} → palette ${hex(paletteValue, 2)} → DAC ${hex(entry, 2)}`
    : by === "screen off" ? "the screen is off" : `${by} → DAC ${hex(entry, 2)}`);
  if (how === "now") parts.push("as the registers stand");
  return parts.join(" · ");
}
