// The structs of include/zaklimot.h as they lie in the module's memory: tables of their fields.
// tests/header.mjs holds the tables to the header.
import { inRange } from "./errors.js";

/** The fields of a struct: [its name in the header, bytes, how many]. */
const field = (name, bytes = 1, count = 1) => ({ name, bytes, count, own: camelled(name), isFlag: IS.test(name) });
/** A field that says yes or no. */
const IS = /^(is|has|ends)_|_is_/;
/** A field that is a struct of bytes itself. */
const structField = (name, struct) => ({ ...field(name, 1, STRUCTS[struct].length), struct });

function camelled(name) {
  return name.replace(/_(\w)/g, (_, letter) => letter.toUpperCase());
}

/** The structs by their names in the header. */
export const STRUCTS = {
  zak_timing: [
    field("to_frame", 4), field("to_display", 4), field("to_retrace", 4), field("line_dots", 4),
    field("frame_dots", 4), field("lines", 4), field("rate", 4), field("rate_divisor", 4),
  ],
  zak_size: [field("width", 4), field("height", 4)],
  zak_picture: [field("width", 4), field("height", 4), field("across", 4), field("down", 4)],
  zak_rows: [field("first", 4), field("count", 4)],
  zak_palette: [field("len", 4), field("colours", 4, 256)],
  zak_scan_line: [field("number", 4), field("width", 4), field("ends_frame")],
  zak_regs: [field("ax", 2), field("bx", 2), field("cx", 2), field("dx", 2)],
  zak_source: [field("len", 8), field("is_at_dx")],
  zak_registers: [
    field("misc"), field("seq_index"), field("seq", 1, 5), field("crtc_index"),
    field("crtc", 1, 25), field("gfx_index"), field("gfx", 1, 9), field("attr_index"), field("attr_is_data"),
    field("attr", 1, 21), field("dac_index"), field("dac_component"), field("dac_mask"),
    field("dac_waiting_red"), field("dac_waiting_green"),
  ],
  zak_colour: [field("red"), field("green"), field("blue")],
  zak_beam: [
    field("line", 2), field("character", 2), field("dot", 2), field("base", 2), field("scan", 2),
    field("rows", 2), field("frame"), field("half"), field("split"),
  ],
  zak_latches: [field("plane", 1, 4)],
  zak_bda: [
    field("columns", 2), field("size", 2), field("start", 2), field("cursor_places", 2, 8),
    field("cursor_type", 2), field("crtc_address", 2), field("height", 2), field("mode"), field("page"),
    field("last_row"),
  ],
  zak_screen: [
    field("width", 4), field("height", 4), field("columns", 2), field("rows", 2), field("mode"),
    field("is_text"), field("page"), field("pages"),
  ],
  zak_cell: [field("character"), field("attribute")],
  zak_place: [field("row"), field("column")],
  zak_reason: [field("status", 4), field("kind", 4), field("numbers", 4, 5), field("is_high")],
  zak_write_stages: [
    field("in_window", 2), field("offset", 2), field("write_mode"), field("rotated"),
    field("data", 1, 4), field("combined", 1, 4), field("mask"), field("planes"),
    field("before", 1, 4), field("written", 1, 4),
  ],
  zak_read_stages: [
    field("in_window", 2), field("offset", 2), field("loaded", 1, 4), field("is_compare"),
    field("plane"), field("value"),
  ],
  zak_mistake: [field("line", 8), field("start", 8), field("length", 8), field("kind", 4)],
};
STRUCTS.zak_dot_source = [
  field("counter", 2), field("address", 2), field("glyph_address", 2), field("is_display"),
  field("panning"), field("dot"), field("bytes", 1, 4), field("is_text"), field("character"),
  field("attribute"), field("map"), field("glyph_row"), field("is_cursor"),
  field("is_blinked_away"), field("is_underlined"), field("is_glyph_dot"), field("is_foreground"),
  field("has_palette"), field("nibble"), field("palette_register"), field("palette_value"),
  field("is_colour_select_wide"), field("middle"), field("high"), field("is_palette_shown"),
  field("number"), field("mask"), field("entry"), field("is_screen_off"),
  structField("colour", "zak_colour"),
];

/**
 * Each field with its place, and how many bytes the struct has: C puts numbers at multiples of
 * their size.
 */
function laidOut(fields) {
  let at = 0, widest = 1;
  const placed = fields.map(one => {
    at = Math.ceil(at / one.bytes) * one.bytes;
    const found = { ...one, at };
    at += one.bytes * one.count;
    widest = Math.max(widest, one.bytes);
    return found;
  });
  return { fields: placed, size: Math.ceil(at / widest) * widest };
}

const LAYOUTS = Object.fromEntries(Object.entries(STRUCTS).map(([name, fields]) =>
  [name, laidOut(fields)]));

/** How many bytes a struct has. */
export function sizeOfStruct(name) {
  return LAYOUTS[name].size;
}

/** Where a field of a struct begins, by its own name. */
export function placeInStruct(name, own) {
  return LAYOUTS[name].fields.find(one => one.own === own).at;
}

/** A number of 1, 2, 4 or 8 bytes at a place of a view. */
function numberAt(view, bytes, at) {
  if (bytes === 1) return view.getUint8(at);
  if (bytes === 2) return view.getUint16(at, true);
  const low = view.getUint32(at, true);
  return bytes === 4 ? low : low + 2 ** 32 * view.getUint32(at + 4, true);
}

const ARRAYS = { 1: Uint8Array, 2: Uint16Array, 4: Uint32Array };

/** The value of a field: a number, a truth, a struct, or an array of its numbers. */
function valueAt(view, { bytes, count, at, isFlag, struct }, begin) {
  const place = begin + at;
  if (struct) return readStruct(struct, view, place);
  if (count === 1) return isFlag ? view.getUint8(place) !== 0 : numberAt(view, bytes, place);
  const found = new ARRAYS[bytes](count);
  for (let i = 0; i < count; i++) found[i] = numberAt(view, bytes, place + bytes * i);
  return found;
}

/** The values of a struct that begins at a place of a view, by their own names. */
export function readStruct(name, view, begin = 0) {
  const found = {};
  for (const one of LAYOUTS[name].fields) found[one.own] = valueAt(view, one, begin);
  return found;
}

/** What reads one field of a number, in a view in which the struct begins at a place. */
export function fieldReader(name, own, begin) {
  const { at, bytes } = LAYOUTS[name].fields.find(one => one.own === own), place = begin + at;
  return view => numberAt(view, bytes, place);
}

/** Writes the numbers of a struct, by their own names; a field that is not given is 0. */
export function writeStruct(name, values, view, begin = 0) {
  for (const { own, at, bytes } of LAYOUTS[name].fields) {
    const value = inRange(own, Number(values[own] ?? 0), 2 ** (8 * bytes) - 1);
    if (bytes === 1) view.setUint8(begin + at, value);
    else if (bytes === 2) view.setUint16(begin + at, value, true);
    else view.setUint32(begin + at, value, true);
  }
}
