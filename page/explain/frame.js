// What a frame shows, line by line, as the adapter's own card goes through it: where each line
// begins, which bytes of the planes it shows, and the rows of text.
import { PLANE_SIZE } from "../../javascript/zaklimot.js";
import { characterWidth } from "../run/state.js";
import { dotFields } from "./dotfields.js";
import { isDisplayed } from "./way.js";

/** The registers by which the last frame was looked at, and what was seen. */
let last = { key: "", beams: [] };

/** What decides where the lines of a frame begin. */
const keyOf = ({ crtc, seq }) => [...crtc, ...seq].join();

/** The beams at the first dots of a frame's displayed lines, if the registers stay those of a state. */
export function displayedBeams(state) {
  const key = keyOf(state.registers);
  if (last.key !== key) last = { key, beams: beamsOf(state) };
  return last.beams;
}

function beamsOf(state) {
  const { scratch } = state, { toFrame, lineDots, lines } = scratch.clock(), found = [];
  scratch.advance(toFrame);
  for (let line = 0; line < lines && isDisplayed(scratch, { line, character: 0, dot: 0 }); line++) {
    // The start address is taken at the frame's first dot, and told after it.
    scratch.advance(1);
    found.push({ ...scratch.beam(), character: 0, dot: 0 });
    scratch.advance(lineDots - 1);
  }
  return found;
}

/** How many characters a line displays. */
export function charactersOf({ card, registers }) {
  const all = card.clock().lineDots / characterWidth(registers);
  let count = 0;
  while (count < all && isDisplayed(card, { line: 0, character: count, dot: 0 })) count++;
  return count;
}

/** The first dots of so many characters, as [character, dot]. */
const firstDots = count => Array.from({ length: count }, (_, character) => [character, 0]);

/** Of each byte of a plane, whether a frame with a state's registers shows it. */
export function shownBytes(state) {
  const shown = new Uint8Array(PLANE_SIZE), seen = new Set(), beams = displayedBeams(state);
  const { card } = state, count = charactersOf(state), last = characterWidth(state.registers) - 1;
  // A picture that is panned shows a part of one character more.
  const dots = [...firstDots(count), [count - 1, last]];
  for (const beam of beams) {
    const key = 2 * beam.base + beam.split;
    if (seen.has(key)) continue;
    seen.add(key);
    for (const [address] of dotFields(card, { ...beam, line: 1 }, dots, ["address"])) shown[address] = 1;
  }
  return shown;
}

/**
 * The rows of text of a frame: { lines, cells }, how many scan lines a row has, and of each cell
 * { counter, address, character, attribute, glyph }, the last its glyph's first byte in plane 2.
 */
export function textRows(state) {
  const rows = [], dots = firstDots(charactersOf(state));
  let row = null;
  for (const beam of displayedBeams(state)) {
    const { base, scan } = beam;
    if (!row || base !== row.base || scan < row.lines - 1) {
      rows.push(row = { base, lines: 0, cells: cellsIn(state, beam, dots) });
    }
    row.lines = Math.max(row.lines, scan + 1);
  }
  return rows;
}

const CELL = ["counter", "address", "character", "attribute", "glyphAddress"];

function cellsIn(state, beam, dots) {
  return dotFields(state.card, { ...beam, line: 1 }, dots, CELL)
    .map(([counter, address, character, attribute, glyphAddress]) =>
      ({ counter, address, character, attribute, glyph: glyphAddress - beam.scan }));
}
