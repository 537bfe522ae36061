// Two pictures, dot by dot. A picture is { width, height, rgb }: red, green and blue of each dot in
// six bits, as the DAC has them.
import { counted } from "../common/bytes.js";
import { widened } from "../picture/png.js";

/** A picture may be so many times as wide or as high as the other. */
const MOST_TIMES = 4;
const TIMES = ["", "", "twice", "three times", "four times"];

/** The ways in which adapters widen six bits to eight, by name; the first that fits is taken. */
const WIDENINGS = [
  { rule: "c<<2 | c>>4", widen: widened },
  { rule: "c<<2", widen: six => six << 2 },
  { rule: "255·c/63", widen: six => Math.round(255 * six / 63) },
];
const NO_RULE = "none";

/**
 * The rule by which bytes were widened from six bits, or "none"; `isUsed` tells which there are.
 */
function wideningOf(isUsed) {
  const fits = ({ widen }) => {
    const made = new Set(Array.from({ length: 64 }, (_, six) => widen(six)));
    return isUsed.every((used, byte) => !used || made.has(byte));
  };
  return WIDENINGS.find(fits)?.rule ?? NO_RULE;
}

/**
 * The picture of dots of four bytes each, red, green, blue and alpha, as a PNG has them. The upper
 * six bits of a byte are those of the DAC by each rule of widening. `widening` names the rule.
 */
export function pictureOfBytes(width, height, bytes) {
  const rgb = new Uint8Array(3 * width * height), isUsed = new Array(256).fill(false);
  for (let dot = 0, to = 0; dot < width * height; dot++) {
    for (let part = 0; part < 3; part++) {
      const byte = bytes[4 * dot + part];
      isUsed[byte] = true;
      rgb[to++] = byte >> 2;
    }
  }
  return { width, height, rgb, widening: wideningOf(isUsed) };
}

/** What is to be said of a rule of widening; an empty text for the page's own. */
export function wideningNote(widening) {
  if (!widening || widening === WIDENINGS[0].rule) return "";
  if (widening === NO_RULE) {
    return "Its colours are not those of six bits widened by one rule. " +
      "The upper six bits are compared.";
  }
  return `It widens six bits to eight by ${widening}, and this page by ${WIDENINGS[0].rule}. ` +
    "The six bits are compared.";
}

/**
 * Which dot of the other picture stands where each dot of this one does, along one axis: { map,
 * times }, or null if no size is a small multiple of the other. `times` is negative if the other
 * picture is smaller.
 */
function axisOf(own, other) {
  const isLarger = other >= own, times = isLarger ? other / own : own / other;
  if (!Number.isInteger(times) || times > MOST_TIMES) return null;
  const map = Uint32Array.from({ length: own }, (_, at) =>
    (isLarger ? at * times + (times >> 1) : Math.floor(at / times)));
  return { map, times: isLarger ? times : -times };
}

/** How much larger or smaller the other picture is along an axis, in words; "" for as large. */
function timesText(times, [larger, smaller]) {
  if (Math.abs(times) === 1) return "";
  return times > 0 ? `${TIMES[times]} as ${larger}` : `${TIMES[-times]} as ${smaller}`;
}

function scalingNote(across, down) {
  const wide = timesText(across.times, ["wide", "narrow"]);
  const parts = [wide, timesText(down.times, ["high", "low"])].filter(part => part);
  return parts.length ? `It is ${parts.join(" and ")}: each dot is compared with the nearest one.`
    : "";
}

const sizeText = ({ width, height }) => `${width} × ${height}`;

/** How two pictures differ, dot by dot. */
export class DotDifference {
  /** How many dots differ, and of each dot whether it does. */
  count = 0;
  mask;
  /** The first dot that differs of each line that has one, as { x, y }. */
  places = [];
  /** Why the pictures can't be compared, in a sentence; "" if they can. */
  trouble = "";
  /** How they were compared, in sentences. */
  note = "";
  #map;

  constructor(own, other) {
    this.own = own;
    this.other = other;
    this.mask = new Uint8Array(own.width * own.height);
    const across = axisOf(own.width, other.width), down = axisOf(own.height, other.height);
    if (!across || !down) {
      this.trouble = `The pictures differ in size: here ${sizeText(own)} dots, ` +
        `there ${sizeText(other)}.`;
      return;
    }
    this.#map = { across: across.map, down: down.map };
    this.note = [scalingNote(across, down), wideningNote(other.widening)]
      .filter(text => text).join(" ");
    for (let y = 0; y < own.height; y++) this.#compareLine(y);
  }

  #compareLine(y) {
    const { own, other, mask } = this, { across, down } = this.#map;
    let from = 3 * own.width * y, isFirst = true;
    const line = 3 * other.width * down[y];
    for (let x = 0; x < own.width; x++, from += 3) {
      const at = line + 3 * across[x];
      if (own.rgb[from] === other.rgb[at] && own.rgb[from + 1] === other.rgb[at + 1] &&
        own.rgb[from + 2] === other.rgb[at + 2]) continue;
      mask[own.width * y + x] = 1;
      this.count++;
      if (isFirst) this.places.push({ x, y });
      isFirst = false;
    }
  }

  /** The colours of a dot, here and there. */
  coloursAt({ x, y }) {
    const { own, other } = this, { across, down } = this.#map;
    const colour = (rgb, dot) => Array.from(rgb.subarray(3 * dot, 3 * dot + 3));
    return [colour(own.rgb, own.width * y + x),
      colour(other.rgb, other.width * down[y] + across[x])];
  }

  /** What came of it, in a few words. */
  get summary() {
    if (this.trouble) return this.trouble;
    const { width, height } = this.own;
    const verb = this.count === 1 ? "differs" : "differ";
    return this.count ? `${counted(this.count, "dot")} of ${width} × ${height} ${verb}.`
      : `All ${width} × ${height} dots are the same.`;
  }
}

const SAME_SHARE = 0.28, DIFFERING = 0xffff2bff, OPAQUE = 0xff000000;
/** Dots so near to one that differs are tinted, so that it is seen in a small picture too. */
const HALO = 2, HALO_COLOUR = 0xff8a178a;

/** The words of a picture's dots, four bytes each, as an ImageData has them. */
export function wordsOfPicture({ rgb, width, height }) {
  const words = new Uint32Array(width * height);
  for (let dot = 0, at = 0; dot < words.length; dot++, at += 3) {
    words[dot] = OPAQUE | widened(rgb[at + 2]) << 16 | widened(rgb[at + 1]) << 8 | widened(rgb[at]);
  }
  return words;
}

/** The same of a difference: dots that differ stand out of the picture, which is dark. */
export function wordsOfDifference({ own, mask }) {
  const words = wordsOfPicture(own), dark = Uint8Array.from({ length: 256 },
    (_, byte) => Math.round(byte * SAME_SHARE));
  for (let dot = 0; dot < words.length; dot++) {
    const word = words[dot];
    words[dot] = OPAQUE | dark[word >> 16 & 255] << 16 | dark[word >> 8 & 255] << 8 |
      dark[word & 255];
  }
  mask.forEach((differs, dot) => { if (differs) tintRound(words, own, dot); });
  mask.forEach((differs, dot) => { if (differs) words[dot] = DIFFERING; });
  return words;
}

function tintRound(words, { width, height }, dot) {
  const x = dot % width, y = Math.floor(dot / width), to = Math.min(width, x + HALO + 1);
  for (let line = Math.max(0, y - HALO); line <= Math.min(height - 1, y + HALO); line++) {
    words.fill(HALO_COLOUR, line * width + Math.max(0, x - HALO), line * width + to);
  }
}
