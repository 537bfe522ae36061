// Pictures as PNG, and pictures that move: the same forms as
// python/zaklimot/commands/images/png.py writes.
import { Trouble } from "../common/trouble.js";
import { joinedBytes, throughStream } from "../common/bytes.js";

const PNG_SIGNATURE = [0x89, 0x50, 0x4e, 0x47, 13, 10, 26, 10];
const TO_BACKGROUND = 1;
const MOST_FRACTION = 65535, SHORT_PART = 50000, LONG_PART = 100;
const CRC_TABLE = Uint32Array.from({ length: 256 }, (_, byte) => {
  for (let bit = 0; bit < 8; bit++) byte = byte & 1 ? byte >>> 1 ^ 0xedb88320 : byte >>> 1;
  return byte;
});

/** Six bits widened to eight, so that 0 stays 0 and 3F is FF. */
export function widened(six) {
  return six << 2 | six >> 4;
}

/** The cyclic redundancy check of a PNG's chunk, a number of 32 bits. */
export function crcOf(bytes) {
  let crc = -1;
  for (const byte of bytes) crc = CRC_TABLE[(crc ^ byte) & 255] ^ crc >>> 8;
  return ~crc >>> 0;
}

/** A number of four bytes, the highest first. */
function long(value) {
  return [value >>> 24, value >>> 16 & 255, value >>> 8 & 255, value & 255];
}

const short = value => [value >> 8, value & 255];

/** A chunk of a PNG. */
function chunk(kind, ...parts) {
  const data = joinedBytes(parts.map(part => Uint8Array.from(part)));
  const named = joinedBytes([Uint8Array.from(kind, letter => letter.charCodeAt(0)), data]);
  const [length, crc] = [data.length, crcOf(named)].map(value => Uint8Array.from(long(value)));
  return joinedBytes([length, named, crc]);
}

/**
 * The dots of a picture as PNG packs them: of each row a 0, and its dots of eight bits a component.
 */
export async function packedRows({ width, height, rgb }) {
  const rows = new Uint8Array((3 * width + 1) * height);
  for (let y = 0, from = 0, to = 0; y < height; y++) {
    rows[to++] = 0;
    for (let x = 0; x < 3 * width; x++) rows[to++] = widened(rgb[from++]);
  }
  return throughStream(rows, new CompressionStream("deflate"));
}

function head({ width, height }) {
  const size = chunk("IHDR", long(width), long(height), [8, 2, 0, 0, 0]);
  return [Uint8Array.from(PNG_SIGNATURE), size, chunk("sBIT", [6, 6, 6])];
}

/** A picture { width, height, rgb } as PNG. */
export async function pngOf(picture) {
  return joinedBytes([...head(picture), chunk("IDAT", await packedRows(picture)), chunk("IEND")]);
}

/** A picture with black at its right and below, up to a size. */
export function padded({ width, height, rgb }, wide, high) {
  const dots = new Uint8Array(3 * wide * high);
  for (let y = 0; y < height; y++) {
    dots.set(rgb.subarray(3 * width * y, 3 * width * (y + 1)), 3 * wide * y);
  }
  return { width: wide, height: high, rgb: dots };
}

/**
 * Pictures as a PNG that moves; each has `packed` rows and the seconds that it lasts. The first
 * must be as wide and as high as any. Where sizes differ, each picture is taken away before the
 * next one comes.
 */
export function apngOf(frames) {
  const parts = [...head(frames[0]), chunk("acTL", long(frames.length), long(0))];
  const [first] = frames;
  const isOneSize = frames.every(one => one.width === first.width && one.height === first.height);
  let sequence = 0;
  for (const [i, frame] of frames.entries()) {
    const { width, height } = frame;
    if (width > first.width || height > first.height) {
      throw new Trouble(`Frame ${i + 1} is larger than the first.`);
    }
    const part = frame.seconds < 1 ? SHORT_PART : LONG_PART;
    const time = Math.min(MOST_FRACTION, Math.round(frame.seconds * part));
    parts.push(chunk("fcTL", long(sequence++), long(width), long(height), long(0), long(0),
      short(time), short(part), [isOneSize ? 0 : TO_BACKGROUND, 0]));
    parts.push(i ? chunk("fdAT", long(sequence++), frame.packed) : chunk("IDAT", frame.packed));
  }
  return joinedBytes([...parts, chunk("IEND")]);
}
