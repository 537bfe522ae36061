// A picture of another adapter, as PNG, beside the picture that the page shows.
import { Trouble } from "../common/trouble.js";
import { codesOfBytes, grouped } from "../common/bytes.js";
import { crcOf } from "../picture/png.js";
import { pictureOfBytes } from "./dots.js";

/** A picture of more dots is not decoded. */
const MOST_DOTS = 1 << 24;
const SIZE_AT = 16, SIGNATURE_LENGTH = 8, CHUNK_HEAD = 8, CRC_LENGTH = 4;
const DAMAGED = "This PNG is cut off or damaged.";

/** A Trouble unless all chunks of a PNG are whole: browsers decode some that are not. */
function checkChunks(bytes, view) {
  for (let at = SIGNATURE_LENGTH, name = ""; name !== "IEND";) {
    const body = at + CHUNK_HEAD, end = body <= bytes.length ? body + view.getUint32(at) : Infinity;
    if (end + CRC_LENGTH > bytes.length) throw new Trouble(DAMAGED);
    const named = bytes.subarray(body - 4, end);
    if (crcOf(named) !== view.getUint32(end)) throw new Trouble(DAMAGED);
    name = codesOfBytes(named.subarray(0, 4));
    at = end + CRC_LENGTH;
  }
}

/**
 * The size of a PNG: { width, height }. A Trouble if it has more dots than are compared, or is
 * damaged.
 */
export function sizeOfPng(bytes) {
  const view = new DataView(bytes.buffer, bytes.byteOffset, bytes.length);
  checkChunks(bytes, view);
  const [width, height] = [0, 4].map(at => view.getUint32(SIZE_AT + at));
  if (!width || !height) throw new Trouble("This PNG has no dot.");
  if (width * height > MOST_DOTS) {
    throw new Trouble(`This PNG has ${grouped(width)} × ${grouped(height)} dots, and ` +
      `${grouped(MOST_DOTS)} are the most that are compared.`);
  }
  return { width, height };
}

/** The picture of a PNG's bytes, as its file has the colours: the browser decodes it. */
async function decoded(bytes) {
  const { width, height } = sizeOfPng(bytes);
  try {
    const image = await createImageBitmap(new Blob([bytes], { type: "image/png" }),
      { colorSpaceConversion: "none", premultiplyAlpha: "none" });
    const canvas = Object.assign(document.createElement("canvas"), { width, height });
    const brush = canvas.getContext("2d", { willReadFrequently: true });
    brush.drawImage(image, 0, 0);
    return pictureOfBytes(width, height, brush.getImageData(0, 0, width, height).data);
  } catch (error) {
    throw new Trouble(`The browser can't decode this PNG: ${error.message}.`);
  }
}

/** A picture of another adapter, which is beside each step that is shown. */
export class OtherPicture {
  differences = [];
  count = 0;
  note = "";
  summary = "";
  isPicture = true;
  #picture;

  constructor(name, picture) {
    this.name = name;
    this.#picture = picture;
  }

  static async opened(name, bytes) {
    return new OtherPicture(name, await decoded(bytes));
  }

  pictureAt() {
    return this.#picture;
  }

  /** There is nothing to compare but what is shown. */
  * compare() {}
}
