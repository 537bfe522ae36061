// What the page is given: the module, the fonts, the examples, and parts of the documentation.
import { bytesOfBase64, throughStream } from "./bytes.js";

const MOST_UNPACKED = 1 << 26;

/** The bytes of a text that is base64 of gzip. */
export function unzipped(text) {
  return throughStream(bytesOfBase64(text), new DecompressionStream("gzip"), MOST_UNPACKED);
}

/** A value that stands in the data as it is, or as JSON that is packed. */
export async function unpackedJson(value) {
  return typeof value === "string" ? JSON.parse(new TextDecoder().decode(await unzipped(value)))
    : value;
}

/** The examples: a list of { name, about, text }. */
export function examplesOf({ examples }) {
  return unpackedJson(examples);
}
