// What a file is that is no script's text: by its first bytes, and by letters of two bytes.
import { said } from "./said.js";
import { WORDINGS } from "./wordings.js";

const ofFile = (which, values) => said("files", which, values);

/** What is wrong with a text as a whole that its first line shows; null where nothing is found. */
export function encodingTrouble(bytes) {
  if (frontIs(bytes, [0x56, 0x47, 0x41, 0x53])) return ofFile("bytes");
  if (isUtf16(bytes)) return ofFile("UTF-16");
  if (frontIs(bytes, [0xef, 0xbb, 0xbf])) return ofFile("byte order mark");
  const none = notAScript(bytes);
  if (none) return none;
  // Carriage returns before the first word and behind the last one are blanks.
  const isOfWord = byte => byte > 32;
  const words = bytes.slice(bytes.findIndex(isOfWord), bytes.findLastIndex(isOfWord) + 1);
  return !bytes.includes(10) && words.includes(13) ? ofFile("carriage returns") : null;
}

// Files of other kinds, by what they begin with.
const FOREIGN = WORDINGS.foreign.map(([front, what]) =>
  [front.match(/../g).map(byte => parseInt(byte, 16)), what]);
const FONT_BYTES = 9728, LOOKED_AT = 200;
const frontIs = (bytes, front) => front.every((byte, i) => bytes[i] === byte);
const isControl = byte => byte < 32 && (byte < 9 || byte > 13);

/** What a file is that is neither a text nor bytes of a script; null where it may be one. */
export function notAScript(bytes) {
  const foreign = FOREIGN.find(([front]) => frontIs(bytes, front));
  if (foreign) return ofFile("foreign", { what: foreign[1] });
  if (!bytes.subarray(0, LOOKED_AT).some(isControl)) return null;
  if (bytes.length !== FONT_BYTES) return ofFile("no text");
  return ofFile("foreign", { what: ofFile("font file") });
}

/**
 * Whether each other byte of a file's front is 0, as of letters of two bytes, and the others are a
 * text.
 */
function isUtf16(bytes) {
  const begin = frontIs(bytes, [0xff, 0xfe]) || frontIs(bytes, [0xfe, 0xff]) ? 2 : 0;
  const front = bytes.subarray(begin, begin + LOOKED_AT);
  return [0, 1].some(place => {
    const high = front.filter((_, i) => i % 2 === place);
    const low = front.filter((_, i) => i % 2 !== place);
    const isSome = high.length > 0 && low.length > 0;
    return isSome && high.every(byte => byte === 0) && !low.some(isControl);
  });
}

