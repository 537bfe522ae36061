// Numbers and bytes as text, and back.

/** A number in upper-case hexadecimal, with at least so many digits. */
export function hex(value, digits) {
  return value.toString(16).toUpperCase().padStart(digits, "0");
}

/** A number with a comma between thousands. */
export function grouped(value) {
  return String(value).replace(/\B(?=(\d{3})+$)/g, ",");
}

/** A count and what is counted: "1 step", "3 steps". */
export function counted(count, noun) {
  return `${grouped(count)} ${noun}${count === 1 ? "" : "s"}`;
}

/** The bytes of hexadecimal digits, two each. */
export function bytesOfHex(digits) {
  return Uint8Array.from(digits.match(/../g) ?? [], two => parseInt(two, 16));
}

/** The bytes of a text of characters below 256. */
export function bytesOfCodes(text) {
  return Uint8Array.from(text, letter => letter.charCodeAt(0));
}

/** The text of bytes, a character each. */
export function codesOfBytes(bytes) {
  let text = "";
  for (let at = 0; at < bytes.length; at += 8192) text += String.fromCharCode(
    ...bytes.subarray(at, at + 8192));
  return text;
}

/** The bytes of a base64 text, also of the alphabet for addresses. */
export function bytesOfBase64(text) {
  return bytesOfCodes(atob(text.replace(/-/g, "+").replace(/_/g, "/")));
}

/** Bytes as base64 of the alphabet for addresses, with nothing to fill up. */
export function base64OfBytes(bytes) {
  return btoa(codesOfBytes(bytes)).replace(/\+/g, "-").replace(/\//g, "_").replace(/=+$/, "");
}

/** Parts, one after the other. */
export function joinedBytes(parts) {
  const joined = new Uint8Array(parts.reduce((sum, part) => sum + part.length, 0));
  let at = 0;
  for (const part of parts) {
    joined.set(part, at);
    at += part.length;
  }
  return joined;
}

/** What a stream makes of bytes. `most` is how many bytes it may give; more are an error. */
export async function throughStream(bytes, stream, most = Infinity) {
  const reader = new Blob([bytes]).stream().pipeThrough(stream).getReader(), parts = [];
  let length = 0;
  for (;;) {
    const { done, value } = await reader.read();
    if (done) return joinedBytes(parts);
    parts.push(value);
    length += value.length;
    if (length > most) {
      await reader.cancel();
      throw new RangeError(`it unpacks to more than ${grouped(most)} bytes`);
    }
  }
}

/** The 32-bit words of bytes that begin at a multiple of four and are so many. */
export function wordsOfBytes(bytes) {
  return new Uint32Array(bytes.buffer, bytes.byteOffset, bytes.length >> 2);
}

/**
 * The first place from one on at which two lists of words differ; `to` where none before that does. The place of a
 * word in the other list is `ahead` more.
 */
export function differingWord(one, other, from = 0, to = one.length, ahead = 0) {
  const lastFour = to - 4;
  let at = from;
  while (at < to && one[at] === other[at + ahead]) {
    // Four words at a time take half as long.
    const place = at + ahead, areFour = at <= lastFour && one[at + 1] === other[place + 1] &&
      one[at + 2] === other[place + 2] && one[at + 3] === other[place + 3];
    at += areFour ? 4 : 1;
  }
  return at;
}

/** Whether two lists of as many words are the same. */
export function sameWords(one, other) {
  return differingWord(one, other) === one.length;
}
