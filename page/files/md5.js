// MD5 (RFC 1321), by which expected answers name pictures and dumps.
const TURNS = [7, 12, 17, 22, 5, 9, 14, 20, 4, 11, 16, 23, 6, 10, 15, 21];
const SINES = Int32Array.from({ length: 64 },
  (_, i) => Math.floor(Math.abs(Math.sin(i + 1)) * 2 ** 32) | 0);

/** The bytes as words, with the end that MD5 puts there. */
function md5Words(bytes) {
  const padded = new Uint8Array(((bytes.length + 8 >> 6) + 1) * 64);
  const view = new DataView(padded.buffer);
  padded.set(bytes);
  padded[bytes.length] = 128;
  view.setUint32(padded.length - 8, bytes.length * 8, true);
  view.setUint32(padded.length - 4, Math.floor(bytes.length / 2 ** 29), true);
  return new Int32Array(padded.buffer);
}

/** One of the 64 turns: what is mixed of three words, and which word of the block is taken. */
function md5Mixed(round, i, b, c, d) {
  if (round === 0) return [(b & c) | (~b & d), i];
  if (round === 1) return [(d & b) | (~d & c), (5 * i + 1) & 15];
  if (round === 2) return [b ^ c ^ d, (3 * i + 5) & 15];
  return [c ^ (b | ~d), 7 * i & 15];
}

/**
 * The MD5 of bytes, in lower-case hexadecimal: the digest that expected answers have
 * (tools/README.md).
 */
export function md5(bytes) {
  const words = md5Words(bytes);
  const sums = Int32Array.of(0x67452301, 0xefcdab89, 0x98badcfe, 0x10325476);
  for (let at = 0; at < words.length; at += 16) {
    let [a, b, c, d] = sums;
    for (let i = 0; i < 64; i++) {
      const round = i >> 4, [mixed, from] = md5Mixed(round, i, b, c, d);
      const sum = (a + mixed + SINES[i] + words[at + from]) | 0, turn = TURNS[4 * round + i % 4];
      [a, d, c, b] = [d, c, b, (b + (sum << turn | sum >>> 32 - turn)) | 0];
    }
    [a, b, c, d].forEach((sum, i) => { sums[i] += sum; });
  }
  const bytes16 = new Uint8Array(sums.buffer);
  return Array.from(bytes16, byte => byte.toString(16).padStart(2, "0")).join("");
}
