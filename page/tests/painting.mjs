// The words of a picture's dots, and where lists of words differ, against plain ways to find the same.
import assert from "node:assert/strict";
import test from "node:test";
import { differingWord, sameWords } from "../common/bytes.js";
import { paintDots } from "../picture/screen.js";
import { Random } from "./randomly.mjs";

const SHADES = [0, 8, 16].map(shift => Uint32Array.from({ length: 64 }, (_, six) => 4 * six + 3 << shift));
const random = new Random(17);

/** Colours of dots, most of which are those of the dot before. */
function colours(count) {
  const rgb = new Uint8Array(3 * count);
  for (let dot = 0; dot < count; dot++) {
    const own = dot && random.below(8) ? rgb.slice(3 * dot - 3, 3 * dot) : [0, 1, 2].map(() => random.below(64));
    rgb.set(own, 3 * dot);
  }
  return rgb;
}

function plainly(rgb, from, count) {
  return Array.from({ length: count }, (_, dot) => SHADES.reduce((word, shade, part) =>
    (word | shade[rgb[from + 3 * dot + part]]) >>> 0, 0xff000000));
}

test("dots have their colours, wherever they begin and however many they are", () => {
  const whole = colours(100), words = new Uint32Array(120);
  for (let place = 0; place < 8; place++) {
    const rgb = new Uint8Array(whole.buffer, place);
    for (let count = 0; count <= 40; count++) {
      const from = 3 * random.below(40), to = random.below(9);
      words.fill(7);
      paintDots(words, to, rgb, from, count, SHADES);
      const wanted = new Uint32Array(120).fill(7);
      wanted.set(plainly(rgb, from, count), to);
      assert.deepEqual(words, wanted, `${count} dots from ${place + from} on`);
    }
  }
});

test("the first word that differs is found, from any place to any other", () => {
  for (let round = 0; round < 3000; round++) {
    const length = random.below(30), one = Uint32Array.from({ length }, () => random.below(3)), other = one.slice();
    for (let changes = random.below(3); changes && length; changes--) other[random.below(length)] ^= 5;
    const from = random.below(length + 1), to = from + random.below(length + 1 - from);
    const found = [...one.keys()].find(at => at >= from && at < to && one[at] !== other[at]) ?? to;
    assert.equal(differingWord(one, other, from, to), found, `${one} ${other} ${from} ${to}`);
    assert.equal(sameWords(one, other), one.every((word, at) => word === other[at]));
    const ahead = random.below(4), apart = Uint32Array.from([...new Uint8Array(ahead), ...other]);
    assert.equal(differingWord(one, apart, from, to, ahead), found);
  }
});
