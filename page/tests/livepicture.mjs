// The machine's picture on the canvas: its colours are the adapter's, and only rows that differ are painted.
import assert from "node:assert/strict";
import test from "node:test";
import { WIDEST } from "../../javascript/zaklimot.js";
import { Machine } from "../machine/machine.js";
import { LivePicture } from "../machine/livepicture.js";
import { FONTS, machineParts } from "./loading.mjs";

const SECOND = 1e9, FRAMES = 60;
const { modules, programs } = await machineParts();

globalThis.ImageData ??= class {
  constructor(data, width, height) {
    Object.assign(this, { data, width, height });
  }
};

/** A canvas that keeps what is painted on it. */
class Canvas {
  painted = [];
  getContext() {
    return { putImageData: (image, x, y, left, top, width, height) => {
      this.painted.push({ top, height });
      this.data = image.data;
    } };
  }
}

/** A program's machine after some frames, and the canvas that shows them. */
function shown({ bytes }, { frames = FRAMES, isDrawnOnce = false } = {}) {
  const machine = new Machine(modules, FONTS), canvas = new Canvas(), picture = new LivePicture(canvas);
  machine.isDrawnOnce = isDrawnOnce;
  machine.boot({ program: bytes });
  for (let frame = 0; frame < frames; frame++) {
    machine.runFrame(20 * SECOND);
    picture.draw(machine);
  }
  return { machine, canvas, picture };
}

for (const program of programs) {
  test(`the picture of ${program.name} has the adapter's colours`, () => {
    const { machine: { width, height, pixels, calls }, canvas } = shown(program);
    assert.deepEqual([canvas.width, canvas.height], [width, height]);
    const words = new Uint32Array(calls.memory.buffer, pixels, WIDEST * height), { data } = canvas;
    for (let dot = 0; dot < width * height; dot++) {
      const word = words[WIDEST * Math.floor(dot / width) + dot % width], at = 4 * dot;
      const found = data[at] << 16 | data[at + 1] << 8 | data[at + 2];
      if (found !== (word & 0xffffff) || data[at + 3] !== 255) {
        assert.fail(`dot ${dot} is ${found.toString(16)}, not ${(word & 0xffffff).toString(16)}`);
      }
    }
  });
}

test("blue is blue, and a row that stands there is not painted again", () => {
  const { machine, canvas, picture } = shown(programs.find(({ name }) => name === "hello.com"));
  // Yellow on blue: the string of the video BIOS in row 4, column 10.
  const at = 4 * (canvas.width * 4 * 16 + 9 * 10);
  assert.deepEqual([...canvas.data.subarray(at, at + 4)], [0, 0, 170, 255]);
  const { length } = canvas.painted;
  picture.draw(machine);
  assert.equal(canvas.painted.length, length, "nothing differs");
  const place = machine.pixels / 4 + WIDEST * 100;
  new Uint32Array(machine.calls.memory.buffer)[place] ^= 0xff;
  picture.draw(machine);
  assert.deepEqual(canvas.painted.at(-1), { top: 100, height: 1 });
});

/** Bytes that hexadecimal digits spell. */
const code = digits => Uint8Array.from(digits.match(/[0-9A-F]{2}/gi), byte => parseInt(byte, 16));
/** Sets a mode, writes some of its memory, and goes round for ever. */
const still = mode => code(`B8${mode}00CD10B800A08EC031FFB9007D31C0AB40E2FCEBFE`);

test("a pixel is drawn once, and of a frame that stands still each dot is its pixel's", () => {
  const sizes = { 13: [320, 200, 2, 2], "0D": [320, 200, 1, 2], 12: [640, 480, 1, 1], "03": [720, 400, 1, 1] };
  for (const [mode, [width, height, across, down]] of Object.entries(sizes)) {
    const more = { frames: 90 }, whole = shown({ bytes: still(mode) }, more);
    const once = shown({ bytes: still(mode) }, { ...more, isDrawnOnce: true });
    assert.deepEqual([once.canvas.width, once.canvas.height], [width, height], mode);
    assert.deepEqual([whole.canvas.width, whole.canvas.height], [width * across, height * down], mode);
    const wordsOf = ({ canvas: { data } }) => new Uint32Array(data.buffer, data.byteOffset, data.length / 4);
    const [all, some] = [whole, once].map(wordsOf);
    const differs = all.findIndex((word, dot) => {
      const x = Math.floor(dot % whole.canvas.width / across), y = Math.floor(dot / whole.canvas.width / down);
      return word !== some[width * y + x];
    });
    assert.equal(differs, -1, `mode ${mode}, dot ${differs}`);
    assert.equal(Buffer.compare(whole.machine.savedState(), once.machine.savedState()), 0, mode);
  }
});

test("a picture amid which registers are written is drawn whole, and so are those of a second after it", () => {
  const sizeOf = wanted => {
    const { canvas } = shown(programs.find(({ name }) => name === wanted), { frames: 200, isDrawnOnce: true });
    return [canvas.width, canvas.height];
  };
  assert.deepEqual(sizeOf("bars.com"), [640, 400], "400 colours");
  // It writes colours too, but while no line is seen.
  assert.deepEqual(sizeOf("plasma.com"), [320, 200], "colours between pictures");
  // After half a second, and then each two seconds, the timer has a colour's index written.
  const bytes = code("B81300CD10 BAC803 B90A00 F4E2FD EE B92800 F4E2FD EBF7".replaceAll(" ", ""));
  const { machine, canvas, picture } = shown({ bytes }, { frames: 0, isDrawnOnce: true }), widths = [];
  for (let frame = 0; frame < 300; frame++) {
    machine.runFrame(20 * SECOND);
    picture.draw(machine);
    widths.push(canvas.width);
  }
  const last = widths.lastIndexOf(320), first = widths.indexOf(320);
  assert.ok(first >= 70 && last > first && widths.slice(first, last).includes(640), widths.join(" "));
});
