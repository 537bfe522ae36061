// What calls of the module cost, measured alike in node and in a browser's page: so it imports
// nothing. bench/calls.c makes the same calls of the library for C.

const ROUNDS = 7, FRAMES = 60, CALLS = 1000000, PUTS = 10000, SLICE = 2040, RUNS = 20;
const WIDEST = 2304, HIGHEST = 1024, ROOM_OF_CARD = 64;
const HEADER = [0x56, 0x47, 0x41, 0x53, 1], PUT = [5, 0, 0, 0x0a, 0, 0x41];
const MODE_13 = [9, 0x13, 0, 0, 0, 0, 0, 0, 0, 0, 0];

function right(status) {
  if (status) throw new Error(`the module answers ${status}`);
}

/** A new instance of the module with an open card. */
async function opened(module, fonts) {
  const { instance } = await WebAssembly.instantiate(module, {}), { exports } = instance;
  const room = size => exports.page_take(size) >>> 0;
  const given = bytes => {
    const at = room(bytes.length);
    new Uint8Array(exports.memory.buffer).set(bytes, at);
    return at;
  };
  const card = given(new Uint8Array(ROOM_OF_CARD)), font = given(fonts), fontLength = fonts.length;
  right(exports.zak_open(card, font, fontLength));
  return { exports, room, given, card, font, fontLength };
}

/** The least time of a round, in milliseconds a time. */
function least(times, does) {
  let best = Infinity;
  for (let round = 0; round < ROUNDS; round++) {
    const begun = performance.now();
    for (let i = 0; i < times; i++) does(i);
    best = Math.min(best, (performance.now() - begun) / times);
  }
  return best;
}

function setMode({ exports, room, given, card }, mode) {
  const registers = given(new Uint8Array([mode, 0, 0, 0, 0, 0, 0, 0]));
  right(exports.zak_int10(card, registers, given(new Uint8Array(1)), 0, room(64), 64, room(8)));
}

/** Frames of a mode, and where there is a canvas, the way of their dots into an ImageData too. */
function measureFrames(opening, mode, hasCanvas, costs) {
  const { exports, room, card } = opening, size = room(8), pixels = room(4 * WIDEST * HIGHEST);
  setMode(opening, mode);
  const name = mode.toString(16);
  const frame = () => right(exports.zak_frame_xrgb(card, size, pixels, WIDEST * HIGHEST, WIDEST));
  frame();
  costs[`frame ${name}`] = least(FRAMES, frame);
  if (!hasCanvas) return;
  const [width, height] = new Uint32Array(exports.memory.buffer, size, 2);
  const image = new ImageData(width, height), words = new Uint32Array(image.data.buffer);
  costs[`image ${name}`] = least(FRAMES, () => {
    frame();
    const from = new Uint32Array(exports.memory.buffer, pixels, WIDEST * height);
    for (let y = 0; y < height; y++) {
      for (let x = 0; x < width; x++) {
        const word = from[WIDEST * y + x];
        words[width * y + x] = 0xff000000 | (word & 255) << 16 | word & 0xff00 | word >> 16;
      }
    }
  });
}

/** A script of puts after other steps, as bytes. */
function scriptOf(steps, before) {
  return Uint8Array.from([...HEADER, ...before, ...Array.from({ length: steps }, () => PUT).flat()]);
}

function measurePuts(opening, costs) {
  const { exports, room, given, card, font, fontLength } = opening;
  setMode(opening, 0x13);
  costs.put = 1e6 * least(CALLS, i => exports.zak_put(card, 0xa0000 + (i & 0x7fff), i & 255));
  const roomSize = 16 * PUTS, report = room(roomSize), told = room(24);
  // From power-on a put is refused, so a mode is set first.
  const script = scriptOf(PUTS, MODE_13), slice = scriptOf(SLICE, []);
  const whole = given(script), part = given(slice);
  costs.run = 1e6 / PUTS * least(RUNS, () => right(exports.zak_run(whole, script.length, font,
    fontLength, report, roomSize, told, told + 8)));
  costs.slice = 1e6 / SLICE * least(RUNS, () => right(exports.zak_run_on(card, part, slice.length,
    0, SLICE, report, roomSize, told, told + 8, told + 16)));
}

/** Each cost by its name, in milliseconds or, of puts, in nanoseconds: the least of some rounds. */
export async function measured(module, fonts, hasCanvas) {
  const costs = { ready: Infinity };
  for (let round = 0; round < ROUNDS; round++) {
    const begun = performance.now();
    await opened(module, fonts);
    costs.ready = Math.min(costs.ready, performance.now() - begun);
  }
  for (const mode of [0x3, 0x12, 0x13]) measureFrames(await opened(module, fonts), mode, hasCanvas, costs);
  measurePuts(await opened(module, fonts), costs);
  return costs;
}
