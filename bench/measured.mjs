// What calls of the package for JavaScript cost, measured alike in node and in a browser's page: so it
// imports nothing. bench/calls.c makes the same calls of the library for C.

/** Milliseconds that a round of calls takes, about, and how many rounds there are: the least counts. */
const ROUND = 8, ROUNDS = 25;
const MODE_3 = 0x03, MODE_12 = 0x12, MODE_13 = 0x13, SCREEN = 64000, PUTS = 1000;

/** Nanoseconds of a call that is made again and again with a number: the least of the rounds. */
function nanoseconds(does) {
  let times = 1, best = Infinity;
  for (let spent = 0; spent < ROUND;) {
    const begun = performance.now();
    for (let i = 0; i < times; i++) does(i);
    spent = performance.now() - begun;
    if (spent < ROUND) times *= spent < ROUND / 8 ? 8 : 2;
  }
  for (let round = 0; round < ROUNDS; round++) {
    const begun = performance.now();
    for (let i = 0; i < times; i++) does(i);
    best = Math.min(best, (performance.now() - begun) / times);
  }
  return 1e6 * best;
}

/** The bytes of a script of so many writes to memory. */
function scriptOfPuts(count) {
  const bytes = [0x56, 0x47, 0x41, 0x53, 1];
  for (let at = 0; at < count; at++) bytes.push(5, at & 255, at >> 8, 0x0A, 0, 0x41);
  return Uint8Array.from(bytes);
}

/**
 * The rows: what is called, the mode, the call of bench/calls.c that does the same, and what makes it of
 * a card. Where it does so many calls at once, the last is their number. `context` is a canvas's, in a
 * browser.
 */
const ROWS = [
  ["a call that does nothing", MODE_13, "", ({ library: { calls } }) => () => calls.zak_version()],
  ["`tryPut`", MODE_13, "put", card => i => card.tryPut(0xA0000 + (i & 0x7FFF), i & 255)],
  ["`tryPut`", MODE_12, "put", card => i => card.tryPut(0xA0000 + (i & 0x7FFF), i & 255)],
  ["`put`", MODE_13, "put", card => i => card.put(0xA0000 + (i & 0x7FFF), i & 255)],
  ["`calls.zak_put`", MODE_13, "put", ({ library: { calls }, address }) => i =>
    calls.zak_put(address, 0xA0000 + (i & 0x7FFF), i & 255)],
  ["`tryGet`", MODE_13, "get", card => i => card.tryGet(0xA0000 + (i & 0x7FFF))],
  ["`tryOut` to 3C4", MODE_13, "out", card => i => card.tryOut(0x3C4, i & 3)],
  ["`tryIn` from 3DA", MODE_13, "in", card => () => card.tryIn(0x3DA)],
  ["`advance` by 25 dots, and `tryPut`", MODE_13, "advance_put", card => i =>
    card.tryAdvance(25) | card.tryPut(0xA0000 + (i & 0x7FFF), i & 255)],
  ["`clock`", MODE_13, "clock", card => () => card.clock()],
  ["`putBytes`, 64,000 bytes", MODE_13, "put_bytes", (card, bytes) => () => card.putBytes(0xA0000, bytes)],
  ["`getBytes`, 64,000 bytes into a buffer", MODE_13, "get_bytes", (card, bytes) => () =>
    card.getBytes(0xA0000, bytes)],
  ["`runOn`, a write of a script of 1,000", MODE_13, "", card => {
    const script = scriptOfPuts(PUTS);
    return () => card.runOn(script, { room: 16 * PUTS });
  }, PUTS],
  ["`skipFrame`", MODE_13, "skip_frame", card => () => card.skipFrame()],
  ["`frameWords` of an empty screen", MODE_13, "frame_once", card => () => card.frameWords()],
  ["`frame` of an empty screen", MODE_13, "", card => () => card.frame()],
  ["`frame` of an empty screen", MODE_3, "", card => () => card.frame()],
  ["`frameUpdate` of a frame that stays the same", MODE_13, "frame_update", card => () => card.frameUpdate()],
  ["`tryPut`, and `frameUpdate` of the row", MODE_13, "put_frame_update", card => i => {
    card.tryPut(0xA0000 + 320 * 100, i & 255);
    card.frameUpdate();
  }],
  ["`frame`, and `putImageData` of it", MODE_13, "", (card, _, context) => context && (() => {
    const { pixels, width, height } = card.frame();
    context.putImageData(new ImageData(pixels, width, height), 0, 0);
  })],
  ["`int10`, a character typed", MODE_3, "teletype", card => i => card.int10({ ax: 0x0E41 + i % 26, bx: 7 })],
  ["`save`, at a frame's first dot", MODE_13, "save", card => () => card.save()],
  ["`saveInto`, at a frame's first dot", MODE_13, "save", card => {
    const bytes = new Uint8Array(card.saveSize());
    return () => card.saveInto(bytes);
  }],
  ["`restore` of that", MODE_13, "restore", card => {
    const state = card.save();
    return () => card.restore(state);
  }],
];

/** The rows, with the nanoseconds that each call takes: [what, mode, call of calls.c, nanoseconds or null]. */
export function measured(library, context = null) {
  return ROWS.map(([what, mode, call, make, count = 1]) => {
    const card = library.open();
    card.int10({ ax: mode });
    // From the first dot of a whole frame on.
    card.frame();
    const does = make(card, new Uint8Array(SCREEN), context), time = does ? nanoseconds(does) / count : null;
    card.close();
    return [what, mode, call, time];
  });
}
