// Random calls as lists: [name, argument ..], as a card of either package makes them. Most of them do
// something, and some are refused.

const MODES = [0x03, 0x07, 0x0D, 0x10, 0x12, 0x13];
const FUNCTIONS = [0x00, 0x01, 0x02, 0x03, 0x05, 0x06, 0x07, 0x08, 0x09, 0x0A, 0x0B, 0x0C, 0x0D, 0x0E, 0x0F, 0x10,
  0x11, 0x12, 0x13, 0x1A];
/** Ports of an index, and how many registers stand behind it. */
const INDEXED = [[0x3C4, 5], [0x3CE, 9], [0x3D4, 25], [0x3B4, 25]];
const PORTS = [0x3C0, 0x3C1, 0x3C2, 0x3C3, 0x3C6, 0x3C7, 0x3C8, 0x3C9, 0x3CA, 0x3CC, 0x3DA, 0x3BA];
const TEXTS = ["frame", "put A0000 41", "get B8000", "in 3DA", "out 3C4 2", "int ax=3", "int ax=13", "show regs",
  "show beam", "advance 1000", "outw 3C4 0F02", "putw A1234 BEEF", "advance FFFFFFF", "int ax=4", "out 3C7 1",
  "int ax=E41", "show cells", "in 123", "out 3D4 99", "inw 3C4", "getw BFFFF"];
const BAD_TEXTS = ["frme", "out 0x3C4 2", "put A0000", "int zz=3", "out 3C4 2 4", "int ax=3\nfoo", "é", "int ax=3 {1",
  "show it", "version 3", "repeat 2\nframe", "// frame", "int ax=3\n  get é"];

const address = random => random.rarely(20) ? random.next() : 0xA0000 + random.below(0x20000);
const port = random => random.rarely(20) ? random.word() : random.one([...INDEXED.map(([at]) => at),
  ...INDEXED.map(([at]) => at + 1), ...PORTS]);
const hex = bytes => Buffer.from(bytes).toString("hex");
const bytes = (random, count) => hex(Array.from({ length: count }, () => random.byte()));
const text = random => Array.from({ length: 1 + random.below(4) }, () => random.one(TEXTS)).join("\n");
const maybeBad = random => random.rarely(3) ? `${text(random)}\n${random.one(BAD_TEXTS)}` : text(random);

/** The registers of a call of the video BIOS, and its block. */
function call(random) {
  const ah = random.rarely(15) ? random.byte() : random.one(FUNCTIONS);
  const ofMode = () => random.one(MODES) | (random.rarely(4) ? 0x80 : 0);
  const al = ah === 0 ? ofMode() : random.rarely(3) ? random.byte() : random.below(24);
  const small = () => random.rarely(3) ? random.word() : random.below(25) << 8 | random.below(40);
  const registers = [ah << 8 | al, small(), random.rarely(2) ? random.below(40) : small(), small()];
  return [registers, bytes(random, random.one([0, 0, 16, 17, 24, 48, 768]))];
}

/** A write of a register by a word, most often one that is kept. */
function wordToRegister(random) {
  const [at, count] = random.one(INDEXED.slice(0, 3));
  return ["outWord", at, random.below(count) | random.byte() << 8];
}

/** What makes the arguments of each call, and how often it is made. */
const CALLS = {
  out: [30, random => [port(random), random.byte()]],
  outWord: [10, random => [port(random), random.word()]],
  in: [20, random => [port(random)]],
  inWord: [5, random => [port(random)]],
  put: [30, random => [address(random), random.byte()]],
  putWord: [10, random => [address(random), random.word()]],
  get: [20, random => [address(random)]],
  getWord: [5, random => [address(random)]],
  putBytes: [6, random => [address(random), bytes(random, random.below(100)), random.rarely(2)]],
  fillBytes: [4, random => [address(random), random.byte(), random.below(5000), random.rarely(2)]],
  getBytes: [4, random => [address(random), random.below(500), random.rarely(2)]],
  getInto: [4, random => [address(random), random.below(500), random.rarely(2)]],
  moveBytes: [4, random => [address(random), address(random), random.below(3000), random.rarely(2)]],
  advance: [30, random => [random.rarely(30) ? random.next() : random.below(random.one([20, 2000, 400000]))]],
  clock: [10, () => []],
  frame: [1, random => [random.rarely(2)]],
  frameWords: [1, random => [random.rarely(2), random.rarely(2)]],
  frameUpdate: [3, random => [random.rarely(6)]],
  frameXrgb: [1, () => []],
  frameRgb: [1, () => []],
  frameIndexed: [1, () => []],
  line: [3, random => [random.rarely(2)]],
  frameLines: [1, () => []],
  peek: [1, () => []],
  skipFrame: [2, () => []],
  int10: [25, call],
  block: [4, random => [call(random)[0]]],
  cycles: [2, call],
  registers: [4, () => []],
  colour: [3, random => [random.byte()]],
  beam: [4, () => []],
  latches: [3, () => []],
  biosData: [3, () => []],
  plane: [3, random => [random.below(4), random.word(), random.below(300)]],
  screen: [2, () => []],
  cell: [2, random => [random.below(27), random.below(82), random.below(3)]],
  pixel: [2, random => [random.below(660), random.below(500), random.below(3)]],
  cursor: [2, random => [random.below(9)]],
  showRegs: [1, () => []],
  showBeam: [1, () => []],
  showLatches: [1, () => []],
  showBda: [1, () => []],
  showCells: [1, () => []],
  showDac: [1, random => [random.byte()]],
  showPlane: [1, random => [random.below(4), random.word(), 1 + random.below(256)]],
  save: [3, () => []],
  saveSize: [2, () => []],
  saveFixed: [1, random => [random.rarely(4) ? random.below(300000) : 7342978]],
  restore: [2, random => [random.word(), random.rarely(3) ? random.below(260000) : -1]],
  restoreFixed: [1, random => [random.word(), random.rarely(3) ? random.below(260000) : -1]],
  runOn: [3, random => [text(random), random.below(3), random.rarely(2) ? 1 : 4]],
  explainStep: [5, random => [random.one(TEXTS)]],
  explainDot: [5, random => [random.rarely(2) ? -1 : random.word()]],
  explainPut: [4, random => [address(random), random.byte()]],
  explainGet: [4, random => [address(random)]],
  rebuild: [1, () => []],
  assemble: [2, random => [maybeBad(random)]],
  print: [1, random => [`5647415301${random.one(["0b", "0c01", "04", "ff", `09${bytes(random, 4)}`])}`]],
  run: [1, random => [maybeBad(random)]],
  explainText: [3, random => [maybeBad(random)]],
  statusText: [1, random => [random.below(120)]],
  version: [1, () => []],
};

/** Calls that may lead away from a plain screen, which is what programs see that use the BIOS alone. */
const STIRRING = ["out", "outWord", "put", "putWord", "putBytes", "fillBytes", "moveBytes", "restore",
  "restoreFixed", "runOn"];
const BAG = Object.entries(CALLS).flatMap(([name, [often]]) => Array(often).fill(name));
const CALM_BAG = BAG.filter(name => !STIRRING.includes(name));

/**
 * So many random calls after a card is opened and its mode is set; some write a register by a word. A
 * card that is calm keeps its plain screen.
 */
export function randomCalls(random, count, isCalm) {
  const list = [["open"], ["save"], ["saveFixed", 7342978], ["beam"],
    ["int10", [random.one(MODES), 0, 0, 0], ""]];
  while (list.length < count) {
    const name = random.one(isCalm ? CALM_BAG : BAG);
    list.push(!isCalm && random.rarely(12) ? wordToRegister(random) : [name, ...CALLS[name][1](random)]);
  }
  return list;
}

/** The names of all calls. */
export const NAMES = ["open", ...Object.keys(CALLS)];
