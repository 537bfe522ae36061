// Hostile software for the machine: programs that random numbers make, the same for the same seed.

const PROGRAM_SIZE = 496, LARGEST_PIECE = 160, BOOT_SIZE = 510, SECTOR = 512, NEAR_HERE = 4;
/** Ports that have something behind them; interrupts that are served. */
const PORTS = [0x20, 0x21, 0x40, 0x41, 0x42, 0x43, 0x60, 0x61, 0x64, 0x70, 0x71, 0x92, 0xa0, 0xa1,
  0xf1, 0xf2, 0xf3, 0x201, 0x3ba, 0x3c0, 0x3c2, 0x3c4, 0x3c5, 0x3c8, 0x3c9, 0x3ce, 0x3cf, 0x3d4,
  0x3d5, 0x3da];
const INTERRUPTS = [0x08, 0x09, 0x10, 0x10, 0x11, 0x12, 0x13, 0x13, 0x15, 0x16, 0x1a, 0x21, 0x21,
  0x21, 0x33];
const SEGMENTS = [0x0000, 0x0040, 0x0050, 0x1000, 0x8fff, 0xa000, 0xb800, 0xc000, 0xf000, 0xffff];
const FUNCTIONS = [0x00, 0x02, 0x03, 0x06, 0x08, 0x09, 0x0a, 0x0c, 0x10, 0x11, 0x12, 0x13, 0x1a,
  0x1b, 0x25, 0x3c, 0x3d, 0x3f, 0x40, 0x42, 0x43, 0x48, 0x49, 0x4a, 0x4e, 0x4f, 0x56, 0x86, 0x87];
const STRINGS = [0xa4, 0xa5, 0xa6, 0xa7, 0xaa, 0xab, 0xac, 0xad, 0xae, 0xaf, 0x6c, 0x6d, 0x6e,
  0x6f];
/** The two bytes of a word. */
export const word = value => [value & 255, value >> 8 & 255];

/** Random numbers: those of a seed are always the same. */
export class Random {
  #state;

  constructor(seed) {
    this.#state = Math.imul(seed, 0x9e3779b1) + 0x7f4a7c15 >>> 0;
  }

  /** A whole number of 32 bits. */
  next() {
    let x = this.#state = this.#state + 0x6d2b79f5 >>> 0;
    x = Math.imul(x ^ x >>> 15, x | 1);
    x ^= x + Math.imul(x ^ x >>> 7, x | 61);
    return (x ^ x >>> 14) >>> 0;
  }

  /** A whole number below `end`. */
  below(end) {
    return this.next() % end;
  }

  of(list) {
    return list[this.below(list.length)];
  }

  bytes(length) {
    return Array.from({ length }, () => this.below(256));
  }

  word() {
    return word(this.of([0, 1, 0xffff, 0x8000, 0x7fff, this.below(256), this.next()]));
  }
}

// Pieces of programs: each answers the bytes of a few instructions.

/** mov of random words to seven registers; the function in AH is often one that there is. */
function registers(random) {
  const code = [0, 3, 1, 2, 5, 6, 7].flatMap(number => [0xb8 + number, ...random.word()]);
  if (random.below(4)) code[2] = random.of(FUNCTIONS);
  return code;
}

/** mov ax, segment; mov ds, es or ss, ax. */
function segment(random) {
  const places = random.below(6) ? [0xd8, 0xc0] : [0xd0];
  const found = random.below(3) ? random.of(SEGMENTS) : random.next();
  return [0xb8, ...word(found), 0x8e, random.of(places)];
}

function port(random) {
  const number = random.below(5) ? random.of(PORTS) : random.next();
  const does = random.of([[0xee], [0xef], [0x66, 0xef], [0xec], [0xed], [0x66, 0xed]]);
  return [0xba, ...word(number), 0xb8, ...random.word(), ...does];
}

function interrupt(random) {
  const number = random.below(5) ? random.of(INTERRUPTS) : random.below(256);
  return [...(random.below(5) ? [] : segment(random)), ...registers(random), 0xcd, number];
}

/** A far jump, a far call, a return or a return from an interrupt to anywhere. */
function farJump(random) {
  const found = random.below(2) ? random.of(SEGMENTS) : random.next();
  const to = [...word(random.next()), ...word(found)];
  const pushed = [0x68, to[2], to[3], 0x68, to[0], to[1]];
  return random.of([[0xea, ...to], [0x9a, ...to], [...pushed, 0xcb], [0x9c, ...pushed, 0xcf],
    [0xff, 0x2e, ...random.word()]]);
}

/** Stores over the BIOS' data, or over the vectors of interrupts. */
function lowStore(random) {
  const place = random.below(2) ? 0x400 + random.below(0x100) : random.below(0x400);
  const offset = random.below(4) ? place : random.of([0x41a, 0x41c, 0x417, 0x46c, 0x44a, 0x463]);
  return [0x31, 0xc0, 0x8e, 0xd8, 0xc7, 0x06, ...word(offset), ...random.word()];
}

function halt(random) {
  return random.of([[0xfb], [0xfa], [0xf4], [0xfb, 0xf4], [0xfa, 0xf4], [0x9d], [0x9c], [0xcc],
    [0xce], [0xb0, random.below(256), 0xe6, 0x21],
    [0xb0, random.of([0x34, 0x30, 0x36, 0x14]), 0xe6, 0x43, 0xb0, random.below(256),
      0xe6, 0x40, 0xb0, random.below(4), 0xe6, 0x40]]);
}

/** Where tables of descriptors are read from, and the switch to protected mode. */
function protectedMode(random) {
  const table = random.below(0x7000), code = [0x31, 0xc0, 0x8e, 0xd8];
  for (let at = 8; at < 40; at += 2) code.push(0xc7, 0x06, ...word(table + at), ...random.word());
  // An access byte of a segment that is present, now and then.
  const access = random.of([0x9a, 0x92, 0x89, 0x8e]);
  if (random.below(4)) code.push(0xc6, 0x06, ...word(table + 13), access);
  code.push(0xc7, 0x06, ...word(table), ...word(random.below(0x40)), 0xc7, 0x06, ...word(table + 2),
    ...word(table));
  code.push(0x0f, 0x01, random.of([0x16, 0x16, 0x1e]), ...word(table));
  if (random.below(2)) code.push(0x0f, 0x01, 0x1e, ...word(table + 8));
  code.push(0x0f, 0x20, 0xc0, 0x0c, 0x01, 0x0f, 0x22, 0xc0);
  if (random.below(2)) code.push(0xea, ...random.word(), ...word(random.below(5) * 8));
  code.push(0xb8, ...word(random.below(8) * 8), 0x8e, random.of([0xd8, 0xc0, 0xd0]));
  return code;
}

/** A string instruction with prefixes and a random count. */
function repeated(random) {
  const prefixes = [0x66, 0x67, 0x26, 0x2e, 0x36].filter(() => random.below(4) === 0);
  return [...segment(random), ...registers(random), random.of([0xfc, 0xfd]), ...prefixes,
    random.of([0xf2, 0xf3]), random.of(STRINGS)];
}

/** A store into the code that comes next: call 0; pop bx; mov byte [bx + n], value. */
function selfStore(random) {
  const place = NEAR_HERE + random.below(60);
  return [0xe8, 0x00, 0x00, 0x5b, 0x2e, 0xc6, 0x47, place, random.below(256)];
}

const noise = random => random.bytes(1 + random.below(12));
const PIECES = [port, interrupt, farJump, lowStore, halt, protectedMode, repeated, selfStore,
  noise];
/** What kinds of programs there are: the pieces of each. */
const KINDS = {
  bytes: [noise], ports: [port], interrupts: [interrupt], jumps: [registers, farJump],
  lows: [lowStore, lowStore, interrupt, halt], halts: [halt, halt, port],
  descriptors: [protectedMode, noise, repeated], strings: [repeated],
  changes: [selfStore, registers],
  mixed: PIECES,
};

/** The code of a program: pieces until it is full, then a jump back to its start. */
function codeOf(random, pieces, size) {
  const code = [0x8c, 0xc8, 0x8e, 0xd8];
  while (code.length < size - LARGEST_PIECE) code.push(...random.of(pieces)(random));
  const back = -(code.length + 3);
  return Uint8Array.from([...code.slice(0, size - 3), 0xe9, ...word(back)]);
}

/** A program of a seed: { kind, software }, where software is what Machine.boot takes. */
export function hostileProgram(seed) {
  const random = new Random(seed), kind = random.of(Object.keys(KINDS));
  const code = codeOf(random, KINDS[kind], PROGRAM_SIZE);
  if (random.below(2)) {
    const files = [{ name: "a.txt", bytes: new Uint8Array(700) }];
    return { kind, software: { program: code, files } };
  }
  const image = new Uint8Array(SECTOR * (1 + random.below(40)));
  image.set(code.subarray(0, BOOT_SIZE));
  image.set([0x55, 0xaa], BOOT_SIZE);
  return { kind, software: random.below(3) ? { a: image } : { c: image } };
}
