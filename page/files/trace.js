// A trace of software (docs/TRACES.md) as a script: each cycle is a step, and what was read is what
// is expected. Where it tells the time, the clock is advanced between the steps. zaklimot trace
// does the same and more; page/tests/traces.mjs holds both to the same text.
import { Trouble } from "../common/trouble.js";
import { bytesOfHex, hex } from "../common/bytes.js";
import { TraceClock, withPauses } from "./pauses.js";

// Microseconds, and the dots since the line before where they are known.
const TIME = "^\\s*(?:-|(\\d{1,18})(?:\\+(\\d{1,12}))?)\\s+";
const PLAIN_CYCLE = new RegExp(`${TIME}([rw])\\s+([pm])\\s+([0-9A-Fa-f]{1,8})` +
  "\\s+([0-9A-Fa-f]{1,16})\\s+(\\d)\\s*(?:;.*)?$");
const PLAIN_CALL = new RegExp(`${TIME}int\\s+((?:[0-9A-Fa-f]{1,4}\\s+){3}[0-9A-Fa-f]{1,4})` +
  "(?:\\s+((?:[0-9A-Fa-f]{2})+))?\\s*(?:;.*)?$");
const PLAIN_FRAME = new RegExp(`${TIME}frame\\s*(?:;.*)?$`);
const NO_CYCLE = /^\s*(?:;.*)?$/;
const QEMU_EVENT = "memory_region_ops_";
const QEMU_CYCLE = new RegExp("^(?:\\d+@(\\d+\\.\\d{6}):)?" +
  "memory_region_ops_(read|write) cpu -?\\d+ mr (?:0x[0-9a-f]+|\\(nil\\)) " +
  "addr 0x([0-9a-f]+) value 0x([0-9a-f]+) size (\\d) name '([^']*)'\\s*$");
const PORTS_OF_QEMU = ["vga", "cirrus-io"], MEMORY_OF_QEMU = ["vga-lowmem", "cirrus-low-memory",
  "vga-chain4"];
/** The ports of input status 1, whose answers hang on the moment of the read. */
export const STATUS_PORTS = [0x3ba, 0x3da];

/** The most dots of an `advance`, and the most bytes of a call's block. */
const MOST_ADVANCE = 16777216, MOST_BLOCK = 65535;
const REGISTERS = ["ax", "bx", "cx", "dx"];
const microsOf = micros => (micros === undefined ? null : BigInt(micros));
const dotsOf = dots => (dots === undefined ? null : Number(dots));

/** The call of interrupt 10 that a line is; null where it is none. */
function callOf(line, number) {
  const found = line.match(PLAIN_CALL);
  if (!found) return null;
  const [, micros, dots, registers, block = ""] = found, values = registers.split(/\s+/);
  if (block.length > 2 * MOST_BLOCK) {
    throw new Trouble(`Line ${number} of the trace has a call whose block is too long.`);
  }
  const words = values.map((value, i) => `${REGISTERS[i]}=${hex(parseInt(value, 16), 4)}`).join(" ");
  return { call: `int ${words}${block && ` block ${block.toUpperCase()}`}`, time: microsOf(micros), dots: dotsOf(dots),
    registers: Object.fromEntries(REGISTERS.map((name, i) => [name, parseInt(values[i], 16)])), block: bytesOfHex(block) };
}

/** What a line of the plain form is; a frame whose picture was kept is its dots alone. */
function plainOf(line, number) {
  const found = line.match(PLAIN_CYCLE);
  if (found) {
    const cycle = judged(found[3] === "w", found[4] === "p", found.slice(5), found[1], number);
    return { ...cycle, dots: dotsOf(found[2]) };
  }
  if (NO_CYCLE.test(line)) return null;
  const frame = line.match(PLAIN_FRAME), call = callOf(line, number);
  if (frame) return { isFrame: true, dots: dotsOf(frame[2]) };
  if (call) return call;
  throw new Trouble(`Line ${number} of the trace is no cycle: ` +
    "`TIME r|w p|m ADDRESS VALUE SIZE` is one.");
}

/**
 * The cycle of a line: { isWrite, isPort, address, value, size, time, dots }; null where it has none of
 * a VGA. The time is in microseconds, a BigInt, and null where the line tells none; `dots` is how many
 * dots passed since the line before, or null.
 */
function cycleOf(line, isPlain, number) {
  if (isPlain) return plainOf(line, number);
  const found = line.includes(QEMU_EVENT) && line.match(QEMU_CYCLE);
  if (!found) return null;
  const isPort = PORTS_OF_QEMU.includes(found[6]);
  if (!isPort && !MEMORY_OF_QEMU.includes(found[6])) return null;
  // A log has seconds with six digits behind the point.
  return judged(found[2] === "write", isPort, found.slice(3), found[1]?.replace(".", ""), number);
}

function judged(isWrite, isPort, [address, value, width], micros, number) {
  const size = Number(width), time = microsOf(micros);
  const first = parseInt(address, 16), whole = BigInt("0x" + value);
  const last = first + size - 1, most = isPort ? 0xffff : 0xffffffff;
  if (![1, 2, 4, 8].includes(size) || whole >> BigInt(8 * size) || last > most) {
    throw new Trouble(`Line ${number} of the trace has a cycle that can't be: ` +
      `${address} ${value} of ${size} bytes.`);
  }
  return { isWrite, isPort, address: first, value: whole, size, time, dots: null };
}

/**
 * The cycles of a trace, as `cycleOf` tells them, and its calls: { call, time, dots }. Their dots are
 * those since the cycle or call before.
 */
export function* cyclesOf(text) {
  const isPlain = traceForm(text) === "plain";
  let passed = 0;
  for (const [i, line] of text.split("\n").entries()) {
    const cycle = cycleOf(line, isPlain, i + 1);
    if (cycle?.isFrame) passed += cycle.dots ?? 0;
    else if (cycle) {
      if (cycle.dots !== null) {
        cycle.dots += passed;
        passed = 0;
      }
      yield cycle;
    }
  }
}

/** The steps of a cycle: one of four or eight bytes becomes words, the lowest first. */
function* narrowed(cycle) {
  const { isWrite, isPort, address, value, size, time, dots } = cycle;
  if (cycle.call) return yield { name: "int", isWord: true, ...cycle };
  const name = isPort ? (isWrite ? "out" : "in") : isWrite ? "put" : "get";
  if (size === 1) return yield { name, isPort, isWord: false, address, value: Number(value), time, dots };
  for (let at = 0; at < size; at += 2) {
    yield { name, isPort, isWord: true, address: address + at,
      value: Number(value >> BigInt(8 * at) & 65535n), time, dots: at && dots !== null ? 0 : dots };
  }
}

/**
 * Steps in which a byte of memory at an even address and the one at the next are a word. A trace that
 * tells dots tells the width as well.
 */
function* joinedSteps(steps) {
  let held = null;
  for (const step of steps) {
    const isNext = held && !step.isWord && step.name === held.name && step.address === held.address + 1;
    if (isNext && step.dots === null) {
      yield { ...held, isWord: true, value: held.value | step.value << 8 };
      held = null;
      continue;
    }
    if (held) yield held;
    held = !step.isPort && !step.isWord && step.address % 2 === 0 ? step : null;
    if (!held) yield step;
  }
  if (held) yield held;
}

function lineOfStep({ name, isPort, isWord, address, value, dots, call }) {
  if (name === "advance") return `advance ${dots}\n`;
  if (call) return `${call}\n`;
  const step = `${name}${isWord ? "w" : ""} ${hex(address, isPort ? 3 : 5)}`;
  const digits = hex(value, isWord ? 4 : 2);
  if (name === "out" || name === "put") return `${step} ${digits}\n`;
  const isStatus = STATUS_PORTS.includes(address) && isPort && !isWord;
  return isStatus ? `${step}\n` : `${step} ; = ${digits}\n`;
}

/**
 * Whether a text is a trace: its first line that is no comment is a cycle. Null where it is none.
 */
export function traceForm(text) {
  const line = text.split("\n", 200).find(one => one.includes(QEMU_EVENT) || !NO_CYCLE.test(one));
  if (line === undefined) return null;
  if (line.includes(QEMU_EVENT)) return "qemu";
  return PLAIN_CYCLE.test(line) || PLAIN_CALL.test(line) ? "plain" : null;
}

/**
 * Where time passes, two frames stand at the end: the first began amid the cycles, the second is
 * whole.
 */
function* timedLines(steps, adapter) {
  const clock = new TraceClock(adapter);
  try {
    for (const step of withPauses(steps, MOST_ADVANCE, clock)) yield lineOfStep(step);
  } finally {
    clock.close();
  }
  yield* ["frame\n", "frame\n"];
}

function* untimedLines(steps) {
  for (const step of steps) yield lineOfStep(step);
  yield "frame\n";
}

/** The text of the script that a trace is. Time passes in it if the first step has a time; a card of `adapter` tells how. */
export function textOfTrace(text, adapter) {
  function* steps() {
    for (const cycle of cyclesOf(text)) yield* narrowed(cycle);
  }
  const joined = () => joinedSteps(steps()), { value: first } = joined().next();
  const isTimed = first !== undefined && first.time !== null;
  return [...(isTimed ? timedLines : untimedLines)(joined(), adapter)].join("");
}
