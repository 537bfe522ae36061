// A write or a read of a byte as the page shows it: sentences, and rows of eight bits for each plane,
// stage after stage. The stages are the adapter's (zak_explain_put, zak_explain_get).
import { KIND } from "../script/steplist.js";
import { hex } from "../common/bytes.js";

const GRAPHICS = 0x3ce, DONT_CARE = 7;
const PLANES = [0, 1, 2, 3], LAST_ADDRESS = 0xffffffff, CHAIN_4 = 8, ODD_EVEN_OFF = 4, ODD_EVEN = 16;
/** The names of function select 0 to 3, and of its row. */
const FUNCTIONS = ["replace", "AND", "OR", "XOR"];
const FUNCTION_ROWS = ["data as it is", "data AND latch", "data OR latch", "data XOR latch"];
/** What each write mode takes as data, in a few words. */
const MODES = ["the byte rotated right, or set/reset where it is enabled", "the latches",
  "a bit of the byte for each plane", "set/reset, with the rotated byte in the bit mask"];

/** Eight bits with a blank in the middle, and the byte. */
export function bitsText(byte) {
  const bits = byte.toString(2).padStart(8, "0");
  return `${bits.slice(0, 4)} ${bits.slice(4)}`;
}

/** A script that reads address 0, which no window has: its refusal tells the window (ZAK_WHY_OUTSIDE_WINDOW). */
const READS_OUTSIDE = Uint8Array.of(0x56, 0x47, 0x41, 0x53, 1, KIND.get, 0, 0, 0, 0);

/** The first and the last address of the window of memory, as a card tells them. */
function windowOf(card) {
  const [, , first, last] = card.explainStep(READS_OUTSIDE).numbers;
  return { first, last };
}

/** How an address leads to an offset, in a sentence. */
function addressText(address, { inWindow, offset }, { registers: { seq }, window: { first, last } }) {
  const cut = offset === inWindow ? "" : seq[4] & CHAIN_4 ? ", with its two low bits 0 by chain 4"
    : ", with bit 0 cleared by chain odd/even";
  return `${hex(address, 5)} − ${hex(first, 5)} = ${hex(inWindow, 4)} in the window ${hex(first, 5)} to ` +
    `${hex(last, 5)}: offset ${hex(offset, 4)} of each plane${cut}.`;
}

/** Which planes a write reaches, in a sentence. */
function reachText({ planes }, { seq }) {
  const by = seq[4] & CHAIN_4 ? "By chain 4 and the map mask" : seq[4] & ODD_EVEN_OFF ? "By the map mask"
    : "By odd/even and the map mask", found = PLANES.filter(plane => planes >> plane & 1);
  const written = !found.length ? "no plane is" : found.length > 1 ? `planes ${found.join(", ")} are`
    : `plane ${found[0]} is`;
  return `${by} ${hex(seq[2], 1)}, ${written} written.`;
}

function writeSentences(value, stages, registers) {
  const { writeMode, rotated, mask } = stages, { gfx } = registers, select = gfx[3] >> 3 & 3;
  const told = [`Write mode ${writeMode}: ${MODES[writeMode]}.`, reachText(stages, registers)];
  if (writeMode === 1) return told;
  if (writeMode !== 2) told.push(`Byte ${hex(value, 2)} rotated right by ${gfx[3] & 7} is ${hex(rotated, 2)}.`);
  const own = writeMode === 3 ? `, AND ${hex(rotated, 2)} is ${hex(mask, 2)}` : "";
  return [...told, `Function ${select}: ${FUNCTIONS[select]}. Bit mask ${hex(gfx[8], 2)}${own}.`];
}

/** What the data of a plane is in a write mode, in a few words. */
function dataText(writeMode, plane, { gfx }) {
  if (writeMode === 1) return "latch";
  if (writeMode === 2) return `bit ${plane} of the byte`;
  return writeMode === 3 || gfx[1] >> plane & 1 ? "set/reset" : "rotated byte";
}

/**
 * A row of stages: what it is, the eight bits of each plane (null for none), and which bits of them
 * are marked.
 */
const row = (title, byteOf, marksOf = () => 0) => ({ title, cells: PLANES.map(plane => {
  const byte = byteOf(plane);
  return byte === null ? null : { byte, bits: bitsText(byte), marked: marksOf(plane) };
}) });

function writeRows(stages, registers, latches) {
  const { writeMode, data, combined, mask, planes, before, written } = stages;
  const after = plane => (planes >> plane & 1 ? written : before)[plane];
  const select = registers.gfx[3] >> 3 & 3;
  return [
    ...writeMode === 1 ? [] : [row("data", plane => data[plane])],
    row("latch", plane => latches[plane]),
    ...writeMode === 1 ? [] : [row(FUNCTION_ROWS[select], plane => combined[plane]), row("mask, 0: latch", () => mask)],
    row("to be stored", plane => written[plane]),
    row("byte before", plane => before[plane]),
    row("byte after", after, plane => before[plane] ^ after(plane)),
  ];
}

/** A write that is taken, in words and rows. `from` has { registers, latches, window } before it. */
function writeTable(address, value, stages, from) {
  const { registers, latches } = from;
  const heads = PLANES.map(plane => ({ plane, isUsed: (stages.planes >> plane & 1) === 1,
    source: dataText(stages.writeMode, plane, registers) }));
  return { title: `Write of ${hex(value, 2)} to ${hex(address, 5)}`, heads,
    sentences: [addressText(address, stages, from), ...writeSentences(value, stages, registers)],
    rows: writeRows(stages, registers, latches) };
}

/** What picks the plane of a read in read mode 0. */
function pickedBy({ seq, gfx }) {
  if (seq[4] & CHAIN_4) return "chain 4: the two low bits of the place in the window";
  return gfx[5] & ODD_EVEN ? "odd/even: read map select bit 1, and bit 0 of the place in the window"
    : "read map select";
}

function readSentence({ isCompare, plane, value }, registers) {
  const told = hex(value, 2);
  return isCompare ? `Read mode 1: bits are 1 where each compared plane has its colour: ${told}.`
    : `Read mode 0: plane ${plane}, by ${pickedBy(registers)}: ${told}.`;
}

/** Of each plane that a read compares, where it has its colour: the read with this plane compared alone. */
function equalPlanes(card, address, { gfx, gfxIndex }) {
  card.tryOut(GRAPHICS, DONT_CARE);
  const found = PLANES.map(plane => {
    if (!(gfx[DONT_CARE] >> plane & 1)) return null;
    card.tryOut(GRAPHICS + 1, 1 << plane);
    return card.tryExplainGet(address).value;
  });
  card.tryOut(GRAPHICS + 1, gfx[DONT_CARE]);
  card.tryOut(GRAPHICS, gfxIndex);
  return found;
}

/** A read that is taken, in words and rows. */
function readTable(address, stages, from) {
  const { loaded, isCompare } = stages, { registers, latches, equal } = from, { gfx } = registers;
  const isCompared = plane => gfx[DONT_CARE] >> plane & 1;
  const heads = PLANES.map(plane => ({ plane, isUsed: isCompare ? isCompared(plane) === 1 : plane === stages.plane,
    source: "" }));
  const compared = isCompare ? [row("colour compare", plane =>
    (isCompared(plane) ? 255 * (gfx[2] >> plane & 1) : null)), row("equal", plane => equal[plane])] : [];
  return { title: `Read of ${hex(address, 5)}`, heads,
    sentences: [addressText(address, stages, from), readSentence(stages, registers)],
    rows: [row("byte", plane => loaded[plane]), ...compared, row("latch before", plane => latches[plane]),
      row("latch after", plane => loaded[plane], plane => latches[plane] ^ loaded[plane])] };
}

/** The cycle of a byte on a card as it is, as a table; null where no memory answers. */
function tableOf(card, { isWrite, address, value }) {
  const stages = isWrite ? card.tryExplainPut(address, value) : card.tryExplainGet(address);
  if (!stages) return null;
  const registers = card.registers(), from = { registers, latches: card.latches(), window: windowOf(card) };
  if (isWrite) return writeTable(address, value, stages, from);
  return readTable(address, stages, { ...from, equal: stages.isCompare ? equalPlanes(card, address, registers) : null });
}

/**
 * The cycles of a memory step { name, place, value } in a state, two for a word, as tables: { title,
 * sentences, heads, rows }. A head tells of each plane whether it takes part, and what its data is.
 * None for a step that is refused.
 */
export function tablesOfStep(state, { name, place: address, value }) {
  const card = state.scratch, isWrite = name.startsWith("put"), isWord = name.endsWith("w");
  const first = tableOf(card, { isWrite, address, value: value & 255 });
  if (!isWord || !first || address === LAST_ADDRESS) return first && !isWord ? [first] : [];
  if (isWrite) card.tryPut(address, value & 255);
  else card.tryGet(address);
  const second = tableOf(card, { isWrite, address: address + 1, value: value >> 8 });
  return second ? [first, second] : [];
}
