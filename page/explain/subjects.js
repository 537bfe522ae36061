// What the page can be asked about beside a dot: a byte, a register, a field, a colour, a cell, a
// field of the BIOS data. Each is spelled in a few words, which stand in the document beside what
// shows it ("byte 0 07CA"), and which watches keep.
import { DotSearch } from "./dotsearch.js";
import { MoveSearch, TwofoldSearch } from "./movesearch.js";
import { GROUPS, fieldMask, fieldValue } from "../script/registers.js";
import { Search } from "../run/points.js";
import { dotAhead } from "./way.js";
import { hex } from "../common/bytes.js";

/** The fields of the BIOS data: their names in `State.bda`, and how the page calls them. */
export const BIOS_FIELDS = { mode: "49 mode", columns: "4A columns", size: "4C size of a page",
  start: "4E start of the active page", places: "50 cursor", type: "60 cursor's scan lines",
  page: "62 active page", crtc: "63 port of the CRT controller", lastRow: "84 last row",
  height: "85 scan lines of a character" };
/** Registers that stand in no group of their own: name, bits, and how the page calls them. */
const SINGLE = { source: ["attrIndex", 0x20, "palette address source"],
  dacmask: ["dacMask", 0xff, "DAC mask"] };

const coloursText = colour => colour.map(six => hex(six, 2)).join(" ");

/** A subject that some points watch; `value` tells it of a state. */
function pointed(title, points, value) {
  return { title, points, value, isDot: false,
    search: (session, steps, again) => new Search(session, points, steps, true, again === null),
    within: session => new Search(session, points, session.length, true, true) };
}

function registerSubject(id, number) {
  const group = GROUPS.find(one => one.id === id), index = parseInt(number, 16);
  const register = group?.registers[index];
  if (!register) return null;
  const title = registerTitle(group, index);
  const point = { kind: "register", group: id, index, title };
  return pointed(title, [point], ({ registers }) => hex(valueOf(registers, id, index), 2));
}

/** A register in words: its group, its number and its name. */
export function registerTitle(group, index) {
  const { name } = group.registers[index];
  return group.registers.length > 1 ? `${group.title} ${hex(index, 2)}, ${name}` : name;
}

function valueOf(registers, id, index) {
  return id === "misc" ? registers.misc : registers[id][index];
}

function fieldSubject(id, number, bits) {
  const group = GROUPS.find(one => one.id === id), index = parseInt(number, 16);
  const field = group?.registers[index]?.fields.find(one => one.bits === bits);
  if (!field) return null;
  const title = `${registerTitle(group, index)}: ${field.name}`;
  const parts = [{ group: id, index: id === "misc" ? 0 : index, mask: fieldMask(field) }];
  return pointed(title, [{ kind: "register", group: id, index, parts, title }],
    ({ registers }) => hex(fieldValue(field, valueOf(registers, id, index)), 1));
}

function singleSubject(name) {
  const [group, mask, title] = SINGLE[name];
  const parts = [{ group, index: 0, mask }];
  return pointed(title, [{ kind: "register", group, parts, title }],
    ({ registers }) => hex(registers[group] & mask, 2));
}

function byteSubject(number, text) {
  const plane = Number(number), offset = parseInt(text, 16);
  if (!(plane >= 0 && plane < 4 && offset >= 0 && offset < 65536)) return null;
  const point = { kind: "bytes", planes: 1 << plane, from: offset, to: offset };
  return pointed(`plane ${plane} ${hex(offset, 4)}`, [point],
    state => hex(state.plane(plane)[offset], 2));
}

function cellSubject(text) {
  const offset = parseInt(text, 16);
  if (!(offset >= 0 && offset < 65536)) return null;
  return pointed(`the cell at ${hex(offset, 4)}`,
    [{ kind: "bytes", planes: 3, from: offset, to: offset }],
    state => [0, 1].map(plane => hex(state.plane(plane)[offset], 2)).join(" "));
}

function colourSubject(text) {
  const index = parseInt(text, 16);
  if (!(index >= 0 && index < 256)) return null;
  return pointed(`entry ${hex(index, 2)} of the DAC`, [{ kind: "colour", index }],
    state => coloursText(state.colour(index)));
}

function biosSubject(name, number = "0") {
  const page = Number(number), words = BIOS_FIELDS[name];
  if (!words || !(page >= 0 && page < 8)) return null;
  const title = name === "places" ? `${hex(0x50 + 2 * page, 2)} cursor on page ${page}` : words;
  return pointed(`BIOS data ${title}`, [{ kind: "bios", name, page, title }],
    ({ bda }) => hex([bda[name]].flat()[page], 4));
}

/** A dot of the picture, by its line and its number among the line's dots. */
function dotSubject(lineText, dotText) {
  const place = { line: Number(lineText), dot: Number(dotText) };
  if (!(place.line >= 0 && place.dot >= 0)) return null;
  return { title: `dot ${place.dot} of line ${place.line}`, points: [], isDot: true, place,
    value: state => {
      const made = dotAhead(state, place);
      return made ? coloursText(made.source.colour) : "no dot";
    },
    search: (session, steps, again, isDrawn) => (again
      ? new DotSearch(session, place, steps - 1, { told: again })
      : new TwofoldSearch(session, place, steps, { isDrawn })),
    within: (session, told) => new DotSearch(session, place, session.length, { told }) };
}

/** Where a dot of the picture comes from. */
function moveSubject(lineText, dotText) {
  const dot = dotSubject(lineText, dotText);
  if (!dot) return null;
  const { place } = dot;
  return { ...dot, title: `where ${dot.title} comes from`,
    search: (session, steps, again, isDrawn) => (again
      ? new MoveSearch(session, place, steps - 1, { told: again })
      : new MoveSearch(session, place, steps, { isDrawn })),
    within: (session, told) => new MoveSearch(session, place, session.length,
      { told: { ...told, frameBegin: told.steps > told.frameBegin ? 0 : Infinity } }) };
}

const MAKERS = { byte: byteSubject, register: registerSubject, field: fieldSubject,
  cell: cellSubject, colour: colourSubject, bios: biosSubject, dot: dotSubject, move: moveSubject,
  source: () => singleSubject("source"), dacmask: () => singleSubject("dacmask") };

/**
 * What some words name: { words, title, points, isDot, value(state), search(session, steps, again,
 * isDrawn), within(session, told) }; null where they name nothing. The search goes back from the step
 * that is shown, which counts too unless `again` is what the search has told that has found it; null
 * for a first one. `within` searches the cycles of a call that a search has found, as it told.
 */
export function subjectOf(words) {
  const [name, ...rest] = words.split(" ");
  const subject = Object.hasOwn(MAKERS, name) ? MAKERS[name](...rest) : null;
  return subject && { words, ...subject };
}
