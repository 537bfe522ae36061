// The registers by name with their fields; what the last step has changed is marked.
import { GROUPS, fieldValue, indexPort, valuesOf } from "../script/registers.js";
import { Parts } from "../common/parts.js";
import { byId, classesOf, element, pageLink, setAll, setText } from "../common/dom.js";
import { hex } from "../common/bytes.js";
import { isWritten } from "../common/rows.js";

/** A field, whose value is to come; one that has no effect is grey. */
function fieldOf(field) {
  const value = element("b"), made = element("span", {}, `${field.name} `, value);
  made.title = `bits ${field.bits}${field.isStored ? ": kept without effect" : ""}`;
  return { field, made, value };
}

/** The numbers of the bits that are kept without effect. */
function storedBits(register) {
  return register.fields.filter(field => field.isStored).flatMap(field =>
    field.bits.split(",").flatMap(part => {
      const [high, low = high] = part.split("-").map(Number);
      return Array.from({ length: high - low + 1 }, (_, i) => low + i);
    }));
}

/**
 * The eight bits of a register from bit 7 on; those that it doesn't keep, or without effect, are grey. Bits
 * one after the other that look alike are one element, so that the browser has less to draw.
 */
function bitRow(register) {
  const stored = storedBits(register), runs = [];
  for (let bit = 7; bit >= 0; bit--) {
    const isGrey = !(register.kept >> bit & 1) || stored.includes(bit);
    if (runs.at(-1)?.isGrey === isGrey) runs.at(-1).bits.push(bit);
    else runs.push({ isGrey, bits: [bit], made: element("i", { className: isGrey ? "stored" : "" }) });
  }
  const made = element("span", { className: "bits", ariaHidden: "true" }, ...runs.map(run => run.made));
  return { made, runs };
}

/** Some bits of a register in digits, with a dot for those that it doesn't keep, and a blank behind bit 4. */
function digitsOf(bits, { kept }, value) {
  return bits.map(bit => (kept >> bit & 1 ? String(value >> bit & 1) : "·") + (bit === 4 ? " " : "")).join("");
}

/** The row of a register. Its values are written into it, and only those that are others than before. */
class RegisterRow {
  constructor(base, group, i) {
    const register = group.registers[i], { made, runs } = bitRow(register);
    const isOne = register.fields.length === 1 && !register.fields[0].isStored;
    Object.assign(this, { register, runs, value: element("td", { className: "value" }) });
    this.fields = isOne ? [] : register.fields.map(fieldOf);
    for (const { field: { bits }, made: one } of this.fields) {
      one.dataset.subject = `field ${group.id} ${hex(i, 2)} ${bits}`;
    }
    const link = pageLink(base, "REGISTERS.md", group.anchor, register.name);
    this.made = element("tr", {},
      element("th", { scope: "row" }, group.registers.length > 1 ? hex(i, 2) : ""), this.value,
      element("td", { className: "eight" }, made), element("td", { className: "name" }, link),
      element("td", { className: "fields" }, ...this.fields.map(one => one.made)));
    this.made.dataset.subject = `register ${group.id} ${hex(i, 2)}`;
  }

  fill(now, before, isPicked) {
    const isChanged = now !== before, { register } = this;
    if (isWritten(this, now, before, isPicked)) return;
    setText(this.value, hex(now, 2));
    for (const { bits, made } of this.runs) setText(made, digitsOf(bits, register, now));
    for (const { field, made, value } of this.fields) {
      const part = fieldValue(field, now);
      setText(value, hex(part, 1));
      setAll(made, { className: classesOf("field", field.isStored && "stored", part === 0 && "zero") });
    }
    setAll(this.made, { className: classesOf(isChanged && "changed", isPicked && "picked"),
      title: isChanged ? `${hex(before, 2)} before the last step` : "" });
  }
}

/** The index that picks a register of a group; -1 where none does. */
function pickedIndex(group, registers) {
  const { seqIndex, gfxIndex, crtcIndex, attrIndex } = registers;
  return { seq: seqIndex, gfx: gfxIndex, crtc: crtcIndex, attr: attrIndex & 31 }[group.id] ?? -1;
}

/** What stands behind a group's title. */
function groupNote(group, registers) {
  const port = indexPort(registers, group), parts = [];
  const index = group.id === "attr" ? registers.attrIndex : pickedIndex(group, registers);
  if (port) parts.push(`${hex(port, 3)}, index ${hex(index, 2)}`);
  if (group.id === "attr") {
    parts.push(`next is ${registers.attrIsData ? "data" : "an index"}`);
    parts.push(`palette ${registers.attrIndex & 32 ? "shown" : "hidden"}`);
  }
  return parts.length ? ` ${parts.join(", ")}` : "";
}

/** A table of names and values, whose names are the same each time. */
export class PlainTable {
  /** `subjects`: the words by which rows are asked about, by their numbers; others are not. */
  constructor(title, subjects = []) {
    const body = element("tbody");
    Object.assign(this, { body, rows: [], subjects });
    this.made = element("table", { className: "plain" }, element("caption", {}, title), body);
  }

  /** Writes the values; each row is [name, value, the value before]. */
  fill(told) {
    told.forEach(([name, now, old], i) => {
      const row = this.rows[i] ??= this.row(name, this.subjects[i]), isChanged = now !== old;
      if (isWritten(row, now, old)) return;
      setText(row.lastChild, now);
      setAll(row, { className: isChanged ? "changed" : "",
        title: isChanged ? `${old} before the last step` : "" });
    });
  }

  row(name, subject) {
    const made = element("tr", {}, element("th", { scope: "row" }, name), element("td"));
    if (subject) {
      made.dataset.subject = subject;
      // Keys reach it too.
      made.lastChild.tabIndex = 0;
    }
    this.body.append(made);
    return made;
  }
}

/** The rows of a table of what two states tell by the same words. */
export function rowsOfStates(before, after, told) {
  const [old, now] = [before, after].map(told);
  return now.map(([name, value], i) => [name, value, old[i][1]]);
}

/** The row of the table of latches, beam and DAC that has the DAC mask. */
const DAC_MASK_ROW = 9;

function otherRows(state) {
  const { beam, registers, latches } = state;
  return [
    ["latches of planes 0 to 3", Array.from(latches, byte => hex(byte, 2)).join(" ")],
    ["beam", `line ${beam.line}, character ${beam.character}, dot ${beam.dot}`],
    ["frame, modulo 32", String(beam.frame)],
    ["base and scan line", `${hex(beam.base, 4)}, ${beam.scan}`],
    ["second half of a doubled line", String(beam.half)],
    ["past the line compare", String(beam.split)],
    ["input status 1", statusOne(state)],
    ["next write to 3C0", registers.attrIsData ? "data" : "an index"],
    ["DAC index, next component",
      `${hex(registers.dacIndex, 2)}, ${["red", "green", "blue"][registers.dacComponent]}`],
    ["DAC mask", hex(registers.dacMask, 2)],
    ["red and green that wait", `${hex(registers.dacWaitingRed, 2)} ${hex(registers.dacWaitingGreen, 2)}`],
  ];
}

/** Input status 1 as a program would read it. */
export function statusOne(state) {
  const value = state.scratch.tryIn(state.registers.misc & 1 ? 0x3da : 0x3ba);
  return hex(value, 2) + (value & 8 ? ": vertical retrace" : value & 1 ? ": no display dot" : ": a display dot");
}

/** The groups that stand in the first of two columns, where there is room for two. */
const FIRST_COLUMN = ["misc", "seq", "gfx", "crtc"];

/** The panel of registers. */
export class RegisterPanel {
  constructor(base) {
    this.more = new PlainTable("Latches, beam and DAC", { [DAC_MASK_ROW]: "dacmask" });
    this.groups = GROUPS.map(group => {
      const note = element("small"), rows = group.registers.map((_, i) => new RegisterRow(base, group, i));
      const caption = element("caption", {}, group.title, note);
      if (group.id === "attr") note.dataset.subject = "source";
      const table = element("table", { className: "group" }, caption,
        element("tbody", {}, ...rows.map(row => row.made)));
      return { group, note, rows, table };
    });
    const tables = isFirst => this.groups.filter(({ group }) => FIRST_COLUMN.includes(group.id) === isFirst)
      .map(one => one.table);
    this.root = element("div", { className: "groups" }, element("div", {}, ...tables(true)),
      element("div", {}, ...tables(false), this.more.made));
    const writers = this.groups.map(one => [one.table, () => this.fill(one)]);
    this.parts = new Parts(byId("panel"), new Map([...writers, [this.more.made, () => this.fillMore()]]));
  }

  made(seen) {
    this.seen = seen;
    this.parts.write();
    return this.root;
  }

  fillMore() {
    const { before, after } = this.seen;
    this.more.fill(rowsOfStates(before, after, otherRows));
  }

  fill({ group, note, rows }) {
    const { before: { registers: old }, after: { registers: now } } = this.seen;
    const [values, before] = [now, old].map(registers => valuesOf(registers, group.id));
    const picked = pickedIndex(group, now);
    setText(note, groupNote(group, now));
    rows.forEach((row, i) => row.fill(values[i], before[i], i === picked));
  }
}
