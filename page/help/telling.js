// What a word of a script means, for the help beside it: a title, sentences, and a section to read.
import { PORTS, groupAt, registerOf } from "./ports.js";
import { SERVICE_ANCHORS } from "./services.js";
import { fieldValue } from "../script/registers.js";
import { hex } from "../common/bytes.js";
import { stepOf } from "./steps.js";
import { wordsIn } from "../script/words.js";

const SCRIPT = { page: "SCRIPT.md", anchor: "the-text", title: "the steps" };
const INDEX_DIGITS = 2;

/** A register with the values of its fields: { title, lines, link }. */
function toldRegister({ group, index, register, value }) {
  const number = group.registers.length > 1 ? ` ${hex(index, INDEX_DIGITS)}` : "";
  const link = { page: "REGISTERS.md", anchor: group.anchor, title: group.title };
  if (!register) {
    return { title: `${group.title}: no register has index ${hex(index, 2)}`, lines: [], link };
  }
  const name = `${group.title}${number}: ${register.name}`;
  if (value === null || Number.isNaN(value)) return { title: name, lines: [], link };
  const lines = register.fields.map(field => {
    const held = fieldValue(field, value);
    const bits = `bit${/[-,]/.test(field.bits) ? "s" : ""} ${field.bits}`;
    return `${field.name} (${bits}): ${hex(held, 1)}${field.isStored ? ", only stored" : ""}`;
  });
  const lost = value & ~register.kept;
  if (lost) lines.push(`bits that are not kept: ${hex(lost, 2)}`);
  return { title: `${name} becomes ${hex(value & register.kept, 2)}`, lines, link };
}

function toldPort(name, port) {
  const found = PORTS.find(one => one.port === port);
  const link = { page: "REGISTERS.md", anchor: "ports", title: "all ports" };
  const what = found?.[name.startsWith("out") ? "write" : "read"];
  return { title: `Port ${hex(port, 3)}: ${what || "nothing is decoded there"}`, lines: [], link };
}

/**
 * The function of the video BIOS that a value of AX calls: { title, anchor, part, row }, the part
 * that AL picks and what it takes, in the documentation's words; null for no function. `sections`:
 * those of the page's data.
 */
export function serviceOf(ax, sections) {
  const anchor = SERVICE_ANCHORS[ax >> 8], section = anchor && sections["SERVICES.md"]?.[anchor];
  if (!section) return null;
  const [head = [], ...rows] = section.blocks.find(([kind]) => kind === "table")?.slice(1) ?? [];
  const al = hex(ax & 255, 2), isByAl = head.length > 0 && plainText(head[0]) === "AL";
  const begin = isByAl ? `${al} ` : "Arguments";
  const found = rows.find(([first]) => plainText(first).startsWith(begin));
  const part = isByAl && found ? `: ${plainText(found[0]).slice(al.length + 1)}` : "";
  return { title: section.title, anchor, part, row: found?.[1] ?? [] };
}

/** The plain text of some of the documentation's words. */
export function plainText(inline) {
  return inline.map(part => (typeof part === "string" ? part : plainText(part.at(-1)))).join("");
}

function toldCall(words, sections) {
  const value = words.find(({ text }) => /^ax=[0-9a-f]{1,4}$/i.test(text))?.text.slice(3) ?? "0";
  const ax = parseInt(value, 16), found = serviceOf(ax, sections);
  const link = { page: "SERVICES.md", anchor: found?.anchor ?? "refusals", title: "the function" };
  const none = `The video BIOS has no function ${hex(ax >> 8, 2)}`;
  if (!found) return { title: none, lines: [], link };
  const sentences = plainText(found.row).split(/(?<=\.) /).filter(text => text);
  const title = `Function ${found.title}, AL ${hex(ax & 255, 2)}${found.part}`;
  return { title, lines: sentences, link };
}

/**
 * What the word at a place of the text means: { from, to, title, lines, link }, columns of its line
 * and { page, anchor, title } of a section; null where there is nothing to tell. `lineText(line)`
 * answers a line by its number from 1.
 */
export function helpAt(lineText, line, column, sections) {
  const words = wordsIn(lineText(line)), at = words.findIndex(({ at, text }) => column >= at &&
    column <= at + text.length);
  if (at < 0) return null;
  const { at: from, text } = words[at], within = { from, to: from + text.length };
  const [name, ...others] = words.map(word => word.text.toLowerCase());
  const told = at === 0 && name !== "int" ? toldStep([name, ...others])
    : toldNumbers(name, others, at, { lineText, line, sections, words });
  return told && { ...within, ...told };
}

function toldStep(words) {
  const step = stepOf(words);
  return step && { title: step.form, lines: [step.does], link: SCRIPT };
}

function toldNumbers(name, others, at, { lineText, line, sections, words }) {
  if (name === "int") return toldCall(words, sections);
  if (!/^(in|out)w?$/.test(name)) return toldStep([name, ...others]);
  const numbers = others.slice(0, 2).map(word => parseInt(word, 16));
  if (numbers.some(Number.isNaN)) return toldStep([name]);
  const register = registerOf(name, numbers, lineText, line);
  if (register && (at === 2 || name !== "outw")) return toldRegister(register);
  const group = groupAt(numbers[0]);
  if (group && at === 2 && name === "out") {
    const [, index] = numbers;
    return toldRegister({ group, index, register: group.registers[index] ?? null, value: null });
  }
  return toldPort(name, numbers[0]);
}
