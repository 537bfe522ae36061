// What can stand at the caret: names of steps, ports, registers by their index, functions of the
// video BIOS.
import { PORTS, groupAt } from "./ports.js";
import { BLOCK, CALL_REGISTERS, SHOWN } from "../script/grammar.js";
import { STEPS } from "./steps.js";
import { SERVICE_ANCHORS } from "./services.js";
import { hex } from "../common/bytes.js";
import { serviceOf } from "./telling.js";

const choice = (text, told) => ({ text, told });

const WINDOWS = [choice("A0000", "graphics"), choice("B0000", "text of mode 7"),
  choice("B8000", "text of mode 3")];

function stepNames() {
  return STEPS.filter(({ name }) => !name.startsWith(";"))
    .map(({ name, form }) => choice(name, form));
}

function portChoices(name) {
  const way = name.startsWith("out") ? "write" : "read";
  return PORTS.filter(port => port[way]).map(port => choice(hex(port.port, 3), port[way]));
}

function indexChoices(port) {
  const group = groupAt(port);
  return group ? group.registers.map(({ name }, index) => choice(hex(index, 2), name)) : [];
}

/** Functions by AX, before a value is written; then the registers that may still follow. */
function callChoices(words, sections) {
  const given = words.map(word => word.split("=", 1)[0].toLowerCase());
  if (given.includes(BLOCK)) return [];
  const last = Math.max(-1, ...given.map(name => CALL_REGISTERS.indexOf(name)));
  const left = CALL_REGISTERS.slice(last + 1)
    .map(name => choice(`${name}=`, "a register of the call"));
  if (last >= 0) return [...left, choice(`${BLOCK} `, "bytes, two digits each")];
  return Object.keys(SERVICE_ANCHORS).map(ah => [Number(ah) << 8, serviceOf(ah << 8, sections)])
    .map(([ax, service]) => choice(`ax=${hex(ax, 4)}`, service?.title ?? ""));
}

function choicesFor([name, ...words], sections) {
  if (name === undefined) return stepNames();
  if (name === "int") return callChoices(words, sections);
  if (name === "show" && !words.length) {
    return Object.keys(SHOWN).map(kind => choice(kind, `show ${kind}`));
  }
  if (/^(in|out)w?$/.test(name) && !words.length) return portChoices(name);
  if (name === "out" && words.length === 1) return indexChoices(parseInt(words[0], 16));
  if (/^(put|get)w?$/.test(name) && !words.length) return WINDOWS;
  return [];
}

/**
 * What can stand at a column of a line: { from, to, list }, the columns of the word that it would
 * replace and the choices { text, told }; null where nothing can be told.
 */
export function choicesAt(line, column, sections) {
  const before = line.slice(0, column);
  if (before.includes(";")) return null;
  const [, whole, word] = before.match(/^(.*?)([^ \t]*)$/), start = whole.length;
  const words = whole.trim().toLowerCase().split(/[ \t\r]+/).filter(one => one);
  const typed = word.toLowerCase();
  const list = choicesFor(words, sections)
    .filter(({ text }) => text.toLowerCase().startsWith(typed));
  // What stands there whole already is no choice.
  if (!list.length || (list.length === 1 && list[0].text.toLowerCase() === typed)) return null;
  return { from: start, to: column, list };
}

/**
 * Whether the choices are shown by themselves: once a step has its name, and not amid a comment.
 */
export function opensItself(line, column) {
  const [before, after] = [line.slice(0, column), line.slice(column)];
  return !after.trim() && /^[ \t]*(in|out|inw|outw|int|show)[ \t]+$/i.test(before);
}
