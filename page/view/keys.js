// What keys do. The help shows this table.
import { element } from "../common/dom.js";

/** [keys as the help tells them, what they do, the key events, the control that is clicked]. */
export const KEYS = [
  ["→ or F10", "a step forward", ["ArrowRight", "F10"], "next"],
  ["← or Shift+F10", "a step back", ["ArrowLeft", "Shift+F10"], "back"],
  ["I", "into the BIOS call of this step: its cycles one by one", ["i"], "into"],
  ["F11", "a step forward, into a BIOS call", ["F11"], "intonext"],
  ["Esc or Shift+F11", "out of a BIOS call, back to its step", ["Shift+F11"], "out"],
  ["Shift+→", "to the end of the next frame", ["Shift+ArrowRight"], "frameafter"],
  ["Shift+←", "to the frame before", ["Shift+ArrowLeft"], "framebefore"],
  ["R or F8", "run to the next breakpoint, or stop", ["r", "F8"], "run"],
  ["Shift+R", "back to the last breakpoint", ["Shift+R"], "runback"],
  ["Home, End", "to power-on, to the end", ["Home"], "first"],
  ["", "", ["End"], "last"],
  ["P", "show frame after frame, or stop", ["p"], "play"],
  ["G", "type a step or a line to go to", ["g"], "gotonumber"],
  ["1 to 8", "registers, memory, cells, colours, BIOS data, breakpoints, write, watches",
    ["1", "2", "3", "4", "5", "6", "7", "8"], "tab"],
  ["W", "ask where a dot comes from, or what changed a byte, register or colour", ["w"], "ask"],
  ["C", "to the last step that changed what was asked about last", ["c"], "again"],
  ["E, Esc", "into the script, and out of it", ["e"], "text"],
  ["A, X, D, B, Z", "4:3, pixelated, as drawn so far, beam, zoom", ["a"], "aspect"],
  ["", "", ["x"], "sharp"], ["", "", ["d"], "sofar"],
  ["", "", ["b"], "hairs"], ["", "", ["z"], "zoom"],
  ["F", "the picture on the full screen; Esc leaves it", ["f"], "full"],
  ["+, −, 0", "the picture larger, smaller, or as large as its pane",
    ["+", "Shift++", "="], "larger"],
  ["", "", ["-"], "smaller"], ["", "", ["0"], "fill"],
  ["N, Shift+N", "the next difference from another run, the one before", ["n"], "nextdifference"],
  ["", "", ["Shift+N"], "lastdifference"],
  ["T, V", "the other run's picture and this one by turns, the next view", ["t"], "flip"],
  ["", "", ["v"], "nextview"],
  ["U", "back to the script that stood here before, or the run that was switched off", ["u"], "takeback"],
  ["O, L, S", "open a file, make a link, save", ["o"], "openfile"],
  ["", "", ["l"], "share"], ["", "", ["s"], "savemenu"],
  ["/ or Ctrl+Shift+F", "find a step by its words or its answer", ["/", "Shift+/"], "findsteps"],
  ["F1", "the steps of a script, each with an example", ["F1"], "language"],
  ["?", "this help", ["?", "Shift+?"], "help"],
];
/** What keys do in the script. */
const IN_THE_SCRIPT = [
  ["Ctrl+Enter", "go to the line of the caret"],
  ["F9 or Ctrl+B", "set or remove a breakpoint at the line of the caret"],
  ["Ctrl+Z, Ctrl+Y", "undo a change, also that another script was loaded; do it again"],
  ["Ctrl+F, F3", "find words in the script; the next find"],
  ["Ctrl+Space", "what can stand at the caret: Enter or Tab takes it, Esc closes the list"],
  ["Ctrl+I or Shift+F1", "what the word at the caret means; Esc closes it"],
  ["Tab", "leaves the script, as Esc does"],
  ["F8, F10, F11", "run, a step forward, a step forward into a BIOS call"],
];

/** What keys do in the list of steps; the others do there what they do in the page. */
const IN_THE_STEPS = [
  ["↑, ↓", "a step back, a step forward"],
  ["Page Up, Page Down", "as many steps as are in sight"],
  ["Home, End", "to power-on, to the end"],
];

/** A key event in the words of the table. */
export function keyName(event) {
  const key = event.key.length === 1 && !event.shiftKey ? event.key.toLowerCase() : event.key;
  return (event.shiftKey ? "Shift+" : "") + key;
}

/** Whether keys that are pressed at an element are letters of a text. */
export function takesText({ tagName, type, isContentEditable }) {
  const isText = tagName === "INPUT" && !["checkbox", "button", "range"].includes(type);
  return tagName === "TEXTAREA" || isText || isContentEditable === true;
}

/** Whether a key is that of a list of choices, which goes up and down and to letters. */
export function isOfList({ target: { tagName }, key }) {
  return tagName === "SELECT" && !/^(Arrow(Left|Right)|Home|End|F\d+)$/.test(key);
}

/** What the help shows. */
export function keyTables() {
  const row = ([keys, does]) => element("tr", {}, element("th", { scope: "row" }, keys),
    element("td", {}, does));
  const table = (title, rows) => element("table", {}, element("caption", {}, title),
    element("tbody", {}, ...rows.filter(([keys]) => keys).map(row)));
  const hints = ["Click a line's number to set a breakpoint. " +
    "Drop a script, a font or a trace anywhere to open it. " +
    "Drag a line between two parts of the page, or go to it by Tab: arrows move it.",
  ].map(text => element("p", {}, text));
  return [table("Keys", KEYS), table("Keys in the script", IN_THE_SCRIPT),
    table("Keys in the list of steps", IN_THE_STEPS), ...hints];
}
