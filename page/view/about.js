// What the page is and what it can do, which the help shows before its keys.
import { element } from "../common/dom.js";

const IS = "This page is a VGA display adapter that you can take apart. It answers as the real one did, runs in your " +
  "browser, and sends nothing anywhere.";
/** What somebody wants to do, and how it is done. */
const DOES = [
  ["Change what it draws", "Type in the script at the left. Each line is a step, and the picture follows. F1 lists all steps, " +
    "with examples."],
  ["Find out what a word means", "Rest the pointer on it, or press Ctrl+I at it. Ctrl+Space lists what can stand there."],
  ["Go through it", "→ takes a step, and ← goes back. Shift goes by frames, and P plays them."],
  ["Ask who drew a dot", "Click the dot. A card leads to the step that drew it, the one that changed it, and the one that " +
    "moved it there."],
  ["Run your game", "Drop it on the page: a .COM or .EXE file, a ZIP, a folder, or the image of a disk that starts. Or choose " +
    "a program of the list at the top. F12 pauses it, and its last frames stand there as steps."],
  ["See registers and memory", "Open a tab below the picture, or press 1 to 8. What the last step changed is yellow."],
  ["Get back what was there", "Press U, or the button beside the list: the script before, or the run that was switched off. The " +
    "list has your last ones."],
  ["Compare it with another adapter", "Drop a report, a trace or a PNG of that one."],
  ["Keep it", "Whatever you type is there again after a reload. Save makes files, and Link makes an address with the script " +
    "in it."],
];

/** The elements that tell it. */
export function aboutPage() {
  const row = ([what, how]) => element("tr", {}, element("th", { scope: "row" }, what), element("td", {}, how));
  return [element("p", {}, IS), element("table", { className: "about" }, element("caption", {}, "What you can do"),
    element("tbody", {}, ...DOES.map(row)))];
}
