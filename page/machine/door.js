// The machine's door: all that the rest of the page has of the machine. Who reads the debugger needs no other file of
// this folder; page/tests/doors.mjs sees to that.
export { MachineRoom } from "./room.js";
export { Runs } from "./runs.js";
export { isSavedRun } from "./savedrun.js";
export { MOST_FILES, MOST_UNPACKED } from "./zip.js";
