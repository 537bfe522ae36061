// The words of bad lines, faults and refusals, which the tools say too:
// python/zaklimot/commands/explain/wordings.json.
import { WORDINGS } from "./wordings.js";
import { grouped, hex } from "../common/bytes.js";

// A place for a value, in Python's form: {name}, {port:03X} in hexadecimal digits, {count:,} in
// groups.
const PLACE = /\{(\w+)(?::(?:0(\d))?([X,]))?\}/g;

/** A value as its place has it. */
function shown(value, digits, form) {
  if (form === "X") return hex(value, Number(digits ?? 1));
  return form === "," ? grouped(value) : String(value);
}

/** A sentence of a part of the table, with values in it. */
export function said(part, which, values = {}) {
  return WORDINGS[part][which].replace(PLACE,
    (_, name, digits, form) => shown(values[name], digits, form));
}
