// What the tests stand on: the module, the fonts and the examples. The module is that of
// ZAKLIMOT_MODULE, a file of wasm, or else that of the page as built.
import { mkdtempSync, readFileSync, readdirSync, rmSync } from "node:fs";
import { tmpdir } from "node:os";
import { Adapter } from "../run/adapter.js";
import { TOP, moduleBytes } from "../../python/zaklimot/commands/trace/parts.mjs";

export { FONTS, PAGE, TOP, machineParts, moduleBytes, pageData }
  from "../../python/zaklimot/commands/trace/parts.mjs";

/** The style sheets of the page, joined as tools/zaklimot_dev/page/page.py joins them. */
export function pageStyle() {
  const names = readdirSync(`${TOP}page`, { recursive: true }).filter(name => name.endsWith(".css"));
  const others = names.filter(name => name !== "style.css").sort();
  return ["style.css", ...others].map(name => readFileSync(`${TOP}page/${name}`, "utf-8")).join("");
}

/** A new instance of the module. */
export async function loadAdapter() {
  return Adapter.of(moduleBytes());
}

/** The number that LEB128 writes, and where it ends. */
function leb(bytes, at) {
  let value = 0, shift = 0;
  for (;; shift += 7) {
    const byte = bytes[at++];
    value += (byte & 127) * 2 ** shift;
    if (byte < 128) return [value, at];
  }
}

function lebBytes(value) {
  return value < 128 ? [value] : [value % 128 + 128, ...lebBytes(Math.floor(value / 128))];
}

/** A module whose memory has so many pages at most. */
export function withMemory(module, pages) {
  for (let at = 8; at < module.length;) {
    const [size, begin] = leb(module, at + 1);
    if (module[at] === 5) {
      const [first] = leb(module, begin + 2), body = [1, module[begin + 1] | 1, ...lebBytes(first),
        ...lebBytes(pages)];
      return Buffer.concat([module.subarray(0, at), Buffer.from([5, ...lebBytes(body.length), ...body]),
        module.subarray(begin + size)]);
    }
    at = begin + size;
  }
  throw new Error("the module has no memory");
}

/** The examples: { name, text }. */
export function examples() {
  return readdirSync(TOP + "examples").filter(name => name.endsWith(".vga")).sort()
    .map(name => ({ name, text: readFileSync(`${TOP}examples/${name}`, "utf-8") }));
}

/** Runs a session to its end. */
export function runWhole(session) {
  while (session.runFor(1000));
  return session;
}

/** What a command of the tools writes into the file `out` of a folder. */
export function written(make) {
  const folder = mkdtempSync(tmpdir() + "/zaklimot-");
  try {
    make(folder);
    return readFileSync(folder + "/out");
  } finally {
    rmSync(folder, { recursive: true });
  }
}
