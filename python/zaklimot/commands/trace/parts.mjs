// What the page's machine needs outside of a browser, out of the page as built: its modules, its programs and
// the font. The tests of the page name another page, or another module of the adapter, by ZAKLIMOT_PAGE and
// ZAKLIMOT_MODULE.
import { createDeflateRaw, createInflateRaw, gunzipSync } from "node:zlib";
import { readFileSync } from "node:fs";
import { Duplex } from "node:stream";
import { fileURLToPath } from "node:url";
import { compiledModules } from "../../../../page/machine/machine.js";

/** Streams as browsers have them: those of node 18 know no raw deflate, which its zlib knows. */
function withRaw(Stream, create) {
  try {
    return new Stream("deflate-raw") && Stream;
  } catch {
    return function (format) {
      return format === "deflate-raw" ? Duplex.toWeb(create()) : new Stream(format);
    };
  }
}

globalThis.CompressionStream = withRaw(CompressionStream, createDeflateRaw);
globalThis.DecompressionStream = withRaw(DecompressionStream, createInflateRaw);

export const TOP = fileURLToPath(new URL("../../../../", import.meta.url));
export const PAGE = process.env.ZAKLIMOT_PAGE ?? TOP + "page/zaklimot.html";

export const FONTS = new Uint8Array(readFileSync(TOP + "fonts/zaklimot.fnt"));

/** The JSON object that the page as built has in it. */
export function pageData(page = PAGE) {
  const found = readFileSync(page, "utf-8").match(
    /<script type="application\/json" id="zaklimot-data">([^]*?)<\/script>/);
  return JSON.parse(found[1]);
}

/** The module's bytes. */
export function moduleBytes() {
  const file = process.env.ZAKLIMOT_MODULE;
  return file ? readFileSync(file) : gunzipSync(Buffer.from(pageData().module, "base64"));
}

/** The machine's modules, compiled, and its programs: { name, bytes }. */
export async function machineParts() {
  const { cpu, reads, programs } = pageData().machine;
  const [two, three] = [cpu, reads].map(text => gunzipSync(Buffer.from(text, "base64")));
  const modules = await compiledModules({ adapter: moduleBytes(), cpu: two, reads: three });
  return { modules, programs: programs.map(({ name, bytes }) =>
    ({ name, bytes: new Uint8Array(Buffer.from(bytes, "base64")) })) };
}
