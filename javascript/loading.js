// Where the module comes from: its file lies beside this one, and so does the font's.
import { Library } from "./src/library.js";

const NOWHERE = "this file was joined with others: give `load` the bytes of the module and of the fonts";

let usual = null;

/** The bytes of a file. */
async function bytesAt(place) {
  if (place.protocol === "file:" && globalThis.process?.versions?.node) {
    // The name stands in a variable, so that tools which join files for browsers leave it alone.
    const files = "node:fs/promises", { readFile } = await import(/* @vite-ignore */ /* webpackIgnore: true */ files);
    return new Uint8Array(await readFile(place));
  }
  const answer = await fetch(place);
  if (!answer.ok) throw new Error(`${place} is not there: ${answer.status} ${answer.statusText}`);
  return new Uint8Array(await answer.arrayBuffer());
}

/** The bytes of what is not given: the module, and the fonts. */
async function foundOf({ module, fonts }) {
  if (module && fonts) return [module, fonts];
  // A tool that joins all to one file takes `import.meta.url` for null, and leaves the way to files out.
  if (import.meta.url) {
    // Tools that carry files along look for these words.
    const places = [new URL("./zaklimot.wasm", import.meta.url), new URL("./zaklimot.fnt", import.meta.url)];
    return Promise.all([module ?? bytesAt(places[0]), fonts ?? bytesAt(places[1])]);
  }
  throw new TypeError(NOWHERE);
}

async function loaded(given) {
  return Library.of(...await foundOf(given));
}

/**
 * Loads the module. Without `module`, its bytes or a WebAssembly.Module, and `fonts`, the bytes of a
 * font file, the two files of this package are read, once for all calls.
 */
export function load(given = null) {
  if (given) return loaded(given);
  usual ??= loaded({}).catch(error => {
    usual = null;
    throw error;
  });
  return usual;
}
