// The package has what include/zaklimot.h has, and its types name what it has.
import assert from "node:assert/strict";
import test from "node:test";
import { existsSync, readFileSync } from "node:fs";
import * as zaklimot from "../zaklimot.js";

const read = name => readFileSync(new URL(`../${name}`, import.meta.url), "utf-8");
const { Card, Library, STRUCTS, load, sizeOfStruct } = zaklimot;
// The header is not a part of the package.
const HEADER = new URL("../../include/zaklimot.h", import.meta.url);
const header = existsSync(HEADER) ? readFileSync(HEADER, "utf-8") : "";
const bare = header.replace(/\/\*[^]*?\*\//g, " ");
const BYTES = { uint8_t: 1, bool: 1, uint16_t: 2, uint32_t: 4, size_t: 8 };
const types = read("zaklimot.d.ts").replace(/\/\*[^]*?\*\//g, "");

/** A library whose calls are counted, by their names. */
async function countingLibrary() {
  const counts = new Set(), { calls, fonts } = await load();
  const counting = (name, call) => (...words) => {
    counts.add(name);
    return call(...words);
  };
  const exports = Object.fromEntries(Object.entries(calls).map(([name, call]) =>
    [name, typeof call === "function" ? counting(name, call) : call]));
  return { library: new Library({ exports }, fonts), counts };
}

/** Every method of a card, each with arguments that it takes. */
const USES = {
  tryOut: [0x3C4, 2], tryOutWord: [0x3C4, 0x0F02], tryIn: [0x3DA], tryInWord: [0x3C4], tryPut: [0xA0000, 1],
  tryPutWord: [0xA0000, 1], tryGet: [0xA0000], tryGetWord: [0xA0000], tryAdvance: [1], out: [0x3C4, 2],
  outWord: [0x3C4, 0x0F02], in: [0x3DA], inWord: [0x3C4], put: [0xA0000, 1], putWord: [0xA0000, 1], get: [0xA0000],
  getWord: [0xA0000], advance: [1], putBytes: [0xA0000, new Uint8Array(2)], fillBytes: [0xA0000, 1, 2],
  getBytes: [0xA0000, 2], moveBytes: [0xA0000, 0xA0100, 2], clock: [], int10: [{ ax: 0x13 }], tryInt10: [{ ax: 0x13 }],
  block: [{ ax: 0x1300 }], cycles: [{ ax: 0x0E41 }], tryCycles: [{ ax: 0x0E41 }], tryFrame: [], frame: [],
  frameWords: [], tryFrameUpdate: [], frameUpdate: [], frameXrgb: [], frameRgb: [], frameIndexed: [], line: [],
  frameLines: [], peek: [], skipFrame: [], registers: [], colour: [1], beam: [], latches: [], biosData: [],
  plane: [0], screen: [], cell: [0, 0], pixel: [0, 0], cursor: [], showRegs: [], showBeam: [], showLatches: [],
  showBda: [], showCells: [], showDac: [1], showPlane: [0, 0, 1], saveSize: [], save: [],
  saveInto: [new Uint8Array(300000)], saveView: [], restore: [], saveFixed: [7342978], restoreFixed: [],
  runOn: ["in 3DA"], explainStep: ["frame"], explainDot: [], tryExplainDot: [], explainPut: [0xA0000, 1],
  tryExplainPut: [0xA0000, 1], explainGet: [0xA0000],
  tryExplainGet: [0xA0000], rebuild: [],
};
/** Of text and of graphics: the mode in which a method does something. */
const IN_TEXT = ["cell", "showCells"];

/** The methods of a class and of those that it is made of, without those of its own for itself. */
function methodsOf(kind) {
  const found = [];
  for (let { prototype } = kind; prototype !== Object.prototype; prototype = Object.getPrototypeOf(prototype)) {
    found.push(...Object.getOwnPropertyNames(prototype));
  }
  return [...new Set(found)].filter(name => name !== "constructor" && !name.startsWith("_"));
}

/** The names that a class has in the types: of methods, and of all members. */
function membersInTypes(name) {
  const [, body] = types.match(new RegExp(`export class ${name}[^{]*\\{\n([^]*?)\n\\}`));
  return [...body.matchAll(/^ {2}(?:static |readonly )*(\w+)\??[(:<]/gm)].map(([, found]) => found)
    .filter(found => found !== "constructor");
}

test("each call of the header is made by a method", { skip: !header && "the header is not here" }, async () => {
  const { library, counts } = await countingLibrary();
  const all = [...bare.matchAll(/^(?:zak_status|uint32_t) (zak_\w+)\(/gm)].map(([, name]) => name);
  assert.match(read("README.md"), new RegExp(`\\ball ${all.length} of them\\b`));
  const card = library.open(), graphics = card.save(), fixed = card.saveFixed(7342978);
  for (const [name, words] of Object.entries(USES)) {
    card.int10({ ax: IN_TEXT.includes(name) ? 3 : 0x13 });
    const given = name === "restore" ? [graphics] : name === "restoreFixed" ? [fixed] : words;
    card[name](...given);
  }
  library.run("frame");
  library.print(library.assemble("frame"));
  assert.equal(library.explainText("frame"), null);
  const [major, minor] = ["MAJOR", "MINOR"].map(name => Number(bare.match(`#define ZAK_API_${name} (\\d+)`)[1]));
  assert.deepEqual(library.version, { major, minor });
  assert.match(library.statusText(3), /^ZAK_NO_MODE: /);
  card.close();
  assert.deepEqual([...counts].filter(name => name.startsWith("zak_")).sort(), all.sort());
});

test("each method of a card is used above, and stands in the types", () => {
  const getters = ["isOpen", "address", "status", "close"];
  assert.deepEqual(methodsOf(Card).filter(name => !getters.includes(name)).sort(), Object.keys(USES).sort());
  assert.deepEqual([...new Set(membersInTypes("Card"))].sort(),
    [...methodsOf(Card), "open", "library", "fonts"].sort());
});

test("the types of a library, and of all that is exported, have the names that are there", async () => {
  const { library } = await countingLibrary(), own = Object.getOwnPropertyNames(library);
  assert.deepEqual([...new Set(membersInTypes("Library"))].sort(), [...methodsOf(Library), ...own, "of"].sort());
  const named = [...types.matchAll(/^export (?:class|const|function) (\w+)/gm)].map(([, name]) => name);
  assert.deepEqual([...new Set(named)].sort(), Object.keys(zaklimot).sort());
  for (const name of ["STATUS", "WHY", "GROUP", "PART", "MISTAKE"]) {
    const [, listed] = types.match(new RegExp(`const ${name}: Readonly<Record<([^]*?),\\s*number>>`));
    assert.deepEqual([...listed.matchAll(/"(\w+)"/g)].map(([, one]) => one), Object.keys(zaklimot[name]), name);
  }
});

/** The fields of a struct as the header declares them: [name, bytes, how many]. */
function fieldsOf(name) {
  const [, body] = header.match(new RegExp(`typedef struct ${name} \\{([^}]*)\\}`));
  return body.replace(/\/\*[^]*?\*\//g, "").split(";").filter(part => part.trim()).flatMap(part => {
    const [, type, names] = part.trim().match(/^(\w+)\s+([^]*)$/);
    return names.split(",").map(one => {
      const [, own, count] = one.trim().match(/^(\w+)(?:\[(\d+)\])?$/);
      // A struct of bytes within another is told as its bytes.
      return BYTES[type] ? [own, BYTES[type], Number(count ?? 1)] : [own, 1, STRUCTS[type].length];
    });
  });
}

test("the structs have the fields of the header", { skip: !header && "the header is not here" }, () => {
  const all = [...bare.matchAll(/typedef struct (\w+) \{/g)].map(([, name]) => name)
    .filter(name => name !== "zak_card");
  assert.deepEqual(Object.keys(STRUCTS).sort(), all.sort());
  for (const [name, fields] of Object.entries(STRUCTS)) {
    assert.deepEqual(fields.map(one => [one.name, one.bytes, one.count]), fieldsOf(name), name);
    const [, body] = header.match(new RegExp(`typedef struct ${name} \\{([^}]*)\\}`));
    const yesNo = fields.filter(one => one.isFlag).map(one => one.name), bools = body.match(/bool (\w+)/)?.[1];
    assert.ok(!bools || yesNo.includes(bools), `${bools} of ${name} is a truth`);
  }
  assert.equal(sizeOfStruct("zak_timing"), 32);
});

test("the numbers are the header's", { skip: !header && "the header is not here" }, () => {
  const groups = { STATUS: "ZAK_", WHY: "ZAK_WHY_", GROUP: "ZAK_GROUP_", PART: "ZAK_PART_", MISTAKE: "ZAK_MISTAKE_" };
  const listed = [...bare.matchAll(/\b(ZAK_\w+) = (\d+)/g)].map(([, name, number]) => [name, Number(number)]);
  const others = Object.values(groups).slice(1);
  for (const [group, front] of Object.entries(groups)) {
    const isOther = name => group === "STATUS" && others.some(one => name.startsWith(one));
    const wanted = listed.filter(([name]) => name.startsWith(front) && !isOther(name))
      .map(([name, number]) => [name.slice(front.length), number]);
    assert.deepEqual(zaklimot[group], Object.fromEntries(wanted));
  }
  const defined = Object.fromEntries([...bare.matchAll(/^#define ZAK_(\w+) +(.+?) *$/gm)]
    .map(([, name, text]) => [name, text]));
  const valueOf = text => {
    const others = text.replace(/ZAK_(\w+)/g, (_, one) => `(${valueOf(defined[one])})`);
    return Number(new Function(`return ${others.replace(/\b(0x[0-9A-F]+|\d+)u\b/g, "$1")}`)());
  };
  const own = ["FONTS_SIZE", "MOST_DOTS", "NEVER", "WIDEST", "HIGHEST", "MOST_RGB", "MOST_TABLE", "MOST_TEXT",
    "MOST_STATUS_TEXT", "MOST_REASON_TEXT", "MOST_MISTAKE_TEXT", "OPAQUE", "ONCE", "FIRST_STATE",
    "MOST_STATE", "API_VERSION"];
  const left = Object.keys(defined).filter(name => !own.includes(name));
  assert.deepEqual(left.sort(), ["API_MAJOR", "API_MINOR", "CARD_INIT"]);
  for (const name of own) assert.equal(zaklimot[name], valueOf(defined[name]), name);
  const { version } = JSON.parse(read("package.json"));
  assert.equal(version, `${valueOf(defined.API_MAJOR)}.${valueOf(defined.API_MINOR)}.0`);
});
