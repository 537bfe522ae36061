// The machine is a room with one door: what the rest of the page has of it, it has by machine/door.js.
import assert from "node:assert/strict";
import { readFileSync, readdirSync } from "node:fs";
import test from "node:test";
import { posix } from "node:path";
import { TOP } from "./loading.mjs";

const PAGE = `${TOP}page/`, ROOM = "machine/", DOOR = "machine/door.js", TESTS = "tests/";
const IMPORT = /^(?:import|export) (?:\{([^}]*)\} from )?"(\.[^"]+)";/gm;

/** The imports of the page's own modules: { by, from, names } each, with paths from the page's folder. */
function importsIn(read, paths) {
  return paths.flatMap(by => Array.from(read(by).matchAll(IMPORT), ([, names = "", from]) =>
    ({ by, from: posix.join(posix.dirname(by), from), names: names.split(",").map(name => name.trim()).filter(Boolean) })));
}

/** Those that lead into the machine's room by another way than its door. */
const inByWindows = imports => imports.filter(({ by, from }) =>
  from.startsWith(ROOM) && from !== DOOR && !by.startsWith(ROOM));

const paths = readdirSync(PAGE, { recursive: true }).filter(path => path.endsWith(".js") && !path.startsWith(TESTS));
const imports = importsIn(path => readFileSync(PAGE + path, "utf-8"), paths);

test("nothing of the page imports a file of the machine but its door", () => {
  assert.ok(imports.length > 200, `${imports.length} imports`);
  assert.deepEqual(inByWindows(imports), []);
  assert.deepEqual(imports.filter(({ by, from }) => by.startsWith(ROOM) && by !== DOOR && from === DOOR), []);
});

test("the door has what the rest of the page uses, and nothing more", () => {
  const names = list => [...new Set(list.flatMap(one => one.names))].sort();
  assert.deepEqual(names(imports.filter(({ by }) => by === DOOR)), names(imports.filter(({ from }) => from === DOOR)));
});

test("an import that passes the door by is found, over several lines too", () => {
  const text = 'import { Runs } from "../machine/door.js";\nimport {\n  sumOf,\n} from "../machine/keptstate.js";\n';
  const found = inByWindows(importsIn(() => text, ["view/view.js"]));
  assert.deepEqual(found, [{ by: "view/view.js", from: "machine/keptstate.js", names: ["sumOf"] }]);
  assert.deepEqual(inByWindows(importsIn(() => text, ["machine/room.js"])), []);
});
