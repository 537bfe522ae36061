// What is opened: files that are chosen or dropped, and what the address, the browser's history, or
// the tool that made the page asks for.
import { ask } from "../compare/asking.js";
import { byId } from "../common/dom.js";
import { bytesOfBase64 } from "../common/bytes.js";
import { Trouble } from "../common/trouble.js";
import { entriesOfDrop, filesOfEntries } from "./folders.js";
import { bytesOfFiles, contentsOf, printedText, readFragment } from "./share.js";

/** What the page shows first. */
const FIRST_EXAMPLE = "copper-bars";

/**
 * Has files handed to `opened` that are chosen, or dropped anywhere in the page; with what is dropped as
 * entries, if it is a folder or several things.
 */
export function listenToFiles(opened) {
  const box = byId("drop");
  byId("file").addEventListener("change", ({ target }) => {
    opened([...target.files]);
    target.value = "";
  });
  // Text that is dragged is the editor's.
  const hasFiles = event => event.dataTransfer?.types.includes("Files");
  document.addEventListener("dragover", event => {
    if (!hasFiles(event)) return;
    event.preventDefault();
    box.hidden = false;
  });
  document.addEventListener("dragleave", ({ relatedTarget }) => {
    box.hidden = relatedTarget === null;
  });
  document.addEventListener("drop", event => {
    box.hidden = true;
    if (!hasFiles(event)) return;
    event.preventDefault();
    const entries = entriesOfDrop(event.dataTransfer);
    const isPlain = entries.length < 2 && !entries[0]?.isFolder;
    opened([...event.dataTransfer.files], isPlain ? [] : entries);
  });
}

/** Opens files and links. Of several that are opened at a time, the last one stands there. */
export class Opener {
  #data;
  #scripts;
  #names;
  #heard;
  #count = 0;

  /**
   * `data`: what the page was built with; `tabs`: the names of the tabs. `heard` has `adapter()`,
   * the module that prints bytes; `isEmpty()`, whether no script stands there; `script(text,
   * script, asked)`; `software(bytes, name)`, which takes what a machine can run, and answers whether
   * it is such; `folder(files, name)`, which does the same of files that lie together; `other(found,
   * name)`, what is to be compared with the run, as contentsOf tells it; `fonts(fonts, name)`, fonts of
   * a file, or without a name those that come with the script that follows; `tab(name)`; and `step(number)`.
   */
  constructor(data, scripts, tabs, heard) {
    this.#data = data;
    this.#scripts = scripts;
    this.#names = { tabs, examples: data.scripts.map(({ name }) => name) };
    this.#heard = heard;
  }

  /** Opens the one file of a list, or what was dropped as entries: a folder, or files that lie together. */
  async openFiles(files, entries = []) {
    if (entries.length) return this.#openEntries(entries);
    if (!files.length) return;
    const number = ++this.#count, [{ name }] = files, bytes = await bytesOfFiles(files);
    if (await this.#heard.software(bytes, name)) return;
    const found = await contentsOf(bytes, this.#heard.adapter());
    if (number !== this.#count) return;
    if (found.fonts) return this.#heard.fonts(found.fonts, name);
    if (found.report || found.png) return this.#heard.other(found, name);
    const use = found.trace ? await this.#useOfTrace(name) : "script";
    if (number !== this.#count) return;
    if (use === "other") return this.#heard.other(found, name);
    if (use === "script") this.#heard.script(found.text, this.#scripts.made(name, name, true));
  }

  async #openEntries(entries) {
    const number = ++this.#count, files = await filesOfEntries(entries);
    if (number !== this.#count) return;
    const isFolder = entries.length === 1, name = isFolder ? entries[0].name : "these files";
    if (await this.#heard.folder(files, name)) return;
    if (isFolder) throw new Trouble(`In ${name} nothing runs: no program for DOS, and no disk that starts.`);
    throw new Trouble(`These are ${files.length} files: open one at a time.`);
  }

  /** What the user wants of a trace: "script", "other" or "", nothing. */
  async #useOfTrace(name) {
    if (this.#heard.isEmpty()) return "script";
    return ask(`${name} is a trace.`,
      [["script", "Open it as the script"], ["other", "Compare it with the run"]]);
  }

  /** Opens what the history, the address or the tool asks for. */
  async follow() {
    const number = ++this.#count, asked = await readFragment(location.hash, this.#names);
    if (number !== this.#count) return;
    if (asked.fonts) this.#heard.fonts(asked.fonts);
    if (asked.tab) this.#heard.tab(asked.tab);
    const found = this.#wanted(asked);
    if (found) this.#heard.script(found.text, found.script, { asked: asked.step, ...found });
    else if (asked.step !== undefined) this.#heard.step(asked.step);
    if (asked.run) await this.#heard.software(asked.run, "run");
    if (asked.wrong.length) throw new Trouble(asked.wrong.join(" "));
  }

  /** The script that is asked for, as { text, script }; null if the one that stands there stays. */
  #wanted({ script, example }) {
    const scripts = this.#scripts, { noted } = scripts;
    if (noted) return { ...noted, asked: undefined };
    if (script !== undefined) {
      return { text: script, script: scripts.made("", "a script from a link"), isAsked: true };
    }
    if (example) return { ...scripts.example(example), isAsked: true };
    return this.#heard.isEmpty() ? this.#first() : null;
  }

  /** The script that a page begins with. */
  #first() {
    const scripts = this.#scripts, { open, examples } = this.#data;
    if (!open) {
      const example = scripts.example(FIRST_EXAMPLE) ?? scripts.example(examples[0].name);
      return scripts.last ?? { ...example, isAsked: true, isFirst: true };
    }
    if (open.fonts) this.#heard.fonts(bytesOfBase64(open.fonts));
    const text = open.text ?? printedText(bytesOfBase64(open.bytes), this.#heard.adapter());
    return { text, script: scripts.made(open.name, open.name), isAsked: true };
  }
}
