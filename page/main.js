// The page begins: it opens the module that stands in it, and shows a script. `#check` runs all
// examples instead. In a worker, which has no document, the same script compares answers with
// those of zak_run, or reads a long text.
import { Adapter } from "./run/adapter.js";
import { Trouble } from "./common/trouble.js";
import { View } from "./view/view.js";
import { byId, element } from "./common/dom.js";
import { bytesOfBase64 } from "./common/bytes.js";
import { checkedExamples } from "./run/checking.js";
import { examplesOf, unpackedJson, unzipped } from "./common/packed.js";
import { comparedToSend } from "./run/comparing.js";
import { judgedToSend } from "./run/judging.js";

/** What some browsers lack, or have switched off, and what the page does with it. */
const NEEDED = { WebAssembly: "runs the adapter", DecompressionStream: "unpacks the adapter" };
const HAVE_IT = "Chromium 103, Firefox 113, Safari 16.4 and newer ones have it, " +
  "unless it is switched off.";
const OLD_WEBASSEMBLY = "This browser's WebAssembly is too old for the adapter.";

/** Shows what the check of all examples tells. */
async function showCheck(adapter, { examples, fonts }) {
  const { agree, differ, lines } = await checkedExamples(adapter, bytesOfBase64(fonts), examples);
  const text = [...lines, `${agree} agree, ${differ} differ`].join("\n");
  document.body.replaceChildren(element("pre", { id: "checked" }, text));
}

/** What this browser lacks, in a sentence; nothing where it has all that the page needs. */
function lacking() {
  const name = Object.keys(NEEDED).find(one => typeof globalThis[one] === "undefined");
  return name ? `This browser has no ${name}, by which the page ${NEEDED[name]}. ${HAVE_IT}` : "";
}

async function begin() {
  if (lacking()) throw new Trouble(lacking());
  const data = JSON.parse(byId("zaklimot-data").textContent);
  const module = await unzipped(data.module);
  data.examples = await examplesOf(data);
  for (const part of ["tutorial", "sections"]) data[part] = await unpackedJson(data[part]);
  // The scripts in the list: those of the tutorial have a title too.
  data.scripts = [...data.tutorial, ...data.examples];
  const adapter = await Adapter.of(module);
  if (location.hash === "#check") return showCheck(adapter, data);
  return new View(adapter, module, data);
}

function tellOf(error) {
  const notice = byId("notice"), isOld = error.name === "CompileError";
  notice.hidden = false;
  const reason = isOld ? `${OLD_WEBASSEMBLY} (${error.message})` : error.message;
  notice.firstElementChild.textContent = reason;
  if (!isOld && !(error instanceof Trouble)) throw error;
}

/** In a worker: does what the page asks for, once. */
function serve() {
  self.onmessage = async ({ data: { module, run, text } }) => {
    self.postMessage(await (run ? comparedToSend(module, run) : judgedToSend(module, text)));
  };
}

if (typeof document === "undefined") serve();
else begin().catch(tellOf);
