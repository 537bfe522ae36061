// The box that shows a link with a script in it, or with a run of software.
import { byId } from "../common/dom.js";
import { counted } from "../common/bytes.js";
import { packed } from "./share.js";
import { Trouble } from "../common/trouble.js";

/** Many programs take no longer link. */
const LONG_LINK = 200000;

/**
 * Shows the link to a script: { text, step, tab, fonts }. All but the text may be undefined, where
 * the page that opens it shows the usual.
 */
export async function showLink({ text, step, tab, fonts }) {
  const words = new URLSearchParams();
  words.set("script", await packed(new TextEncoder().encode(text)));
  if (step !== undefined) words.set("step", step);
  if (tab !== undefined) words.set("tab", tab);
  if (fonts !== undefined) words.set("fonts", await packed(fonts));
  show(words, "script");
}

/** Shows the link to a run of software, as the text of a file that was saved; a Trouble where it is too long. */
export async function showRunLink(text) {
  const words = new URLSearchParams(), tooLong = "A link to this run has more characters than many programs take: " +
    "save the run as a file.";
  // What has been packed once gets no shorter than this.
  if (text.length > 2 * LONG_LINK) throw new Trouble(tooLong);
  words.set("run", await packed(new TextEncoder().encode(text)));
  if (`${words}`.length > LONG_LINK) throw new Trouble(tooLong);
  show(words, "run, with each key and its time");
}

function show(words, what) {
  const link = `${location.href.split("#")[0]}#${words}`, isLong = link.length > LONG_LINK;
  byId("linksaid").textContent = `It has ${counted(link.length, "character")}` +
    (isLong ? ", more than many programs take: save the script as a file."
      : `, and holds the whole ${what}.`);
  byId("link").value = link;
  byId("copied").textContent = "";
  byId("linkbox").showModal();
  byId("link").select();
}

/** Puts the link into the clipboard, if the browser lets the page. */
export async function copyLink() {
  byId("link").select();
  let isDone = document.execCommand("copy");
  isDone ||= await navigator.clipboard?.writeText(byId("link").value)
    .then(() => true, () => false);
  byId("copied").textContent = isDone ? "Copied." : "This browser forbids it: press Ctrl+C.";
}
