// The browsers that the page is opened in: Chromium, Firefox, and WebKit, which is Safari's engine.
import { Browser } from "./driving.mjs";
import { Firefox } from "./firefox.mjs";
import { WebKit } from "./webkit.mjs";

const ENGINES = { chromium: Browser, firefox: Firefox, webkit: WebKit };

/** What the words `[ENGINE [FOLDER]]` of a test say: { browser, folder }. Pictures go there. */
export async function begun([engine = "chromium", folder] = process.argv.slice(2)) {
  if (!ENGINES[engine]) throw new Error(`${engine} is none of ${Object.keys(ENGINES).join(", ")}`);
  return { browser: await ENGINES[engine].started(), folder };
}
