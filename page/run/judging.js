// Reads a long text in a worker, so that keys are not late meanwhile: whether each line is a step,
// and where the steps stand. The worker is the page's own script, with a module of its own.
import { Adapter } from "./adapter.js";
import { Outline } from "../script/outline.js";
import { Trouble } from "../common/trouble.js";
import { judgedText } from "./session.js";

/** A text of more characters is read in a worker. */
export const LONG_TEXT = 100000;

/** In a worker: what a text is, in a form that can be sent: { script, outline }, or { trouble }. */
export async function judgedToSend(module, text) {
  try {
    const { script, outline } = judgedText(await Adapter.of(module), text);
    return { script, outline: outline.parts };
  } catch (error) {
    const { message, line, at, width } = error;
    const kind = error instanceof Trouble ? "told" : error instanceof RangeError ? "memory" : "fault";
    return { trouble: { kind, message, line, at, width } };
  }
}

/** What was sent, as `judgedText` answers it, or a Trouble that is thrown as it would throw it. */
export function judgedOfSent({ script, outline, trouble }, text) {
  if (!trouble) return { script, outline: Outline.of(text, outline) };
  const { kind, message, line, at, width } = trouble;
  if (kind !== "told") throw kind === "memory" ? new RangeError(message) : new Error(message);
  throw Object.assign(new Trouble(message, line), { at, width });
}

/**
 * Reads texts in a worker, one at a time. `code` is the page's own script, which the worker runs
 * too.
 */
export class Judge {
  #worker = null;
  #address = null;

  constructor(module, code) {
    this.module = module;
    this.code = code;
  }

  /**
   * Reads a text. `told` hears a function that answers what `judgedText` answers, or throws what it
   * throws; or null where the browser gives the page no worker. Another text, or `stop`, ends this
   * one, and then nothing is heard.
   */
  start(text, told) {
    this.stop();
    try {
      this.#address ??= URL.createObjectURL(new Blob([this.code], { type: "text/javascript" }));
      this.#worker = new Worker(this.#address);
    } catch {
      return told(null);
    }
    const heard = answer => {
      this.stop();
      told(answer);
    };
    this.#worker.onmessage = ({ data }) => heard(() => judgedOfSent(data, text));
    this.#worker.onerror = event => {
      event.preventDefault();
      heard(null);
    };
    return this.#worker.postMessage({ module: this.module, text });
  }

  /** Whether a text is read. */
  get isAtWork() {
    return this.#worker !== null;
  }

  stop() {
    this.#worker?.terminate();
    this.#worker = null;
  }
}
