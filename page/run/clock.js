/** The clock of a Runner in a page: time in milliseconds, and when functions are called. */
export class PageClock {
  #channel = new MessageChannel();

  now() {
    return performance.now();
  }

  /** Calls a function once the page has drawn and heard what waits; one function at a time. */
  soon(does) {
    this.#channel.port1.onmessage = does;
    this.#channel.port2.postMessage(0);
  }

  later(does, milliseconds) {
    setTimeout(does, milliseconds);
  }
}
