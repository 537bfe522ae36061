/**
 * What the page can't do, in a plain sentence. `line` is that of the script that is at fault, where
 * there is one.
 */
export class Trouble extends Error {
  constructor(reason, line = 0) {
    super(reason);
    this.line = line;
  }
}
