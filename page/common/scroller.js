/**
 * A box that scrolls. Its place and its height are known without asking the browser to lay out the
 * page.
 */
export class Scroller {
  top = 0;
  left = 0;
  seen = 0;
  isAsked = false;

  /**
   * `heard` is called when the box is scrolled, or has another height. `place` scrolls it, so that what is in sight
   * then is drawn at once.
   */
  constructor(box, heard, place = top => { box.scrollTop = top; }) {
    this.box = box;
    this.place = place;
    box.addEventListener("scroll", () => {
      const { top, left } = this;
      // The event of a frame before must not undo what was asked for since then.
      if (!this.isAsked) this.top = box.scrollTop;
      this.left = box.scrollLeft;
      if (Math.abs(top - this.top) >= 1 || left !== this.left) heard();
    });
    new ResizeObserver(() => {
      this.seen = box.clientHeight;
      heard();
    }).observe(box);
  }

  /** Asks the browser where it is, since it may have been out of the page. */
  find() {
    this.top = this.box.scrollTop;
    this.seen = this.box.clientHeight;
  }

  /** How high it is, for which the browser is asked only until it has told so itself. */
  get height() {
    return this.seen || this.box.clientHeight;
  }

  /**
   * Scrolls to a place of what is so high in all; the browser does it when it lays out the page
   * next.
   */
  scrollTo(top, high) {
    this.top = Math.max(0, Math.round(Math.min(top, high - this.height)));
    if (this.isAsked) return;
    this.isAsked = true;
    requestAnimationFrame(() => {
      this.isAsked = false;
      this.place(this.top);
    });
  }
}
