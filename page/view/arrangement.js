// How the page's panes share the window: a model without a document. A window is split in two, and
// each half again, by splitters that can be moved.

/** The width of a splitter, in pixels. */
export const SPLITTER = 7;
/** Windows of at least so many pixels have two columns, and three. */
export const TWO_COLUMNS = 861;
const THREE_COLUMNS = 1600;

/**
 * The splits of two and of three columns. A split has the name of its splitter, and what the
 * splitter sizes, in words; the axis along which its halves lie; the share that the first half has
 * at first; the least pixels of each half; and the halves, a pane's name or a split each.
 */
const ARRANGEMENTS = {
  two: {
    name: "script", label: "width of the script", axis: "x", usual: 0.4, least: [250, 330],
    halves: [
      { name: "list", label: "height of the script", axis: "y", usual: 0.62, least: [110, 80],
        halves: ["script", "list"] },
      { name: "state", label: "height of the picture", axis: "y", usual: 0.66, least: [150, 130],
        halves: ["screen", "state"] },
    ],
  },
  three: {
    name: "script", label: "width of the script", axis: "x", usual: 0.28, least: [250, 660],
    halves: [
      "script",
      { name: "state", label: "width of the picture", axis: "x", usual: 0.58, least: [330, 320],
        halves: [
          { name: "list", label: "height of the picture", axis: "y", usual: 0.72,
            least: [150, 80], halves: ["screen", "list"] },
          "state",
        ] },
    ],
  },
};

/** A rectangle, in pixels, of which one half of a split has a part. */
function partOf({ left, top, width, height }, axis, from, size) {
  return axis === "x" ? { left: left + from, top, width: size, height }
    : { left, top: top + from, width, height: size };
}

/** The first pane of a half. */
function firstPane(half) {
  return typeof half === "string" ? half : firstPane(half.halves[0]);
}

const sizeOf = (rectangle, axis) => (axis === "x" ? rectangle.width : rectangle.height);

/** The pixels of the first half, of `room` for both: each has its least while there is room. */
function firstSize(room, share, [leastFirst, leastSecond]) {
  const wanted = Math.round(room * share), most = room - leastSecond;
  return Math.max(0, Math.min(room, Math.max(leastFirst, Math.min(wanted, most))));
}

/** How the panes share a window, and where its splitters are. */
export class Arrangement {
  /** The name of the arrangement for the window: "stacked", "two" or "three" columns. */
  name = "stacked";
  #shares;
  #window = { left: 0, top: 0, width: 0, height: 0 };
  #closed = {};
  #splits = new Map();

  /** `kept`: the shares that `shares` has answered before; anything else is ignored. */
  constructor(kept) {
    const isShare = ([, share]) => typeof share === "number" && share > 0 && share < 1;
    this.#shares = new Map(Object.entries(Object(kept)).filter(isShare));
  }

  /** The shares that were chosen, by the names of arrangement and splitter. */
  get shares() {
    return Object.fromEntries(this.#shares);
  }

  /**
   * Arranges the panes in a window of so many pixels, of which they have so much: rectangles by the
   * names of panes, and by those of splitters. Both are empty if panes are stacked. `closed` has the
   * pixels of panes that are closed, each the second half of a split: `list` and `state`.
   */
  arrange(windowWidth, width, height, closed = {}) {
    const isThree = windowWidth >= THREE_COLUMNS && closed.state === undefined;
    this.name = windowWidth < TWO_COLUMNS ? "stacked" : isThree ? "three" : "two";
    this.#window = { left: 0, top: 0, width, height };
    this.#closed = closed;
    this.#splits.clear();
    const panes = new Map(), splitters = new Map();
    if (this.name !== "stacked") {
      this.#split(ARRANGEMENTS[this.name], this.#window, panes, splitters);
    }
    return { panes, splitters };
  }

  #split(split, rectangle, panes, splitters) {
    const { name, axis, least, halves } = split, closed = this.#closed[name];
    const isClosed = closed !== undefined, size = sizeOf(rectangle, axis), room = size - SPLITTER;
    const first = isClosed ? Math.max(0, size - closed) : firstSize(room, this.#shareOf(split), least);
    const from = isClosed ? first : first + SPLITTER, second = Math.max(0, size - from);
    if (!isClosed) {
      splitters.set(name, partOf(rectangle, axis, first, SPLITTER));
      this.#splits.set(name, { split, rectangle, room, first });
    }
    const parts = [partOf(rectangle, axis, 0, first), partOf(rectangle, axis, from, second)];
    halves.forEach((half, i) => {
      if (typeof half === "string") panes.set(half, parts[i]);
      else this.#split(half, parts[i], panes, splitters);
    });
  }

  #keyOf({ name }) {
    return `${this.name} ${name}`;
  }

  #shareOf(split) {
    return this.#shares.get(this.#keyOf(split)) ?? split.usual;
  }

  /**
   * What a splitter does, as { axis, label, pane }: "x" if it moves to left and right, or "y"; what
   * it sizes, in words; and the first pane that it sizes.
   */
  splitterOf(name) {
    const { axis, label, halves } = this.#splits.get(name).split;
    return { axis, label, pane: firstPane(halves[0]) };
  }

  /** What assistive technology is told of a splitter, in hundredths of its room. */
  valuesOf(name) {
    const { room, first, split: { least } } = this.#splits.get(name);
    const hundredth = size => Math.round(100 * Math.max(0, Math.min(1, size / Math.max(1, room))));
    return { now: hundredth(first), min: hundredth(least[0]), max: hundredth(room - least[1]) };
  }

  /** Moves a splitter to a place of the window, in pixels from its left or top. */
  moveTo(name, place) {
    const { split, rectangle, room } = this.#splits.get(name);
    const begin = split.axis === "x" ? rectangle.left : rectangle.top;
    this.#choose(split, room, place - begin - SPLITTER / 2);
  }

  /** Moves a splitter by so many pixels from where it is. */
  moveBy(name, pixels) {
    const { split, room, first } = this.#splits.get(name);
    this.#choose(split, room, first + pixels);
  }

  #choose(split, room, size) {
    if (room <= 0) return;
    const first = firstSize(room, Math.max(0, size) / room, split.least);
    this.#shares.set(this.#keyOf(split), Math.min(0.999, Math.max(0.001, first / room)));
  }

  /** Brings a splitter back to where it was at first. */
  reset(name) {
    this.#shares.delete(this.#keyOf(this.#splits.get(name).split));
  }
}
