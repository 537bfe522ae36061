// The machine's picture on a canvas: of a frame only the rows are painted that differ from those that stand there.

/** A canvas that shows frames of the adapter. */
export class LivePicture {
  #canvas;
  #image = null;

  constructor(canvas) {
    this.#canvas = canvas;
  }

  /** Shows the frame that a machine has drawn last. */
  draw(machine) {
    if (!machine.width || !machine.height) return;
    this.#fit(machine);
    const { first, end } = machine.paint();
    if (!end) return;
    const brush = this.#canvas.getContext("2d", { alpha: false });
    brush.putImageData(this.#image, 0, 0, 0, first, machine.width, end - first);
  }

  /** The image is the machine's own memory, which it may have no longer. */
  #fit(machine) {
    const { width, height } = machine, canvas = this.#canvas, image = this.#image;
    const isFitting = canvas.width === width && canvas.height === height;
    if (isFitting && image?.data.buffer === machine.calls.memory.buffer) return;
    if (!isFitting) Object.assign(canvas, { width, height });
    const bytes = machine.paintedBytes;
    // Nothing of another size is taken for what stands there.
    bytes.fill(0);
    this.#image = new ImageData(bytes, width, height);
  }
}
