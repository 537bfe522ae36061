// A program in TypeScript that uses the package, for the compiler to judge: types.mjs calls it. A line
// behind @ts-expect-error is wrong, and the compiler must say so.
import { Card, Closed, FONTS_SIZE, GROUP, Library, MISTAKE, NEVER, OutOfMemory, PART, Refusal, STATUS, ScriptError,
  StateError, WHY, ZaklimotError, fieldReader, load, placeInStruct, readStruct, sizeOfStruct, writeStruct } from "../zaklimot.js";
import type { Beam, Bytes, DotSource, Int10Answer, Lines, Mistake, Picture, Reason, Registers, Script, Timing,
  UpdatedPicture } from "../zaklimot.js";

async function draw(context: CanvasRenderingContext2D): Promise<void> {
  const card: Card = await Card.open();
  const answer: Int10Answer = card.int10({ ax: 0x13 });
  card.put(0xA0000 + answer.ax, 1);
  const picture: Picture = card.frame({ once: false });
  context.putImageData(new ImageData(picture.pixels, picture.width, picture.height), 0, 0);
  const updated: UpdatedPicture | null = card.tryFrameUpdate();
  if (!updated) throw new Error(String(card.status));
  const image: ImageData = new ImageData(updated.pixels, updated.width);
  context.putImageData(image, 0, 0, 0, updated.first, updated.width, updated.count);
  card[Symbol.dispose]();
}

function core(card: Card, script: Script, bytes: Bytes): number {
  const value: number = card.tryIn(0x3DA), status: number = card.tryPutWord(0xA0000, 0x1234);
  if (status === STATUS.NOT_DECODED) return -value;
  const decoded: number = card.putBytes(0xA0000, bytes) + card.getBytes(0xA0000, bytes);
  const read: Uint8Array = card.getBytes(0xA0000, 320);
  const timing: Timing = card.clock();
  if (timing.toRetrace !== NEVER) card.advance(timing.toRetrace);
  const { report, taken } = card.runOn(script, { first: 1, most: 2, room: 4096 });
  const lines: Lines = card.peek(), registers: Registers = card.registers(), beam: Beam = card.beam();
  const source: DotSource = card.explainDot({ ...beam, line: 3 }), reason: Reason | null = card.explainStep("frame");
  const kind: boolean = reason?.kind === WHY.NO_PORT && reason.numbers[0] === GROUP.SEQUENCER + PART.DAC_STATE;
  card.restore(card.save(), card.saveView());
  return decoded + read.length + report.length + taken + lines.widths[0] + registers.crtc[0]
    + source.colour.red + Number(source.isText) + Number(kind) + card.frameWords({ opaque: true }).words.length;
}

async function own(bytes: Uint8Array): Promise<string> {
  const library: Library = await load({ module: bytes, fonts: new Uint8Array(FONTS_SIZE) });
  const other = await Library.of(bytes), mistake: Mistake | null = library.explainText("frme");
  const report: Uint8Array = library.run("frame", { fonts: library.fonts, room: 100 });
  const status: number = library.calls.zak_out(library.open().address, 0x3C4, 2);
  writeStruct("zak_beam", { line: 1 }, library.view, other.struct);
  const read = fieldReader("zak_beam", "line", other.struct);
  const size: number = sizeOfStruct("zak_beam") + placeInStruct("zak_beam", "dot") + read(library.view);
  const values: Record<string, unknown> = readStruct("zak_beam", library.view, size);
  return `${mistake?.kind === MISTAKE.STEP} ${report.length} ${status} ${values.line} ${library.print(library.assemble("frame"))}`;
}

function tell(error: unknown): string {
  if (error instanceof Refusal) return `E${error.number}`;
  if (error instanceof ScriptError) return `${error.place}`;
  const isOther: boolean = error instanceof StateError || error instanceof Closed || error instanceof OutOfMemory;
  return error instanceof ZaklimotError ? `${error.status} ${error.statusName} ${error.sentence} ${isOther}` : "";
}

export async function wrong(card: Card): Promise<void> {
  // @ts-expect-error
  card.out("3C4", 2);
  // @ts-expect-error
  card.in();
  // @ts-expect-error
  card.int10({ es: 3 });
  // @ts-expect-error
  card.putBytes(0xA0000, [1, 2]);
  // @ts-expect-error
  const text: string = card.save();
  // @ts-expect-error
  card.frame({ twice: true });
  // @ts-expect-error
  const open: Card = Card.open();
  // @ts-expect-error
  STATUS.OK = 3;
  // @ts-expect-error
  card.library.calls.vga_out(1);
  // @ts-expect-error
  card._address;
  console.log(text, open, draw, core, own, tell);
}
