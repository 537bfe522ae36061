// The steps of a script as the page's help tells them: docs/SCRIPT.md has the rules.
import { BLOCK_LINES, CALL_REGISTERS, SHAPES, SHOWN } from "../script/grammar.js";

const formOf = (name, numbers) => [name, ...numbers.map(number => number.name)].join(" ");
const shape = (name, does, example) => ({ name, form: formOf(name, SHAPES[name]), does, example });
const shown = (name, does, example) =>
  ({ name: `show ${name}`, form: formOf(`show ${name}`, SHOWN[name]), does, example });
const line = (name, does, example) =>
  ({ name, form: formOf(name, BLOCK_LINES[name]), does, example });

/** The steps: each with its name, its form, a sentence, and an example of one or more lines. */
export const STEPS = [
  shape("out", "Writes a byte to a port.", "out 3C8 0 ; the DAC's entry 0"),
  shape("outw", "Writes a word: its low byte to the port, its high byte to the next port.",
    "outw 3C4 0F02 ; map mask, register 2 of the sequencer: all planes"),
  shape("in", "Reads a byte from a port.", "in 3DA ; input status 1"),
  shape("inw", "Reads a word from a port and the next port.", "inw 3C4"),
  shape("put", "Writes a byte to display memory.", "put B8000 41 ; the letter A at the upper left"),
  shape("putw", "Writes a word to an address and the next.",
    "putw B8000 1F41 ; A, white on blue: 41 is the character, 1F its attribute"),
  shape("get", "Reads a byte of display memory, and loads the latches.", "get B8000"),
  shape("getw", "Reads a word from an address and the next.", "getw B8000"),
  { name: "int", form: `int ${CALL_REGISTERS.map(name => `${name}=N`).join(" ")} block BYTES`,
    does: "Calls the video BIOS. AH, the high byte of ax, picks the function. " +
      "What is left out is 0.",
    example: "int ax=3 ; mode 3: 25 rows of 80 cells of text" },
  shape("advance", "Lets the beam go on by so many dots, a decimal number.", "advance 80000"),
  shape("frame", "Lets the beam draw to the end of the frame, and answers the picture.", "frame"),
  shown("regs", "Shows all registers.", "show regs"),
  shown("dac", "Shows an entry of the DAC.", "show dac 7"),
  shown("beam", "Shows where the beam is.", "show beam"),
  shown("latches", "Shows the four latches.", "show latches"),
  shown("plane", "Shows 1 to 256 bytes of a plane, from an offset on.", "show plane 0 0000 16"),
  shown("bda", "Shows the data of the video BIOS.", "show bda"),
  shown("cells", "Shows the characters and attributes of the active page, in text.", "show cells"),
  line("version", "Says that the script may have repeats. It stands before every other line.",
    "version 2"),
  line("repeat", "Takes the steps down to end so many times, a decimal number. " +
    "The script begins with version 2.", "repeat 8\nframe\nend"),
  line("end", "Ends a repeat.", "end"),
  { name: "; =", form: "; = ANSWER", does: "Behind a step: the answer that you expect. " +
    "The page marks it right or wrong.", example: "get B8000 ; = 41" },
];

/** The entry of a step that a line's words are, or null. */
export function stepOf(words) {
  const [name, kind] = words.map(word => word.toLowerCase());
  return STEPS.find(step => step.name === name || step.name === `${name} ${kind}`) ?? null;
}
