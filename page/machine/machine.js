// A small PC whose display is the adapter's module: three modules of WebAssembly (machine/ has the sources).
//
// The processor's module calls the adapter's exports itself; JavaScript appears at the end of a frame and at an
// interrupt 10. The same snapshot and the same keys give the same cycles.
import { Adapter } from "../run/adapter.js";
import { CARD_SIZE, HIGHEST, MOST_STATE, MOST_TABLE, ONCE, OPAQUE, WIDEST } from "../../javascript/zaklimot.js";
import { Snapshot } from "./snapshot.js";
import { Trouble } from "../common/trouble.js";

/** What the processor's module tells of why it stopped, by the number that it answers. */
export const STOPPED = ["runs", "ended", "cycle", "watch", "place", "mode", "refusal", "restarted",
  "halted"];
/** The bytes of a record, and how many records there is room for: of more the last are kept. */
export const RECORD_BYTES = 16, MOST_RECORDS = 1 << 20;
/** Nanoseconds of an instruction: of an 8088, a 286 and a 386 as they were sold, and of a fast 486. */
export const SPEEDS = { 8088: 3000, 286: 700, 386: 160, fastest: 60 };
export const USUAL_SPEED = "386";
/** What a record has beside its cycle: see machine/pc/records.c. */
const TEXTS = 2, TIMES = 3;
const WASM_PAGE = 65536, ROOM_BYTES = 128, MOST_BLOCK = 0x20000, TABLE_BYTES = 1024;
const BOOT = 1, PROGRAM = 0;
/** After so many frames in whose lines nothing was written to a register, one word stands for each pixel. */
const CALM_FRAMES = 70;
const BIOS_DATA = 0x400, MOST_FRAMES = 4096, MOST_MISSING = 64;
/** So many sets of modes are noted, and of more the last. */
const MOST_MODES = 1 << 16;
/** Memory that isn't plain: the windows of the display, and the BIOS. */
const LOW_END = 0xa0000, HIGH_BEGIN = 0x100000;
/** The registers of the processor, as machine/pc/run.c tells them. */
const PROCESSOR = ["EAX", "ECX", "EDX", "EBX", "ESP", "EBP", "ESI", "EDI", "EIP", "FLAGS",
  "ES", "CS", "SS", "DS", "FS", "GS"];
/** The calls of the video BIOS that set a mode have AH 0; a call counts as so many cycles. */
const SET_MODE = 0, MODE_13 = 0x13, CALL_CYCLES = 2;
/** Nanoseconds in which the machine looks at nothing else: QUANTUM of machine/pc/run.c. */
export const QUANTUM = 50000;
/** The names of the drives, by their slots. */
const DRIVES = ["a", "b", "c"];
const decoder = new TextDecoder("latin1");

/** The modules, compiled from their bytes. */
export async function compiledModules({ adapter, reads, cpu }) {
  const [one, two, three] = await Promise.all([adapter, reads, cpu]
    .map(bytes => WebAssembly.compile(bytes)));
  return { adapter: one, reads: two, cpu: three };
}

/** The machine. `heard` may have `frame()` and `missing(number, value)`. */
export class Machine {
  #heard;
  #isOpen = false;
  #window = null;
  #listed = null;
  #inputs = [];
  /** The disks: { slot, place, given, since }, with the number of inputs after which each was put in. */
  #disks = [];
  /** The bytes that lie in the store as they were given: { place, bytes }, by their places. */
  #given = [];
  #isRecording = false;
  #paint;
  /** Whether frames are drawn as they end. */
  isShowing = true;
  /** Whether a pixel that is shown several times is drawn once, as long as no register is written amid a picture. */
  isDrawnOnce = false;
  /** The dots of a frame until the end of its last line that is seen, and the last frame amid which one was written. */
  #seenDots = 0;
  #stirred = 0;
  /** The last frame that was drawn: its width and height, and how many there were. */
  width = 0;
  height = 0;
  shown = 0;
  /** The last things that the software asked for and that are missing: { number, value, time }. */
  missing = [];
  /** When modes were set by interrupt 10: the cycles of the display and the nanoseconds until then. */
  modes = [];
  /** Whether interrupt 10 has set mode 13. */
  hasSet13 = false;
  /** How many cycles of the display there were at the end of each of the last frames, by its number. */
  #frameCycles = new Map();

  constructor(modules, fonts, heard = {}) {
    this.#heard = heard;
    this.library = new Adapter(new WebAssembly.Instance(modules.adapter, {}));
    const { calls: adapter } = this.library;
    const env = { memory: adapter.memory };
    const reads = new WebAssembly.Instance(modules.reads, { adapter, env }).exports;
    const host = {
      frame: () => this.#frame(), video: () => this.#video(),
      told: (segment, place, text, length) => this.#instruction(segment, place, text, length),
      tell: (number, value) => this.#missing(number, value >>> 0),
    };
    this.calls = adapter;
    this.#paint = reads.paint;
    this.cpu = new WebAssembly.Instance(modules.cpu, { adapter, reads, host }).exports;
    this.base = this.cpu.__heap_base.value;
    const [card, room, state, pixels, painted, block, table, font] = [CARD_SIZE, ROOM_BYTES, MOST_STATE,
      4 * WIDEST * HIGHEST, 4 * WIDEST * HIGHEST, MOST_BLOCK, TABLE_BYTES, fonts.length]
      .map(size => this.#taken(size));
    Object.assign(this, { card, room, state, pixels, painted, block, table, font });
    this.fontBytes = fonts.length;
    this.adapterBytes.set(fonts, font);
    this.instructions = new Map();
    this.blocks = [];
  }

  #taken(size) {
    return this.library.take(size);
  }

  /** The adapter's memory. */
  get adapterBytes() {
    return this.library.bytes;
  }

  get adapterView() {
    return this.library.view;
  }

  /** The processor's memory: the machine's own state, and in it the PC's memory. */
  get bytes() {
    return new Uint8Array(this.cpu.memory.buffer);
  }

  /** The PC's memory. */
  get ram() {
    return this.bytes.subarray(this.cpu.ram(), this.cpu.ram() + this.cpu.ram_bytes());
  }

  // What is started.

  /** Puts bytes into the store; the place there. */
  #stored(bytes) {
    const place = this.cpu.store_take(Math.max(1, bytes.length));
    if (place === -1) throw new Trouble("There is no memory left for this disk.");
    this.bytes.set(bytes, this.cpu.store_at(place));
    // What lay from this place on, in a run that went another way, lies there no longer.
    this.#given = this.#given.filter(one => one.place < place);
    this.#given.push({ place, bytes });
    return place;
  }

  /** So many bytes of the software that were put into the store at a place; null where others lie there too. */
  givenAt(at, length) {
    const { place, bytes } = this.#given.findLast(one => one.place <= at) ?? { place: at, bytes: [] };
    return at + length <= place + bytes.length ? bytes.subarray(at - place, at - place + length) : null;
  }

  /** Writes a text of latin letters at a place of the processor's memory, with a zero behind it. */
  #writeText(at, text, most) {
    const bytes = Uint8Array.from(text.slice(0, most - 1), letter => letter.charCodeAt(0));
    this.bytes.fill(0, at, at + most);
    this.bytes.set(bytes, at);
  }

  /**
   * Begins anew. `software` has `program` (bytes of a .COM or .EXE), or disks: `a`, `b` and `c`, bytes
   * each; and may have `rom` (a video BIOS), `files` ({ name, bytes } of drive C), `words` behind
   * the program's name, and `media`, floppies that are put in while it runs. A machine whose cycles are
   * wanted from the first one on records them with their times.
   */
  boot(software, isRecorded = false) {
    const { cpu } = this;
    this.#open();
    this.software = software;
    this.recordsAt = Math.ceil(this.base / WASM_PAGE) * WASM_PAGE;
    const store = this.recordsAt + RECORD_BYTES * MOST_RECORDS;
    const lacking = store - cpu.memory.buffer.byteLength;
    if (lacking > 0) cpu.memory.grow(Math.ceil(lacking / WASM_PAGE));
    cpu.begin_store(store);
    this.#given = [];
    cpu.remove_disks();
    cpu.begin_files();
    for (const { name, bytes } of software.files ?? []) this.#addFile(name, bytes);
    const disks = DRIVES.map(name => software[name] ?? null);
    const places = disks.map((bytes, slot) => this.#insert(slot, bytes));
    this.#disks = disks.map((given, slot) => ({ slot, place: places[slot], given, since: 0 }))
      .filter(({ given }) => given);
    cpu.set_rom(software.rom ? this.#stored(software.rom) : 0, software.rom?.length ?? 0);
    this.#writeText(cpu.arguments(), software.words ? ` ${software.words}` : "", 127);
    this.#inputs = [];
    this.missing = [];
    this.hasSet13 = false;
    this.#frameCycles.clear();
    this.latest = null;
    this.#window = null;
    this.record(isRecorded, true);
    const slot = disks.findIndex(bytes => bytes);
    if (software.program) this.#start(PROGRAM, 0, this.#stored(software.program), software.program);
    else this.#start(BOOT, slot === 2 ? 0x80 : slot, places[slot], disks[slot]);
    // The start counts as the end of a frame, so a window can begin there; its own mode is none of the software's.
    this.#frameCycles.set(0, cpu.cycles());
    this.modes = [];
  }

  #start(kind, drive, place, bytes) {
    this.cpu.boot(this.card, this.room, kind, drive, place, bytes.length);
  }

  #open() {
    if (this.#isOpen) this.calls.zak_close(this.card);
    this.adapterBytes.fill(0, this.card, this.card + CARD_SIZE);
    const status = this.calls.zak_open(this.card, this.font, this.fontBytes);
    this.library.check(status);
    this.#isOpen = true;
  }

  #insert(slot, bytes) {
    if (!bytes) return null;
    const place = this.#stored(bytes);
    this.cpu.insert(slot, place, bytes.length);
    return place;
  }

  #addFile(name, bytes) {
    this.#writeText(this.cpu.file_name(), dosName(name), 80);
    if (this.cpu.add_file(this.#stored(bytes), bytes.length) < 0) {
      throw new Trouble("A folder may have 512 files.");
    }
  }

  /** The files of drive C that the software has changed: { name, bytes }. */
  changedFiles() {
    const { cpu } = this, found = [];
    for (let at = 0; at < cpu.file_total(); at++) {
      if (cpu.file_state(at) !== 3) continue;
      const name = decoder.decode(this.bytes.subarray(cpu.file_name(), cpu.file_name() + 80));
      const place = cpu.store_at(cpu.file_place(at));
      const bytes = this.bytes.slice(place, place + cpu.file_bytes(at));
      found.push({ name: name.split("\0")[0], bytes });
    }
    return found;
  }

  /** The disks that are in the drives now, or were: { slot, given, bytes }, the first ones first. */
  #disksNow() {
    return this.#disks.filter(({ since }) => since <= this.cpu.inputs()).map(({ slot, place, given }) => {
      const at = this.cpu.store_at(place);
      return { slot, given, bytes: this.bytes.slice(at, at + given.length) };
    });
  }

  /** The disks of which the software has written a sector, also those that were taken out: { name, bytes }. */
  changedDisks() {
    const counts = [0, 0, 0];
    return this.#disksNow().flatMap(({ slot, given, bytes }) => {
      const number = ++counts[slot] > 1 ? `-${counts[slot]}` : "";
      return isSameBytes(bytes, given) ? [] : [{ name: `disk-${DRIVES[slot]}${number}.img`, bytes }];
    });
  }

  /**
   * The software as a restart of the PC finds it: its disks are as they are in the drives now, and the files of
   * drive C as they were written.
   */
  get softwareNow() {
    const disks = Object.fromEntries(this.#disksNow().map(({ slot, bytes }) => [DRIVES[slot], bytes]));
    const written = this.changedFiles(), names = new Set(written.map(({ name }) => name));
    const others = (this.software.files ?? []).filter(({ name }) => !names.has(dosName(name)));
    return { ...this.software, ...disks, files: [...others, ...written], media: undefined };
  }

  /** Puts a floppy into drive 0 or 1 while the machine runs; kept with its time. */
  changeFloppy(slot, bytes) {
    const media = this.software.media ??= [];
    let number = media.findIndex(one => one.length === bytes.length && isSameBytes(one, bytes));
    if (number < 0) number = media.push(bytes) - 1;
    this.#take({ time: this.cpu.now(), does: "change", values: [slot, number] });
  }

  #change(slot, number) {
    const given = this.software.media[number], place = this.#stored(given);
    this.cpu.change(slot, place, given.length);
    const since = this.cpu.inputs(), others = this.#disks.filter(one => one.since !== since);
    this.#disks = [...others, { slot, place, given, since }].sort((one, other) => one.since - other.since);
  }

  // What comes from outside, and how it goes on.

  /** A byte of the keyboard with the BIOS' word for it; kept with its time. */
  key(byte, word) {
    this.#take({ time: this.cpu.now(), does: "key", values: [byte, word] });
  }

  /** The mouse at a place of 640 by 200, with bits of its buttons. */
  mouse(x, y, buttons) {
    this.#take({ time: this.cpu.now(), does: "mouse", values: [x, y, buttons] });
  }

  /** The time of an instruction from here on, in nanoseconds; kept with its time too. */
  setSpeed(nanoseconds) {
    this.#take({ time: this.cpu.now(), does: "set_instruction_time", values: [nanoseconds] });
  }

  /** Whether mode 13 begins with the colours that PCs' BIOSes load, from the next mode set on; kept with its time. */
  setPalette(isTheirs) {
    this.#take({ time: this.cpu.now(), does: "set_palette", values: [Number(isTheirs)] });
  }

  /** What comes from outside is the last thing to come: what would have come again does not. */
  #take(input) {
    this.#forgetInputs();
    this.#inputs.push(input);
    this.#give(input);
  }

  #forgetInputs() {
    this.#inputs.length = this.cpu.inputs();
    this.#disks = this.#disks.filter(({ since }) => since <= this.#inputs.length);
  }

  #give({ does, values }) {
    if (does === "change") this.#change(...values);
    else this.cpu[does](...values);
  }

  /** What came from outside, each with its time. */
  get inputs() {
    return this.#inputs;
  }

  /** Takes the inputs of a saved run, which come when their time has come. */
  set inputs(inputs) {
    this.#inputs = [...inputs];
  }

  /** Whether inputs are there that have not come yet. */
  get isReplaying() {
    return this.#inputs.length > this.cpu.inputs();
  }

  /** Runs to the end of a frame, or until a time has come. Inputs that are there come at their time. */
  runFrame(until) {
    const next = this.#inputs[this.cpu.inputs()];
    if (!next || next.time > until) {
      this.cpu.run_frame(until);
      return;
    }
    if (this.cpu.now() < next.time) this.cpu.run_frame(next.time);
    if (this.cpu.now() >= next.time && this.stopped === "runs") this.#give(next);
  }

  /** Runs until a time, in nanoseconds of the machine; whether it goes on. */
  run(until) {
    return this.cpu.run(until) !== 0;
  }

  /** Runs as it ran before: what came from outside comes again. */
  runAgain(until) {
    for (;;) {
      // The machine counts what has come, so a snapshot knows it too.
      const next = this.#inputs[this.cpu.inputs()];
      if (!next || next.time > until || !this.run(next.time)) break;
      this.#give(next);
    }
    return this.run(until);
  }

  /** Forgets what comes after now: the machine goes on from here another way. */
  forgetLater() {
    const cycles = this.cpu.cycles();
    this.#forgetInputs();
    this.modes = this.modes.filter(set => set.cycles <= cycles);
    this.missing = this.missing.filter(({ time }) => time <= this.cpu.now());
  }

  get stopped() {
    return STOPPED[this.cpu.stopped()];
  }

  /**
   * Stops behind an instruction that reaches one of the `addresses` (ports, or places of the display's
   * memory), sets a mode, or makes a cycle that is refused; and before one at one of the `places`
   * (segment and offset in one). A snapshot that is restored takes all stops away.
   */
  stopAt({ addresses = [], places = [], isMode = false, isRefusal = false } = {}) {
    const { cpu } = this;
    cpu.clear_watches();
    cpu.set_places();
    for (const address of addresses) cpu.watch(address);
    for (const place of places) cpu.add_place(place);
    cpu.stop_on(Number(isMode), Number(isRefusal));
  }

  /** The registers of the processor, by their names. */
  get processor() {
    const words = new Uint32Array(this.cpu.memory.buffer, this.cpu.registers(), PROCESSOR.length);
    return Object.fromEntries(PROCESSOR.map((name, i) => [name, words[i]]));
  }

  #missing(number, value) {
    const time = this.cpu.now(), last = this.missing.at(-1);
    // What runs again lacks the same.
    if (last && (time <= last.time || (number === last.number && value === last.value))) return;
    if (this.missing.length === MOST_MISSING) this.missing.shift();
    this.missing.push({ number, value, time });
    this.#heard.missing?.(number, value);
  }

  /**
   * The first frame after which there were at most so many cycles of the display until now, and so many
   * frames; null where even the last frame had more.
   */
  frameBefore(mostCycles, mostFrames) {
    const now = this.cpu.cycles(), last = this.cpu.frames();
    let found = null;
    for (let frame = last; frame > last - mostFrames && this.#frameCycles.has(frame); frame--) {
      if (now - this.#frameCycles.get(frame) > mostCycles) break;
      found = frame;
    }
    return found;
  }

  /** The moment that has come: nanoseconds, cycles of the display, whether it is amid a quantum. */
  get moment() {
    return { time: this.cpu.now(), cycles: this.cpu.cycles(), isAmid: this.cpu.is_amid() !== 0 };
  }

  /** Runs as it ran before, until a moment that it has seen; amid a quantum, to the last cycle before it. */
  runAgainTo({ time, cycles, isAmid }) {
    this.runAgain(isAmid ? time - time % QUANTUM : time);
    if (isAmid && this.cpu.cycles() < cycles) this.runAgainToCycle(cycles, time);
  }

  /** Runs as it ran before, until there were so many cycles of the display, or a time has come. */
  runAgainToCycle(cycles, time) {
    this.cpu.stop_at_cycle(cycles);
    this.runAgain(time);
    this.cpu.stop_at_cycle(Infinity);
    this.cpu.go_on();
  }

  /**
   * Runs again from a snapshot to a moment, and records from the end of a frame on: `frame` is the number
   * of frames until then. What it was when the record began: { state, time }, the display's state and the
   * machine's nanoseconds.
   */
  runWindow(snapshot, frame, moment) {
    const wasShowing = this.isShowing;
    this.restore(snapshot);
    this.record(false);
    this.isShowing = false;
    this.#window = { frame, state: null, time: 0 };
    if (this.cpu.frames() === frame) this.#beginWindow();
    this.runAgainTo(moment);
    this.isShowing = wasShowing;
    return this.#window;
  }

  #beginWindow() {
    this.#window.state = this.savedState().slice();
    this.#window.time = this.cpu.now();
    this.record(true);
  }

  // The display.

  #frame() {
    this.#passFrame();
    this.#frameCycles.set(this.cpu.frames(), this.cpu.cycles());
    // The start stays: a run that goes back to it passes its frame no more.
    if (this.cpu.frames() > MOST_FRAMES) this.#frameCycles.delete(this.cpu.frames() - MOST_FRAMES);
    this.#heard.frame?.();
    if (this.#window && !this.#window.state && this.cpu.frames() === this.#window.frame) {
      this.#beginWindow();
    }
  }

  #passFrame() {
    if (this.cpu.first_write() >>> 0 < this.#seenDots) this.#stirred = this.cpu.frames();
    if (!this.isShowing) {
      this.calls.zak_skip_frame(this.card);
      return;
    }
    const status = this.calls.zak_frame_words(this.card, this.#form, this.room, this.pixels,
      WIDEST * HIGHEST, WIDEST);
    // Lines of different widths make no picture.
    if (status) return;
    const [width, height, , down] = this.#roomWords(4);
    Object.assign(this, { width, height });
    this.calls.zak_clock(this.card, this.room);
    this.#seenDots = height * down * this.#roomWords(4)[3];
    this.shown++;
  }

  /** How a frame is drawn: a flag of zak_frame_words, or two. */
  get #form() {
    const frames = this.cpu.frames() - this.#stirred;
    // Whether a machine that was taken back, or started again, is calm is seen with its first frame.
    const isCalm = this.isDrawnOnce && (frames > CALM_FRAMES || frames < 0);
    return isCalm ? OPAQUE | ONCE : OPAQUE;
  }

  /** The first words of the room in which the adapter's calls tell. */
  #roomWords(count) {
    return new Uint32Array(this.calls.memory.buffer, this.room, count);
  }

  /** The bytes of a canvas that shows the picture; kept until the adapter's memory grows. */
  get paintedBytes() {
    const { width, height } = this;
    return new Uint8ClampedArray(this.calls.memory.buffer, this.painted, 4 * width * height);
  }

  /** Paints the picture into these bytes; the first row that was another one, and the one behind the last. */
  paint() {
    const rows = this.#paint(this.pixels, WIDEST, this.painted, this.width, this.height);
    return { first: rows & 0xffff, end: rows >>> 16 };
  }

  /**
   * Draws what is left of the frame under way, since a machine that has stopped ends none; how many dots
   * that is. It can't go on from there.
   */
  drawRest() {
    this.calls.zak_clock(this.card, this.room);
    const dots = this.adapterView.getUint32(this.room, true);
    this.isShowing = true;
    this.#passFrame();
    return dots;
  }

  /** The bytes of a call's block, as the registers name it; none where it has none. */
  #blockOf(given) {
    const { calls, adapterView: view, room } = this;
    given.slice(0, 4).forEach((word, i) => view.setUint16(room + 2 * i, word, true));
    calls.zak_block(this.card, room, room + 16);
    const length = view.getUint32(room + 16, true), isAtDx = view.getUint8(room + 24) !== 0;
    if (!length || length > MOST_BLOCK) return new Uint8Array();
    const [, , , dx, es, bp] = given, from = 16 * es + (isAtDx ? dx : bp);
    return this.ram.slice(from, from + length);
  }

  /** Interrupt 10, by the proved BIOS. */
  #video() {
    const { calls, room } = this, at = this.cpu.call_registers();
    const registers = new Uint16Array(this.cpu.memory.buffer, at, 8), given = Array.from(registers);
    const block = this.#blockOf(given);
    this.adapterBytes.set(block, this.block);
    const status = calls.zak_int10(this.card, room, this.block, block.length, this.table, MOST_TABLE,
      room + 16);
    if (this.#isRecording) this.blocks.push(block);
    if (status) {
      this.#missing(0x10, given[0]);
      return;
    }
    const view = this.adapterView;
    for (let i = 0; i < 4; i++) registers[i] = view.getUint16(room + 2 * i, true);
    const made = view.getUint32(room + 16, true);
    if (made) this.#write(16 * given[4] + given[3], this.adapterBytes.subarray(this.table, this.table + made));
    this.#writeBiosData();
    if (given[0] >> 8 !== SET_MODE) return;
    this.#noteMode();
    this.hasSet13 ||= (given[0] & 0x7f) === MODE_13;
  }

  #noteMode() {
    const set = { cycles: this.cpu.cycles() + CALL_CYCLES, time: this.cpu.now() };
    // What runs again sets the same modes.
    if (set.cycles <= (this.modes.at(-1)?.cycles ?? 0)) return;
    if (this.modes.length === MOST_MODES) this.modes.shift();
    this.modes.push(set);
  }

  #write(place, given) {
    const isPlain = place < LOW_END || place >= HIGH_BEGIN;
    const bytes = place < LOW_END ? given.subarray(0, LOW_END - place) : given;
    if (!isPlain) return;
    const marks = this.cpu.ram_marks();
    this.ram.set(bytes, place);
    this.bytes.fill(1, marks + (place >> 12), marks + (place + bytes.length - 1 >> 12) + 1);
  }

  /** The BIOS' data of the display, where programs look for it. */
  #writeBiosData() {
    this.calls.zak_read_bda(this.card, this.room);
    const { ram } = this, data = this.adapterBytes.subarray(this.room, this.room + 31);
    const copied = (to, from, length) => ram.set(data.subarray(from, from + length), BIOS_DATA + to);
    // A zak_bda: columns, size, start, eight positions, type, controller, height; mode, page, last row.
    copied(0x49, 28, 1);
    copied(0x4a, 0, 6);
    copied(0x50, 6, 16);
    copied(0x60, 22, 2);
    copied(0x62, 29, 1);
    copied(0x63, 24, 2);
    copied(0x84, 30, 1);
    copied(0x85, 26, 2);
    ram[BIOS_DATA + 0x87] = 0x60;
    ram[BIOS_DATA + 0x89] = 0x11;
    this.bytes[this.cpu.ram_marks()] = 1;
  }

  // What was done.

  #instruction(segment, place, text, length) {
    const told = decoder.decode(this.bytes.subarray(text, text + length));
    if (this.#listed) {
      this.#listed.push({ segment, offset: place >>> 0, text: told });
      return;
    }
    this.instructions.set(placeKey(segment, place >>> 0), told);
  }

  /**
   * What tells the text of an instruction of this record, by segment and offset; where code changes
   * itself, of the last one. It tells the same when something else is recorded.
   */
  get instructionTexts() {
    const { instructions } = this;
    return (segment, place) => instructions.get(placeKey(segment, place)) ?? "";
  }

  /** So many instructions from a place on, as memory is now: { segment, offset, text } each. */
  disassembled(segment, offset, count) {
    this.#listed = [];
    this.cpu.disassemble(segment, offset, count);
    const found = this.#listed;
    this.#listed = null;
    return found;
  }

  /**
   * Records from here on, or no longer: with the text of each instruction, or else with the microsecond
   * of each record in the place of its instruction's.
   */
  record(isOn, hasTimes = false) {
    this.#isRecording = isOn;
    this.blocks = [];
    this.instructions = new Map();
    this.cpu.set_recording(isOn ? (hasTimes ? TIMES : TEXTS) : 0, this.recordsAt);
  }

  /** The records: four words each, a copy. */
  get records() {
    const { cpu } = this, words = MOST_RECORDS * 4, count = cpu.record_count();
    const all = new Uint32Array(cpu.memory.buffer, this.recordsAt, words);
    if (!cpu.has_wrapped()) return all.slice(0, 4 * count);
    const found = new Uint32Array(words);
    found.set(all.subarray(4 * count));
    found.set(all.subarray(0, 4 * count), words - 4 * count);
    return found;
  }

  /** The adapter's state as it is saved. */
  savedState() {
    const status = this.calls.zak_save(this.card, this.state, MOST_STATE, this.room);
    this.library.check(status);
    const length = this.adapterView.getUint32(this.room, true);
    return this.adapterBytes.subarray(this.state, this.state + length);
  }

  /** Restores a state of the adapter, which is given in parts. */
  restoreState(parts, length) {
    const bytes = this.adapterBytes;
    let at = this.state;
    for (const part of parts) {
      bytes.set(part, at);
      at += part.length;
    }
    const status = this.calls.zak_restore(this.card, this.state, length);
    this.library.check(status);
  }

  /** A snapshot, which shares its parts with the one before where they are the same. */
  snapshot(before = this.latest) {
    this.latest = new Snapshot(this, before);
    return this.latest;
  }

  /** What a machine has beside a snapshot until then, as plain data: its disks, and what it noted. */
  notesUntil({ time, cycles }) {
    const media = this.software.media ?? [];
    const disks = this.#disks.map(({ given, ...disk }) => ({ ...disk, number: media.indexOf(given) }));
    return { disks, modes: this.modes.filter(set => set.cycles <= cycles),
      missing: this.missing.filter(one => one.time <= time) };
  }

  /** A machine that was just started is what it was at a snapshot of another run of the same software and inputs. */
  takeOver(snapshot, { disks, modes, missing }) {
    const { cpu, software } = this, lacking = cpu.store_at(snapshot.storeBytes) - cpu.memory.buffer.byteLength;
    if (lacking > 0) cpu.memory.grow(Math.ceil(lacking / WASM_PAGE));
    this.#disks = disks.map(({ slot, place, since, number }) =>
      ({ slot, place, since, given: number < 0 ? software[DRIVES[slot]] : software.media[number] }));
    this.modes = [...modes];
    this.missing = [...missing];
    this.restore(snapshot);
  }

  /** Goes back, or forward, to a snapshot of this run. */
  restore(snapshot) {
    snapshot.restore(this, this.latest);
    this.latest = snapshot;
    this.stopAt();
  }
}

const isSameBytes = (one, other) => one.every((byte, i) => byte === other[i]);
const dosName = name => name.toUpperCase().replaceAll("/", "\\");
const placeKey = (segment, place) => segment * 2 ** 32 + place;
