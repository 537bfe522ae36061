/* machine=zaklimot: DOSBox's VGA with the library Zaklimot as its adapter.
 *
 * SPDX-License-Identifier: MIT
 *
 * This file is the glue between DOSBox 0.74-3 and zaklimot.h, and goes to src/hardware/. DOSBox's
 * own INT 10 stays the video BIOS. The cycles of ports 3B0 to 3DF and of addresses A0000 to BFFFF
 * go to the card. Before each of them the card's clock comes to the emulated time. Where a frame
 * ends, its picture goes to DOSBox's renderer, dot for dot. A mode set to one of CGA's modes gives
 * the screen to DOSBox's own adapter, and the next one takes it back.
 */
#include <algorithm>
#include <map>
#include <string>
#include <stdio.h>
#include <string.h>

#include "dosbox.h"
#include "hardware.h"
#include "inout.h"
#include "mem.h"
#include "paging.h"
#include "pic.h"
#include "render.h"
#include "setup.h"
#include "vga.h"
#include "zaklimot.h"

bool zaklimot = false;              // whether Zaklimot's adapter has the screen

static zak_card card = ZAK_CARD_INIT;

// --- Refused cycles ---

// They are counted by name, and logged when DOSBox ends.
static std::map<std::string, Bitu> refusals;

static void Refuse(zak_status status, const char *format, Bitu place, Bitu value) {
	char cycle[64];
	Bit8u text[ZAK_MOST_STATUS_TEXT];
	size_t len = 0;
	zak_registers now;
	zak_read_registers(&card, &now);
	const Bitu index = place == 0x3c5 ? now.seq_index : place == 0x3cf ? now.gfx_index : now.crtc_index;
	sprintf(cycle, format, (unsigned)place, (unsigned)value, (unsigned)index);
	zak_status_text(status, text, sizeof text, &len);
	refusals[std::string(cycle) + ": " + std::string((const char *)text, len)]++;
}

static void RefuseOut(zak_status status, Bitu port, Bitu value) {
	const bool is_indexed = port == 0x3c5 || port == 0x3cf || port == 0x3b5 || port == 0x3d5;
	Refuse(status, is_indexed ? "out %03X = %02X, index %02X" : "out %03X = %02X", port, value);
}

static void LogRefusals(Section * /*sec*/) {
	std::map<std::string, Bitu>::const_iterator it;
	for (it = refusals.begin(); it != refusals.end(); ++it)
		LOG_MSG("ZAKLIMOT: %u times %s", (unsigned)it->second, it->first.c_str());
	zak_close(&card);
}

// --- The clock ---

// At power-on frames have 90 dots and come 280,000 times a second. Nobody looks at such frames, so
// they pass with the clock.
static const Bit32u FEWEST_DOTS = 80000;
static const float NO_FRAME_MS = 5.0f;

static double now_ms;               // the time to which the card's clock has come
static double dots_per_ms;
static Bit32u left_dots;            // to the end of the frame
static bool has_frames;
static float frames_per_second;
static Bitu dot_width;              // 2 if the card halves the dot clock
static bool is_clock_stale;         // whether a write may have changed any of these

static void LookAtClock(void) {
	zak_timing timing;
	zak_clock(&card, &timing);
	dots_per_ms = timing.rate / (1000.0 * timing.rate_divisor);
	dot_width = timing.rate_divisor;
	has_frames = timing.frame_dots >= FEWEST_DOTS;
	left_dots = has_frames ? timing.to_frame : ZAK_MOST_DOTS;
	frames_per_second = (float)(1000.0 * dots_per_ms / timing.frame_dots);
	is_clock_stale = false;
}

static void TakeFrame(void);

// Lets the card's clock come to the emulated time.
static void Settle(void) {
	// Software may make many cycles at one time, which is seen fastest in whole numbers.
	static Bitu last_tick;
	static Bits last_cycle = -1;
	const Bits cycle = PIC_TickIndexND();
	if (cycle == last_cycle && PIC_Ticks == last_tick) return;
	last_cycle = cycle;
	last_tick = PIC_Ticks;
	// What was written last counts from the time at which it was written.
	if (is_clock_stale) LookAtClock();
	for (;;) {
		const double owed = (PIC_FullIndex() - now_ms) * dots_per_ms;
		if (owed < 1) return;
		if (owed < left_dots) {
			const Bit32u dots = (Bit32u)owed;
			zak_advance(&card, dots);
			left_dots -= dots;
			now_ms += dots / dots_per_ms;
			return;
		}
		now_ms += left_dots / dots_per_ms;
		TakeFrame();
		LookAtClock();
	}
}

// Comes where the frame ends, so that it is shown even if software makes no cycle then.
static void FrameEvent(Bitu /*val*/) {
	Settle();
	if (is_clock_stale) LookAtClock();
	float wait = NO_FRAME_MS;
	if (has_frames) wait = (float)((left_dots + 0.5) / dots_per_ms - (PIC_FullIndex() - now_ms));
	PIC_AddEvent(FrameEvent, wait);
}

// --- Frames ---

// A picture of another size than the window's is shown once it has come so many times: while
// software writes registers for a mode, frames have sizes that are soon gone.
static const Bitu STEADY = 3;
// What is written late in a frame is seen in the next one.
static const Bitu FRAMES_OF_A_WRITE = 2;

struct Look {                       // what the renderer must know of a picture
	Bitu width, height, dot_width;
	float fps;
	bool operator==(const Look &that) const {
		return width == that.width && height == that.height && dot_width == that.dot_width &&
		       fps == that.fps;
	}
};

static Look shown, seen;            // that of the window, and that of the last frame
static Bitu seen_times;
static Bitu changing_frames;        // frames to come that may differ from the one before
static Bit32u pixels[ZAK_WIDEST * ZAK_HIGHEST];

// Text and its cursor blink by the number of the frame.
static bool MayBlink(void) {
	zak_beam beam;
	zak_registers registers;
	zak_read_beam(&card, &beam);
	zak_read_registers(&card, &registers);
	return beam.frame % 8 == 0 && !(registers.gfx[6] & 1);
}

// False only if the frame cannot differ from the one before.
static bool MayDiffer(void) {
	// A frame that DOSBox skips leaves the change to the next.
	if (!changing_frames && MayBlink()) changing_frames = 1;
	return changing_frames || seen_times <= STEADY || render.scale.clearCache ||
	       (CaptureState & (CAPTURE_IMAGE | CAPTURE_VIDEO));
}

static void Resize(const Look &look) {
	seen_times = look == seen ? seen_times + 1 : 1;
	seen = look;
	if (seen_times < STEADY) return;
	shown = look;
	// DOSBox wants the height by which the picture is stretched to 4:3.
	const double ratio = (double)(look.width * look.dot_width) / look.height * 3.0 / 4.0;
	RENDER_SetSize(look.width, look.height, 32, look.fps, ratio, look.dot_width > 1, false);
}

// Lets the clock run to the frame's end, and shows the picture.
static void TakeFrame(void) {
	zak_size size;
	// RENDER_StartUpdate says whether DOSBox skips the frame, or has no window yet.
	if (!MayDiffer() || !(RENDER_StartUpdate() || seen_times < STEADY)) {
		zak_skip_frame(&card);
		return;
	}
	if (changing_frames) changing_frames--;
	if (zak_frame_xrgb(&card, &size, pixels, ZAK_WIDEST * ZAK_HIGHEST, ZAK_WIDEST) != ZAK_OK) {
		RENDER_EndUpdate(true);     // a ragged frame: the last picture stays
		return;
	}
	const Look look = {size.width, size.height, dot_width, frames_per_second};
	if (!(look == shown)) {
		RENDER_EndUpdate(true);
		Resize(look);
		return;
	}
	seen = look;
	seen_times++;
	for (Bitu y = 0; y < look.height; y++) RENDER_DrawLine(pixels + ZAK_WIDEST * y);
	RENDER_EndUpdate(false);
}

// --- Ports ---

static Bit8u seq_index, crtc_index;

// What a write changes besides the card.
static void Note(Bitu port, Bitu val) {
	changing_frames = FRAMES_OF_A_WRITE;
	switch (port) {
	case 0x3c4: seq_index = (Bit8u)val; break;
	case 0x3b4: case 0x3d4: crtc_index = (Bit8u)val; break;
	// zak_clock costs as much as several cycles, so it is asked only after writes that may change
	// its answer: not of the map mask, the start address, or the cursor.
	case 0x3c2: is_clock_stale = true; break;
	case 0x3c5: is_clock_stale |= seq_index == 1; break;
	case 0x3b5: case 0x3d5: is_clock_stale |= crtc_index < 0x0a || crtc_index > 0x0f; break;
	}
}

static void WritePort(Bitu port, Bitu val, Bitu /*iolen*/) {
	Settle();
	const zak_status status = zak_out(&card, (Bit16u)port, (Bit8u)val);
	if (GCC_UNLIKELY(status)) RefuseOut(status, port, val & 0xff);
	Note(port, val & 0xff);
}

static void WritePortWord(Bitu port, Bitu val, Bitu /*iolen*/) {
	Settle();
	if (zak_out_word(&card, (Bit16u)port, (Bit16u)val) == ZAK_OK) {
		Note(port, val & 0xff);
		Note(port + 1, val >> 8 & 0xff);
		return;
	}
	// If one byte is refused, the other one arrives all the same.
	WritePort(port, val, 1);
	WritePort(port + 1, val >> 8, 1);
}

static Bitu ReadPort(Bitu port, Bitu /*iolen*/) {
	Bit8u value = 0xff;             // what an open bus gives
	Settle();
	const zak_status status = zak_in(&card, (Bit16u)port, &value);
	if (GCC_UNLIKELY(status)) Refuse(status, "in %03X", port, 0);
	return value;
}

// --- Memory ---

class ZaklimotHandler : public PageHandler {
public:
	ZaklimotHandler() { flags = PFLAG_NOCODE; }
	Bitu readb(PhysPt addr) {
		Bit8u value = 0xff;
		Settle();
		addr = PAGING_GetPhysicalAddress(addr);
		const zak_status status = zak_get(&card, addr, &value);
		if (GCC_UNLIKELY(status)) Refuse(status, "a read in page %05X", addr & ~0xfff, 0);
		return value;
	}
	void writeb(PhysPt addr, Bitu val) {
		Settle();
		addr = PAGING_GetPhysicalAddress(addr);
		const zak_status status = zak_put(&card, addr, (Bit8u)val);
		if (GCC_UNLIKELY(status)) Refuse(status, "a write in page %05X", addr & ~0xfff, 0);
		changing_frames = FRAMES_OF_A_WRITE;
	}
	Bitu readw(PhysPt addr) {
		Bit16u value;
		Settle();
		if (zak_get_word(&card, PAGING_GetPhysicalAddress(addr), &value) == ZAK_OK) return value;
		return PageHandler::readw(addr);
	}
	void writew(PhysPt addr, Bitu val) {
		Settle();
		changing_frames = FRAMES_OF_A_WRITE;
		if (zak_put_word(&card, PAGING_GetPhysicalAddress(addr), (Bit16u)val) != ZAK_OK)
			PageHandler::writew(addr, val);
	}
	Bitu readd(PhysPt addr) {
		const Bitu low = readw(addr);
		return low | readw(addr + 2) << 16;
	}
	void writed(PhysPt addr, Bitu val) {
		writew(addr, val & 0xffff);
		writew(addr + 2, val >> 16);
	}
};

static ZaklimotHandler handler;

// --- Many bytes at once ---

// DOSBox executes the elements of `rep stos` and `rep movs` at one time, so they may be one call.
// unit is the size of an element, and len that of all. These answer false, and do nothing, if the
// bytes are not all the display's.

static Bit8u bytes[0x20000];

static bool IsDisplay(PhysPt address, Bitu len) {
	return address >= 0xa0000 && address < 0xc0000 && len <= 0xc0000 - address;
}

bool ZAKLIMOT_Fill(PhysPt to, Bit32u value, Bitu unit, Bitu len) {
	size_t decoded;
	if (!IsDisplay(to, len)) return false;
	Settle();
	changing_frames = FRAMES_OF_A_WRITE;
	if (unit == 1) return zak_fill_bytes(&card, to, (Bit8u)value, len, false, &decoded) == ZAK_OK;
	for (Bitu i = 0; i < len; i++) bytes[i] = (Bit8u)(value >> 8 * (i % unit));
	return zak_put_bytes(&card, to, bytes, len, false, &decoded) == ZAK_OK;
}

bool ZAKLIMOT_Move(PhysPt from, PhysPt to, Bitu unit, Bitu len) {
	size_t decoded;
	const bool is_read = IsDisplay(from, len), is_written = IsDisplay(to, len);
	if (is_read && is_written) {
		// A word is read as a whole before it is written, so that it is written by the latches of
		// its high byte.
		if (unit != 1) return false;
		Settle();
		changing_frames = FRAMES_OF_A_WRITE;
		return zak_move_bytes(&card, from, to, len, false, &decoded) == ZAK_OK;
	}
	if (is_written && len <= 0xa0000 && from <= 0xa0000 - len) {
		Settle();
		changing_frames = FRAMES_OF_A_WRITE;
		MEM_BlockRead(from, bytes, len);
		return zak_put_bytes(&card, to, bytes, len, false, &decoded) == ZAK_OK;
	}
	if (is_read && len <= 0xa0000 && to <= 0xa0000 - len) {
		Settle();
		if (zak_get_bytes(&card, from, bytes, len, false, &decoded) != ZAK_OK) return false;
		MEM_BlockWrite(to, bytes, len);
		return true;
	}
	return false;
}

// --- Mode sets ---

// INT 10 clears the memory of graphics past the adapter, when its registers are set. A write then
// reaches all planes as it is, but for chain 4.
void ZAKLIMOT_ClearMemory(void) {
	zak_registers before;
	size_t decoded;
	zak_read_registers(&card, &before);
	WritePortWord(0x3c4, 0x0604, 2);
	zak_fill_bytes(&card, 0xa0000, 0, 0x10000, false, &decoded);
	WritePortWord(0x3c4, 4 | before.seq[4] << 8, 2);
	WritePort(0x3c4, before.seq_index, 1);
}

// The ports of both adapters: 3BC to 3BF are a printer's.
static const Bitu FIRST[2] = {0x3b0, 0x3c0}, PAST[2] = {0x3bc, 0x3e0};

// Whoever has the screen has the ports, and the others' handlers wait here.
static IO_WriteHandler *waiting_writes[2][0x30];
static IO_ReadHandler *waiting_reads[2][0x30];

static void ExchangePorts(void) {
	for (Bitu range = 0; range < 2; range++)
		for (Bitu port = FIRST[range]; port < PAST[range]; port++)
			for (Bitu size = 0; size < 2; size++) {     // bytes, and words
				std::swap(io_writehandlers[size][port], waiting_writes[size][port - 0x3b0]);
				std::swap(io_readhandlers[size][port], waiting_reads[size][port - 0x3b0]);
			}
}

static void TakeScreen(void) {
	zaklimot = true;
	// DOSBox's adapter ends its frame, and draws no other one.
	vga.mode = M_ERROR;
	VGA_SetupDrawing(0);
	VGA_KillDrawing();
	PIC_RemoveEvents(VGA_SetupDrawing);
	vga.draw.resizing = false;
	// So it begins anew when it gets the screen back, and does not divide by 0 then.
	vga.draw.delay.vtotal = 0;
	vga.draw.lines_scaled = 1;
	ExchangePorts();
	MEM_SetPageHandler(0xa0, 32, &handler);
	PAGING_ClearTLB();
	now_ms = PIC_FullIndex();
	shown = Look();
	seen_times = 0;
	PIC_AddEvent(FrameEvent, NO_FRAME_MS);
}

static void GiveScreen(void) {
	zaklimot = false;
	PIC_RemoveEvents(FrameEvent);
	ExchangePorts();
	MEM_ResetPageHandler(0xa0, 32);
	PAGING_ClearTLB();
}

// INT 10 is about to set a mode. CGA's layouts of pixels are outside the card's profile.
void ZAKLIMOT_SetMode(VGAModes mode) {
	if (!card.is_open) return;
	const bool is_cga = mode == M_CGA2 || mode == M_CGA4;
	if (is_cga && zaklimot) GiveScreen();
	else if (!is_cga && !zaklimot) TakeScreen();
}

void ZAKLIMOT_Init(Section *sec) {
	// INT 10 loads DOSBox's own fonts, so the card begins without any.
	static const Bit8u fonts[ZAK_FONTS_SIZE] = {0};
	if (zak_open(&card, fonts, sizeof fonts) != ZAK_OK) E_Exit("ZAKLIMOT: no memory for a card");
	LookAtClock();
	// A word at the last port of a range is DOSBox's to split.
	for (Bitu range = 0; range < 2; range++)
		for (Bitu port = FIRST[range]; port < PAST[range]; port++) {
			const bool is_last = port + 1 == PAST[range];
			waiting_writes[0][port - 0x3b0] = WritePort;
			waiting_writes[1][port - 0x3b0] = is_last ? io_writehandlers[1][port] : WritePortWord;
			waiting_reads[0][port - 0x3b0] = ReadPort;
			waiting_reads[1][port - 0x3b0] = io_readhandlers[1][port];
		}
	TakeScreen();
	sec->AddDestroyFunction(&LogRefusals);
}
