/* Calls a card by zaklimot.hpp: objects FONTS. Ends with status 0 where all is as it should be, and
 * else names the line. */
#include <algorithm>
#include <array>
#include <cstdio>
#include <cstdlib>
#include <cstring>
#include <fstream>
#include <iterator>
#include <new>
#include <string_view>
#include <type_traits>
#if __cplusplus >= 202002L
#include <span>
#endif

#include "zaklimot.hpp"

#define HOLDS(what) \
    do { \
        if (!(what)) { \
            std::fprintf(stderr, "line %d: %s\n", __LINE__, #what); \
            return 1; \
        } \
    } while (0)

using zaklimot::bytes;
using zaklimot::card;
using room = zaklimot::span<std::uint8_t>;
using words = zaklimot::span<std::uint32_t>;

static_assert(!std::is_copy_constructible<card>::value && !std::is_copy_assignable<card>::value, "it is one card");
static_assert(std::is_nothrow_move_constructible<card>::value && std::is_nothrow_move_assignable<card>::value, "it moves");

/* What converts to a span of constant bytes, to one of bytes that are written, and to one of words. */
template <typename From, bool IsRead, bool IsWritten, bool AreWords> static constexpr bool converts()
{
    static_assert(std::is_convertible_v<From, bytes> == IsRead, "to bytes that are read");
    static_assert(std::is_convertible_v<From, room> == IsWritten, "to bytes that are written");
    static_assert(std::is_convertible_v<From, words> == AreWords, "to words");
    return true;
}
static_assert(converts<std::vector<std::uint8_t> &, true, true, false>(), "bytes");
static_assert(converts<const std::vector<std::uint8_t> &, true, false, false>(), "they are constants");
static_assert(converts<std::vector<std::uint8_t>, true, false, false>(), "it is gone after the call");
static_assert(converts<std::vector<char> &, true, true, false>(), "bytes of another name");
static_assert(converts<std::vector<signed char> &, true, true, false>(), "and of a third");
static_assert(converts<std::array<std::byte, 4> &, true, true, false>(), "and of a fourth");
static_assert(converts<std::array<const std::byte, 4> &, true, false, false>(), "constants");
static_assert(converts<std::string &, true, true, false>(), "a string has bytes");
static_assert(converts<const std::string &, true, false, false>(), "constants");
static_assert(converts<std::string_view, true, false, false>(), "a view has constants");
static_assert(converts<std::uint8_t (&)[4], true, true, false>(), "an array of C");
static_assert(converts<const std::uint8_t (&)[4], true, false, false>(), "one of constants");
static_assert(converts<char (&)[4], true, true, false>(), "a buffer of C");
static_assert(converts<decltype("abc"), false, false, false>(), "it has a 0 at its end");
static_assert(converts<std::vector<int> &, false, false, false>(), "int is no byte");
static_assert(converts<std::vector<bool> &, false, false, false>(), "it has no memory of bool");
static_assert(converts<std::vector<std::string> &, false, false, false>(), "strings are no bytes");
static_assert(converts<int (&)[4], false, false, false>(), "nor are int in an array");
static_assert(converts<int, false, false, false>(), "a number is no memory");
static_assert(converts<std::uint8_t *, false, false, false>(), "nobody knows how long it is");
static_assert(converts<std::vector<std::uint32_t> &, false, false, true>(), "words");
static_assert(converts<std::uint32_t (&)[4], false, false, true>(), "an array of words");
static_assert(converts<const std::uint32_t (&)[4], false, false, false>(), "they are constants");
static_assert(converts<room, true, true, false>(), "what is written can be read");
static_assert(converts<const room &, true, true, false>(), "the span is constant, and its bytes are not");
static_assert(converts<bytes, true, false, false>(), "what is read can't be written");
#if __cplusplus >= 202002L
static_assert(converts<std::span<std::uint8_t>, true, true, false>(), "a span of the standard's");
static_assert(converts<std::span<const char>, true, false, false>(), "one of constants");
#endif
static_assert(std::is_trivially_copyable_v<bytes>, "it is two numbers");

/* How often memory was asked for by new. */
static std::size_t news;

void *operator new(std::size_t size)
{
    news++;
    if (void *made = std::malloc(size ? size : 1))
        return made;
    throw std::bad_alloc();
}
void operator delete(void *made) noexcept { std::free(made); }
void operator delete(void *made, std::size_t) noexcept { std::free(made); }

/* The status that a call throws, or 0. */
template <typename Call> static zak_status thrown(Call call)
{
    try {
        call();
    } catch (const zaklimot::error &error) {
        return error.status();
    }
    return ZAK_OK;
}

static int draw(card &vga)
{
    zak_regs regs = {0x0013, 0, 0, 0};
    HOLDS(vga.int10(regs).empty());
    vga.put(0xA0000, 0x0F);
    vga.put_word(0xA0001, 0x0102);
    HOLDS(vga.get(0xA0001) == 0x02 && vga.get_word(0xA0000) == 0x020F);
    vga.out(0x3C4, 2);
    HOLDS(vga.in(0x3C4) == 2 && vga.registers().seq_index == 2);
    vga.advance(801);
    HOLDS(vga.beam().line == 1 && vga.latches().plane[0] == 0x0F);
    HOLDS(vga.pixel(0, 0, 0) == 0x0F && vga.screen().pages == 1 && vga.bios_data().mode == 0x13);
    zaklimot::picture picture = vga.frame();
    HOLDS(picture.width == 640 && picture.height == 400 && picture.rgb.size() == 768000);
    picture = vga.frame();
    HOLDS(picture.rgb[0] == 63);
    std::vector<std::uint32_t> pixels(641 * 400, 7);
    HOLDS(vga.frame_xrgb(pixels, 641).width == 640 && pixels[0] == 0xFFFFFF && pixels[640] == 7);
    HOLDS(thrown([&] { vga.frame_xrgb(pixels, 639); }) == ZAK_NO_ROOM);
    std::vector<std::uint8_t> bytes(2);
    vga.plane(1, 0, bytes);
    HOLDS(bytes[0] == 2 && thrown([&] { vga.plane(1, 0xFFFF, bytes); }) == ZAK_BAD_ARGUMENT);
    HOLDS(thrown([&] { vga.in(0x60); }) == ZAK_NOT_DECODED);
    HOLDS(thrown([&] { vga.frame_xrgb({}, 0); }) == ZAK_NO_ROOM);
    return 0;
}

static int transfer(card &vga)
{
    zak_regs regs = {0x0013, 0, 0, 0};
    vga.int10(regs);
    std::vector<std::uint8_t> screen(64000), read(64000);
    for (std::size_t at = 0; at < screen.size(); at++)
        screen[at] = static_cast<std::uint8_t>(at * 7 / 3);
    HOLDS(vga.put_bytes(0xA0000, screen) == 64000 && vga.get(0xA0000 + 63999) == screen[63999]);
    HOLDS(vga.get_bytes(0xA0000, read, true) == 64000 && read == screen && vga.latches().plane[3] == screen[3]);
    HOLDS(vga.fill_bytes(0xA0000, 9, 3) == 3 && vga.move_bytes(0xA0000, 0xAFFFE, 3, true) == 5);
    HOLDS(vga.get_word(0xAFFFE) == 0x0909 && vga.fill_bytes(0xC0000, 9, 3, true) == 0);
    HOLDS(vga.put_bytes(0xA0000, {}) == 0 && vga.get_bytes(0xA0000, {}) == 0);
    /* A0000 and B0000 are one byte of memory now: the last write stays. */
    vga.out_word(0x3CE, 0x0106);
    screen.assign(0x10001, 2);
    screen[0] = 1;
    HOLDS(vga.put_bytes(0xA0000, screen) == screen.size() && vga.get(0xA0000) == 2);
    HOLDS(vga.put_bytes(0xA0000, screen, true) == screen.size() && vga.get(0xA0000) == 1);
    HOLDS(thrown([&] { vga.put_bytes(0xFFFFFFFF, {screen.data(), 1}); }) == ZAK_BAD_ARGUMENT);
    HOLDS(thrown([&] { vga.get_bytes(0xFFFFFFFF, {read.data(), 1}); }) == ZAK_BAD_ARGUMENT);
    HOLDS(thrown([&] { vga.fill_bytes(0, 1, SIZE_MAX); }) == ZAK_BAD_ARGUMENT);
    HOLDS(thrown([&] { vga.move_bytes(0xA0000, 0xFFFFFFFE, 2); }) == ZAK_BAD_ARGUMENT);
    return 0;
}

/* The lines of docs/LIBRARY.md, and what they do. */
static int example(zaklimot::bytes fonts)
{
    const std::vector<std::uint8_t> screen(64000, 0x0F);
    zaklimot::card vga(fonts);
    HOLDS(vga.clock().to_retrace == ZAK_NEVER);
    zak_regs regs = {0x0013, 0, 0, 0};
    vga.int10(regs);
    vga.put_bytes(0xA0000, screen);      // a screen of mode 13, a byte a pixel
    vga.advance(vga.clock().to_retrace); // to where the vertical retrace begins
    HOLDS((vga.in(0x3DA) & 8) == 8 && vga.beam().line == 412 && vga.pixel(0, 319, 199) == 0x0F);
    HOLDS(vga.clock().frame_dots == 359200 && vga.clock().rate / vga.clock().rate_divisor == 25175000);
    vga.advance(vga.clock().to_frame);
    HOLDS(vga.beam().line == 0 && vga.beam().frame == 1);
    vga.skip_frame();
    HOLDS(vga.beam().line == 0 && vga.beam().frame == 2);
    return 0;
}

/* The core of docs/LIBRARY.md. */
struct core {
    zaklimot::card vga;
    std::uint32_t left, owed = 0; // dots to the frame's end, and dots to let pass
    std::size_t frames = 0;
    zak_picture picture = {};
    std::vector<std::uint32_t> pixels = std::vector<std::uint32_t>(ZAK_WIDEST * ZAK_HIGHEST);
    std::vector<std::array<std::uint8_t, ZAK_FIRST_STATE>> states{60};

    explicit core(zaklimot::bytes fonts) : vga(fonts), left(vga.clock().to_frame)
    {
        vga.save_into(states[0]);
    }

    void settle() // before each cycle
    {
        while (owed >= left) {
            owed -= left;
            take_frame();
        }
        vga.advance(owed);
        left -= owed;
        owed = 0;
    }

    void take_frame()
    {
        try {
            picture = vga.frame_words(pixels, ZAK_WIDEST);
        } catch (const zaklimot::error &error) {
            if (error.status() != ZAK_RAGGED)
                throw;
        }
        vga.save_into(states[++frames % states.size()]);
        left = vga.clock().to_frame;
    }

    void out(std::uint16_t port, std::uint8_t value)
    {
        settle();
        try {
            vga.out(port, value);
        } catch (const zaklimot::error &error) {
            if (error.status() > ZAK_BAD_HEIGHT)
                throw;
            // The adapter has refused it. On an open bus the write is lost.
        }
        left = vga.clock().to_frame;
    }

    void rewind(std::size_t count) // frames, fewer than there are states
    {
        frames -= count;
        vga.restore(states[frames % states.size()]);
        left = vga.clock().to_frame;
        owed = 0;
    }
};

static int emulate(zaklimot::bytes fonts)
{
    core machine(fonts);
    machine.vga.out(0x3C4, 2);
    machine.rewind(0);
    HOLDS(machine.vga.in(0x3C4) == 0 && machine.left == machine.vga.clock().frame_dots);
    zak_regs regs = {0x0013, 0, 0, 0};
    machine.vga.int10(regs);
    machine.left = machine.vga.clock().to_frame;
    for (std::uint8_t value = 1; value <= 100; value++) {
        machine.owed += 359200 / 2 + 7;
        machine.settle();
        machine.vga.put(0xA0000, value);
        machine.out(0x60, 1);
        machine.owed += 359200 / 2;
    }
    machine.settle();
    HOLDS(machine.frames == 100 && machine.vga.beam().line == 0 && machine.vga.beam().dot == 4);
    HOLDS(machine.left == 359200 - 700 && machine.picture.width == 320 && machine.picture.across == 2);
    /* The byte was written when its dot had passed, so that the frame shows the one before. */
    const zak_colour colour = machine.vga.colour(99);
    HOLDS((machine.pixels[0] >> 18 & 63) == colour.red && (machine.pixels[0] >> 2 & 63) == colour.blue);
    const std::size_t before = news;
    machine.rewind(59);
    HOLDS(machine.frames == 41 && machine.vga.get(0xA0000) == 41 && machine.left == 359200);
    machine.take_frame();
    HOLDS(news == before);
    /* A frame whose rows differ in width passes, and the last picture stays. */
    machine.vga.out_word(0x3D4, 0x0011);
    machine.vga.out_word(0x3D4, 0x4F01);
    machine.vga.advance(100000);
    machine.vga.out_word(0x3D4, 0x2001);
    machine.take_frame();
    HOLDS(machine.frames == 43 && machine.picture.width == 320);
    return 0;
}

/* A snapshot a frame, in memory that was asked for once. */
static int snapshots(card &vga, card &other)
{
    std::vector<std::uint8_t> state(ZAK_FIRST_STATE + 4), known;
    for (std::uint8_t value = 1; value < 4; value++) {
        vga.put(0xA0000, value);
        vga.skip_frame();
        known = vga.save();
        const std::size_t before = news;
        HOLDS(vga.save_size() == ZAK_FIRST_STATE && vga.save_into(state) == ZAK_FIRST_STATE);
        HOLDS(std::memcmp(state.data(), known.data(), known.size()) == 0);
        other.restore({state.data(), ZAK_FIRST_STATE});
        HOLDS(other.get(0xA0000) == value);
        vga.save_fixed(state);
        other.restore_fixed(state);
        HOLDS(news == before);
        HOLDS(other.save() == known);
    }
    /* At any other dot the state is longer, and what is too short stays as it was. */
    vga.advance(640);
    HOLDS(vga.save_size() == ZAK_FIRST_STATE + 3 * 640);
    state.assign(vga.save_size() + 3, 0xEE);
    known = state;
    HOLDS(thrown([&] { vga.save_into({state.data(), state.size() - 4}); }) == ZAK_NO_ROOM);
    HOLDS(thrown([&] { vga.save_into({}); }) == ZAK_NO_ROOM);
    HOLDS(thrown([&] { vga.save_fixed(state); }) == ZAK_NO_ROOM && state == known);
    HOLDS(vga.save_into(state) == state.size() - 3 && state[state.size() - 3] == 0xEE);
    HOLDS(std::equal(state.begin(), state.end() - 3, vga.save().begin()));
    return 0;
}

/* Memory of each kind, in both directions. */
static int spans(card &vga)
{
    zak_regs regs = {0x0013, 0, 0, 0};
    vga.int10(regs);
    const std::string text = "ab";
    const std::vector<char> more = {'c', 'd'};
    const std::uint8_t array[] = {'e', 'f'};
    const std::array<std::byte, 2> last = {std::byte{'g'}, std::byte{'h'}};
    HOLDS(vga.put_bytes(0xA0000, text) == 2 && vga.put_bytes(0xA0002, more) == 2);
    HOLDS(vga.put_bytes(0xA0004, array) == 2 && vga.put_bytes(0xA0006, last) == 2);
    HOLDS(vga.put_bytes(0xA0008, std::string_view("ij")) == 2);
    std::string read(4, '-');
    char buffer[3] = {'-', '-', '-'};
    std::array<signed char, 3> others{};
    HOLDS(vga.get_bytes(0xA0000, read) == 4 && read == "abcd");
    HOLDS(vga.get_bytes(0xA0004, buffer) == 3 && std::memcmp(buffer, "efg", 3) == 0);
    HOLDS(vga.get_bytes(0xA0007, others) == 3 && others[0] == 'h' && others[2] == 'j');
    static std::uint32_t pixels[320 * 200];
    HOLDS(vga.frame_words(pixels, 320).width == 320 && pixels[0] != pixels[10]);
    zak_rows changed = {7, 7};
    HOLDS(vga.frame_update(pixels, 320, changed).width == 320 && changed.first == 0 && changed.count == 0);
    HOLDS(vga.put_bytes(0xA0000 + 320 * 199, text) == 2 && vga.frame_update(pixels, 320, changed).height == 200);
    HOLDS(changed.first == 199 && changed.count == 1 && pixels[320 * 199] != pixels[10]);
    HOLDS(thrown([&] { vga.frame_update(pixels, 319, changed); }) == ZAK_NO_ROOM && changed.first == 199);
    HOLDS(vga.frame_update(pixels, 320, changed, ZAK_ONCE | ZAK_OPAQUE).down == 2 && changed.count == 200);
    HOLDS(words(pixels).size() == 64000 && words(pixels).end() == pixels + 64000);
    const std::vector<std::uint8_t> empty;
    HOLDS(bytes(empty).size() == 0 && bytes(empty).data() != nullptr);
    return 0;
}

/* Why a step is refused, where a dot comes from, what cycles of memory do on the way. */
static int explained(card &vga)
{
    zak_regs regs = {0x0012, 0, 0, 0};
    vga.int10(regs);
    const auto why = vga.explain_step(zaklimot::assemble("out 60 01"));
    const std::vector<std::uint8_t> script = zaklimot::assemble("frame\nout 60 1\nint ax=4");
    const auto port = vga.explain_step(script, 1), mode = vga.explain_step(script, 2);
    HOLDS(!vga.explain_step(script) && port && mode && why && why->text == port->text);
    HOLDS(port->status == ZAK_NOT_DECODED && port->kind == ZAK_WHY_NO_PORT && port->numbers[0] == 0x60);
    HOLDS(port->text == "No part of the adapter decodes port 060." && !port->is_high);
    HOLDS(mode->status == ZAK_BAD_MODE && mode->kind == ZAK_WHY_NO_SUCH_MODE && mode->numbers[0] == 4);
    HOLDS(thrown([&] { vga.explain_step(script, 3); }) == ZAK_BAD_ARGUMENT);
    HOLDS(thrown([&] { vga.explain_step({}); }) == ZAK_BAD_MAGIC);
    vga.out_word(0x3C4, 0x0502);
    const zak_write_stages put = vga.explain_put(0xA0001, 0x5A);
    HOLDS(put.offset == 1 && put.planes == 5 && put.before[0] == 0 && put.written[2] == 0x5A);
    HOLDS(vga.get(0xA0001) == 0);
    vga.put(0xA0001, 0x5A);
    const zak_read_stages get = vga.explain_get(0xA0001);
    HOLDS(get.value == 0x5A && get.loaded[1] == 0 && get.loaded[2] == 0x5A);
    HOLDS(thrown([&] { vga.explain_put(0xC0000, 1); }) == ZAK_NOT_DECODED);
    HOLDS(thrown([&] { vga.explain_get(0xC0000); }) == ZAK_NOT_DECODED);
    zak_beam beam = vga.beam();
    const zak_dot_source here = vga.explain_dot();
    const zak_dot_source same = vga.explain_dot(beam);
    HOLDS(std::memcmp(&here, &same, sizeof here) == 0);
    beam.dot = 9;
    HOLDS(here.has_palette && !here.is_text && thrown([&] { vga.explain_dot(beam); }) == ZAK_BAD_ARGUMENT);
    return 0;
}

/* A script that leads from power-on to a card's state. */
static int rebuilds(card &vga, zaklimot::bytes fonts)
{
    zak_regs regs = {0x0013, 0, 0, 0};
    vga.int10(regs);
    std::vector<std::uint8_t> screen(64000);
    for (std::size_t at = 0; at < screen.size(); at++)
        screen[at] = static_cast<std::uint8_t>(at * at / 7);
    vga.put_bytes(0xA0000, screen);
    vga.skip_frame();
    const zaklimot::rebuilt made = vga.rebuild();
    card other(fonts);
    std::vector<std::uint8_t> report(std::size_t(1) << 24);
    std::size_t len = 0, taken = 0, place = 0;
    HOLDS(zak_run_on(other.raw(), made.script.data(), made.script.size(), 0, 0xFFFFFFFF, report.data(),
                     report.size(), &len, &taken, &place) == ZAK_OK);
    HOLDS(!made.are_dots_other && other.save() == vga.save());
    return 0;
}

static int scripts(zaklimot::bytes fonts)
{
    std::vector<std::uint8_t> script = zaklimot::assemble("int ax=3\nin 3CC");
    std::vector<std::uint8_t> report = zaklimot::run(script, fonts);
    HOLDS(std::string(report.end() - 5, report.end()) == "2 67\n");
    bool is_thrown = false;
    try {
        zaklimot::assemble("frame\nmove");
    } catch (const zaklimot::error &error) {
        is_thrown = error.status() == ZAK_BAD_LINE && error.place() == 2;
    }
    HOLDS(is_thrown);
    const auto mistake = zaklimot::explain_text("frame\nmove 3C4");
    HOLDS(mistake && mistake->line == 2 && mistake->start == 0 && mistake->length == 4);
    HOLDS(mistake->kind == ZAK_MISTAKE_STEP && !mistake->sentence.empty() && mistake->sentence.back() != '.');
    HOLDS(!zaklimot::explain_text("frame"));
    return 0;
}

int main(int argc, char **argv)
{
    HOLDS(argc == 2);
    std::ifstream file(argv[1], std::ios::binary);
    const std::string fonts((std::istreambuf_iterator<char>(file)), std::istreambuf_iterator<char>());
    const std::vector<std::uint8_t> glyphs(fonts.begin(), fonts.end());
    HOLDS(thrown([] { card none{zaklimot::bytes()}; }) == ZAK_FONT_SIZE);
    card first(glyphs), another(glyphs);
    card written(fonts);
    HOLDS(written.save() == first.save());
    if (draw(first) || scripts(glyphs) || example(glyphs) || transfer(another) || spans(written) ||
        snapshots(another, written) || emulate(glyphs) || explained(another) || rebuilds(written, glyphs))
        return 1;
    std::vector<std::uint8_t> state = first.save();
    card second(std::move(first));
    HOLDS(thrown([&] { first.in(0x3CC); }) == ZAK_NO_CARD && second.save() == state);
    card third(glyphs);
    third.restore(state);
    HOLDS(third.save() == state && thrown([&] { third.restore({}); }) == ZAK_STATE_MAGIC);
    first = std::move(third);
    HOLDS(first.get(0xA0000) == 0x0F && thrown([&] { third.in(0x3CC); }) == ZAK_NO_CARD);
    HOLDS(zak_version() >= ZAK_API_VERSION && second.raw()->is_open);
    return 0;
}
