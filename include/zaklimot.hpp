/* zaklimot.hpp: a card of zaklimot.h as an object of C++17.
 *
 * SPDX-License-Identifier: MIT
 *
 * Each function is the call of the same name; zaklimot.h says what it does. If a call answers another
 * status than ZAK_OK, the function throws zaklimot::error with that status. Buffers are vectors or a
 * zaklimot::span, so you need not check what zaklimot.h says of pointers and lengths.
 */
#ifndef ZAKLIMOT_HPP
#define ZAKLIMOT_HPP

#include <cstddef>
#include <cstdint>
#include <optional>
#include <stdexcept>
#include <string>
#include <type_traits>
#include <utility>
#include <vector>

#include "zaklimot.h"

namespace zaklimot {

/* What a status means: its name and a sentence, such as "ZAK_NO_MODE: No mode is set yet.". */
inline std::string status_text(zak_status status)
{
    char text[ZAK_MOST_STATUS_TEXT];
    std::size_t len = 0;
    if (zak_status_text(status, reinterpret_cast<std::uint8_t *>(text), sizeof text, &len) != ZAK_OK)
        return "status " + std::to_string(status); /* the portable file needs memory for it */
    return std::string(text, len);
}

/* The status of a call that failed, and the place of the fault in a script, or 0. what() says both. */
class error : public std::runtime_error {
public:
    error(zak_status status, std::size_t place = 0)
        : std::runtime_error((place ? "at " + std::to_string(place) + ": " : std::string()) +
                             status_text(status)),
          status_(status), place_(place) {}
    zak_status status() const noexcept { return status_; }
    std::size_t place() const noexcept { return place_; }

private:
    zak_status status_;
    std::size_t place_;
};

inline void check(zak_status status, std::size_t place = 0)
{
    if (status != ZAK_OK)
        throw error(status, place);
}

namespace detail {
template <typename U>
inline constexpr bool is_byte = std::is_same_v<U, char> || std::is_same_v<U, signed char> ||
                                std::is_same_v<U, unsigned char> || std::is_same_v<U, std::byte>;

/* Whether memory of elements U may be lent as memory of elements T. */
template <typename U, typename T>
inline constexpr bool fits =
    (std::is_same_v<std::remove_const_t<U>, std::remove_const_t<T>> ||
     (is_byte<std::remove_const_t<U>> && std::is_same_v<std::remove_const_t<T>, std::uint8_t>)) &&
    (std::is_const_v<T> || !std::is_const_v<U>);

/* The same of the memory of a container: data() leads to it, and size() counts its elements. */
template <typename C, typename T, typename = void> inline constexpr bool lends = false;
template <typename C, typename T>
inline constexpr bool
    lends<C, T, std::enable_if_t<std::is_pointer_v<decltype(std::declval<C &>().data())> &&
                                 std::is_convertible_v<decltype(std::declval<C &>().size()), std::size_t>>> =
        fits<std::remove_pointer_t<decltype(std::declval<C &>().data())>, T>;
} // namespace detail

/* Elements of somebody else's memory. Arrays of C convert to a span, and so does what has data() and
 * size(), such as std::vector, std::array, std::string and other spans. The elements are of the
 * span's type. For bytes, they may also be char, signed char or std::byte. A span that a call writes
 * to takes neither constants nor temporary containers. A literal "text" does not convert, since an
 * array of it has a 0 at its end: write std::string_view("text"). */
template <typename T> class span {
public:
    span() noexcept : data_(&nothing()), size_(0) {}
    span(T *data, std::size_t size) noexcept : data_(data ? data : &nothing()), size_(data ? size : 0) {}
    template <typename U, std::size_t N, typename = std::enable_if_t<detail::fits<U, T>>>
    span(U (&from)[N]) noexcept : span(reinterpret_cast<T *>(from), N)
    {
    }
    template <std::size_t N> span(const char (&)[N]) = delete;
    template <typename C, typename = std::enable_if_t<detail::lends<C, T>>>
    span(C &from) noexcept : span(reinterpret_cast<T *>(from.data()), static_cast<std::size_t>(from.size()))
    {
    }
    template <typename C, typename = std::enable_if_t<detail::lends<const C, T>>>
    span(const C &from) noexcept
        : span(reinterpret_cast<T *>(from.data()), static_cast<std::size_t>(from.size()))
    {
    }
    T *data() const noexcept { return data_; }
    std::size_t size() const noexcept { return size_; }
    T *begin() const noexcept { return data_; }
    T *end() const noexcept { return data_ + size_; }
    T &operator[](std::size_t at) const { return data_[at]; }

private:
    /* Calls take no NULL pointers. */
    static T &nothing() noexcept
    {
        static std::remove_const_t<T> one{};
        return one;
    }
    T *data_;
    std::size_t size_;
};

using bytes = span<const std::uint8_t>;

/* A picture: three bytes per dot, red, green and blue, 0 to 63 each, rows from the top. */
struct picture {
    std::uint32_t width, height;
    span<const std::uint8_t> rgb;
};

/* Why a card would refuse a step: the status, the kind ZAK_WHY_.. and its numbers, and a sentence. */
struct reason : zak_reason {
    std::string text;
};

/* A script that leads from power-on to a card's state. If are_dots_other is true, the frame under way
 * was drawn otherwise until now; all else is the same. */
struct rebuilt {
    std::vector<std::uint8_t> script;
    bool are_dots_other;
};

/* What is wrong in a text: the line, the part of it, the kind ZAK_MISTAKE_.., and a sentence in lower
 * case with no full stop. */
struct mistake : zak_mistake {
    std::string sentence;
};

/* A VGA adapter with its video BIOS, open as long as the object lives. You can move it, but not copy it. */
class card {
public:
    explicit card(bytes fonts) { check(zak_open(&raw_, fonts.data(), fonts.size())); }
    card(card &&other) noexcept : raw_(other.raw_), rgb_(std::move(other.rgb_)) { other.raw_ = zak_card(); }
    card &operator=(card &&other) noexcept
    {
        std::swap(raw_, other.raw_);
        rgb_.swap(other.rgb_);
        return *this;
    }
    card(const card &) = delete;
    card &operator=(const card &) = delete;
    ~card()
    {
        if (raw_.is_open)
            zak_close(&raw_);
    }

    void out(std::uint16_t port, std::uint8_t value) { check(zak_out(&raw_, port, value)); }
    void out_word(std::uint16_t port, std::uint16_t value) { check(zak_out_word(&raw_, port, value)); }
    std::uint8_t in(std::uint16_t port) { return read<std::uint8_t>(zak_in, port); }
    std::uint16_t in_word(std::uint16_t port) { return read<std::uint16_t>(zak_in_word, port); }
    void put(std::uint32_t address, std::uint8_t value) { check(zak_put(&raw_, address, value)); }
    void put_word(std::uint32_t address, std::uint16_t value) { check(zak_put_word(&raw_, address, value)); }
    std::uint8_t get(std::uint32_t address) { return read<std::uint8_t>(zak_get, address); }
    std::uint16_t get_word(std::uint32_t address) { return read<std::uint16_t>(zak_get_word, address); }

    /* These return how many addresses are decoded. */
    std::size_t put_bytes(std::uint32_t address, bytes data, bool down = false)
    {
        return decoded(zak_put_bytes, address, data.data(), data.size(), down);
    }
    std::size_t fill_bytes(std::uint32_t address, std::uint8_t value, std::size_t count, bool down = false)
    {
        return decoded(zak_fill_bytes, address, value, count, down);
    }
    std::size_t get_bytes(std::uint32_t address, span<std::uint8_t> into, bool down = false)
    {
        return decoded(zak_get_bytes, address, into.data(), into.size(), down);
    }
    std::size_t move_bytes(std::uint32_t from, std::uint32_t to, std::size_t count, bool down = false)
    {
        return decoded(zak_move_bytes, from, to, count, down);
    }

    void advance(std::uint32_t dots) { check(zak_advance(&raw_, dots)); }
    zak_timing clock() { return read<zak_timing>(zak_clock); }

    /* The picture lies in the card's memory, until its next frame. */
    picture frame()
    {
        zak_size size;
        rgb_.resize(ZAK_MOST_RGB);
        check(zak_frame(&raw_, &size, rgb_.data(), rgb_.size()));
        return {size.width, size.height, {rgb_.data(), std::size_t(3) * size.width * size.height}};
    }
    zak_size frame_xrgb(span<std::uint32_t> pixels, std::size_t pitch)
    {
        zak_size size;
        check(zak_frame_xrgb(&raw_, &size, pixels.data(), pixels.size(), pitch));
        return size;
    }

    /* Writes each pixel once, or in another form: the flags are those of zak_frame_words. */
    zak_picture frame_words(span<std::uint32_t> pixels, std::size_t pitch, std::uint32_t flags = ZAK_ONCE)
    {
        zak_picture picture;
        check(zak_frame_words(&raw_, flags, &picture, pixels.data(), pixels.size(), pitch));
        return picture;
    }

    /* Does the same, and tells which rows of the words have changed. */
    zak_picture frame_update(span<std::uint32_t> pixels, std::size_t pitch, zak_rows &changed,
                             std::uint32_t flags = ZAK_ONCE)
    {
        zak_picture picture;
        check(zak_frame_update(&raw_, flags, &picture, pixels.data(), pixels.size(), pitch, &changed));
        return picture;
    }

    /* Writes the number of each dot's colour in the palette, which gets the picture's colours. */
    zak_size frame_indexed(span<std::uint8_t> numbers, zak_palette &palette)
    {
        zak_size size;
        check(zak_frame_indexed(&raw_, &size, &palette, numbers.data(), numbers.size()));
        return size;
    }

    /* Lets the clock run to the end of the frame under way, and draws nothing of it. */
    void skip_frame() { check(zak_skip_frame(&raw_)); }

    /* Draws the line under way to its end. The flags are ZAK_OPAQUE or 0. */
    zak_scan_line line(span<std::uint32_t> pixels, std::uint32_t flags = 0)
    {
        zak_scan_line line;
        check(zak_line(&raw_, flags, &line, pixels.data(), pixels.size()));
        return line;
    }

    /* What int10 with these registers reads from the caller's memory. */
    zak_source block(const zak_regs &regs) { return read<zak_source>(zak_block, &regs); }

    /* Returns what a function writes at ES:DX. regs are the answer afterwards. */
    std::vector<std::uint8_t> int10(zak_regs &regs, bytes block = bytes())
    {
        std::uint8_t table[ZAK_MOST_TABLE];
        std::size_t len = 0;
        check(zak_int10(&raw_, &regs, block.data(), block.size(), table, sizeof table, &len));
        return std::vector<std::uint8_t>(table, table + len);
    }

    /* Lists the cycles that int10 with these registers would make, as a script. Nothing changes. */
    std::vector<std::uint8_t> cycles(const zak_regs &regs, bytes block = bytes())
    {
        std::vector<std::uint8_t> script(4096);
        std::size_t len = 0;
        zak_status status;
        while ((status = zak_cycles(&raw_, &regs, block.data(), block.size(), script.data(),
                                    script.size(), &len)) == ZAK_NO_ROOM)
            script.resize(len);
        check(status);
        script.resize(len);
        return script;
    }

    zak_registers registers() { return read<zak_registers>(zak_read_registers); }
    zak_colour colour(std::uint8_t entry) { return read<zak_colour>(zak_read_colour, entry); }
    zak_beam beam() { return read<zak_beam>(zak_read_beam); }
    zak_latches latches() { return read<zak_latches>(zak_read_latches); }
    zak_bda bios_data() { return read<zak_bda>(zak_read_bda); }
    zak_screen screen() { return read<zak_screen>(zak_screen_read); }
    zak_cell cell(std::uint8_t page, std::uint8_t row, std::uint8_t column)
    {
        return read<zak_cell>(zak_screen_cell, page, row, column);
    }
    std::uint8_t pixel(std::uint8_t page, std::uint16_t x, std::uint16_t y)
    {
        return read<std::uint8_t>(zak_screen_pixel, page, x, y);
    }
    zak_place cursor(std::uint8_t page) { return read<zak_place>(zak_screen_cursor, page); }
    void plane(std::uint8_t number, std::uint16_t offset, span<std::uint8_t> into)
    {
        check(zak_read_plane(&raw_, number, offset, into.data(), into.size()));
    }

    std::vector<std::uint8_t> save()
    {
        std::vector<std::uint8_t> state(save_size());
        save_into(state);
        return state;
    }
    std::size_t save_size() { return read<std::size_t>(zak_save_size); }
    /* Writes the state to the beginning of the span, and returns how many bytes it has. ZAK_MOST_STATE
     * bytes are always enough, and ZAK_FIRST_STATE at the first dot of a frame. Allocates nothing. */
    std::size_t save_into(span<std::uint8_t> into)
    {
        std::size_t len = 0;
        check(zak_save(&raw_, into.data(), into.size(), &len));
        return len;
    }
    void restore(bytes state) { check(zak_restore(&raw_, state.data(), state.size())); }
    /* Fills the whole span with the state, zeros, and a checksum at the end. Allocates nothing. */
    void save_fixed(span<std::uint8_t> into) { check(zak_save_fixed(&raw_, into.data(), into.size())); }
    void restore_fixed(bytes state) { check(zak_restore_fixed(&raw_, state.data(), state.size())); }

    /* Says why a step of a script would be refused, by default the first one. No value: the card would
     * do it. If the script is damaged, the error's place is the offset in it. */
    std::optional<reason> explain_step(bytes script, std::uint32_t step = 0)
    {
        reason why{};
        std::uint8_t text[ZAK_MOST_REASON_TEXT];
        std::size_t len = 0, place = 0;
        check(zak_explain_step(&raw_, script.data(), script.size(), step, &why, text, sizeof text, &len, &place),
              place);
        if (why.status == ZAK_OK)
            return std::nullopt;
        why.text.assign(text, text + len);
        return why;
    }

    /* Says where the colour of the dot at a beam comes from; by default of the next dot. */
    zak_dot_source explain_dot() { return explain_dot(beam()); }
    zak_dot_source explain_dot(const zak_beam &at) { return read<zak_dot_source>(zak_explain_dot, &at); }

    /* Say what put and get would do on the way, and do not do it. */
    zak_write_stages explain_put(std::uint32_t address, std::uint8_t value)
    {
        return read<zak_write_stages>(zak_explain_put, address, value);
    }
    zak_read_stages explain_get(std::uint32_t address) { return read<zak_read_stages>(zak_explain_get, address); }

    /* Writes a script that leads from power-on to this state, with the same fonts. */
    rebuilt rebuild()
    {
        rebuilt made{std::vector<std::uint8_t>(std::size_t(1) << 20), false};
        std::size_t len = 0;
        zak_status status;
        while ((status = zak_rebuild(&raw_, made.script.data(), made.script.size(), &len,
                                     &made.are_dots_other)) == ZAK_NO_ROOM)
            made.script.resize(len);
        check(status);
        made.script.resize(len);
        return made;
    }

    /* For calls that have no function here. */
    zak_card *raw() noexcept { return &raw_; }

private:
    template <typename T, typename Call, typename... Place> T read(Call call, Place... place)
    {
        T value;
        check(call(&raw_, place..., &value));
        return value;
    }
    template <typename Call, typename... Given> std::size_t decoded(Call call, Given... given)
    {
        return read<std::size_t>(call, given...);
    }
    zak_card raw_ = ZAK_CARD_INIT;
    std::vector<std::uint8_t> rgb_;
};

/* Assembles a text into a script. If a line is bad, the error's place is its number. */
inline std::vector<std::uint8_t> assemble(const std::string &text)
{
    std::vector<std::uint8_t> script(1);
    std::size_t len = 0, line = 0;
    const std::uint8_t *from = reinterpret_cast<const std::uint8_t *>(text.data());
    zak_status status = zak_assemble(from, text.size(), script.data(), 0, &len, &line);
    if (status == ZAK_NO_ROOM) {
        script.resize(len);
        status = zak_assemble(from, text.size(), script.data(), script.size(), &len, &line);
    }
    check(status, line);
    return script;
}

/* Says what is wrong in a text that assemble refuses. No value: the text spells a script. */
inline std::optional<mistake> explain_text(const std::string &text)
{
    mistake found{};
    std::uint8_t sentence[ZAK_MOST_MISTAKE_TEXT];
    std::size_t len = 0;
    check(zak_explain_text(reinterpret_cast<const std::uint8_t *>(text.data()), text.size(), &found, sentence,
                           sizeof sentence, &len));
    if (found.kind == 0)
        return std::nullopt;
    found.sentence.assign(sentence, sentence + len);
    return found;
}

/* Runs a script, and returns its report. */
inline std::vector<std::uint8_t> run(bytes script, bytes fonts)
{
    std::vector<std::uint8_t> report(std::size_t(1) << 20);
    std::size_t len = 0, place = 0;
    zak_status status;
    while ((status = zak_run(script.data(), script.size(), fonts.data(), fonts.size(), report.data(),
                             report.size(), &len, &place)) == ZAK_NO_ROOM)
        report.resize(len);
    check(status, place);
    report.resize(len);
    return report;
}

} // namespace zaklimot

#endif
