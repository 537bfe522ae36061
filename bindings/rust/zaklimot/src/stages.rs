//! Where a dot comes from, and what becomes of a byte on its way to the planes or from them.

use zaklimot_sys as sys;

use crate::state::{read, Cell, Colour, Taken};

/// What text makes of a dot. [`is_cursor`](TextSource::is_cursor) decides first, then
/// [`is_blinked_away`](TextSource::is_blinked_away), [`is_underlined`](TextSource::is_underlined)
/// and [`is_glyph_dot`](TextSource::is_glyph_dot).
#[derive(Clone, Copy, Debug, PartialEq, Eq)]
pub struct TextSource {
    /// The cell.
    pub cell: Cell,
    /// The character map of the glyph, 0 to 7.
    pub map: u8,
    /// Where the row of the glyph is in plane 2.
    pub glyph_address: u16,
    /// The row of the glyph; its left dot is bit 7.
    pub glyph_row: u8,
    /// A dot of the cursor.
    pub is_cursor: bool,
    /// The character blinks, and is away in this frame.
    pub is_blinked_away: bool,
    /// A dot of the underline.
    pub is_underlined: bool,
    /// A dot of the glyph.
    pub is_glyph_dot: bool,
    /// The dot has the foreground of its cell.
    pub is_foreground: bool,
}

/// How the four bits of a dot become the number of a colour.
#[derive(Clone, Copy, Debug, PartialEq, Eq)]
pub struct PaletteSource {
    /// The four bits of the dot.
    pub nibble: u8,
    /// The palette register: the bits of planes that are enabled.
    pub register: u8,
    /// What the palette register holds, 0 to 63.
    pub value: u8,
    /// Colour select gives bits 5 and 4 of the number, too.
    pub is_colour_select_wide: bool,
    /// Bits 5 and 4 of the number, 0 to 3.
    pub middle: u8,
    /// Bits 7 and 6 of the number, 0 to 3.
    pub high: u8,
}

/// Where the colour of a dot comes from. What the memory makes of it is told even if something else
/// decides its colour: if the screen is off, the dot is black; otherwise, if the palette is not
/// shown, [`number`](DotSource::number) is the overscan colour.
#[derive(Clone, Copy, Debug, PartialEq, Eq)]
pub struct DotSource {
    /// It is a display dot, as the picture shows.
    pub is_display: bool,
    /// Counter of the character that the dot comes from.
    pub counter: u16,
    /// Where the character is fetched in each plane.
    pub address: u16,
    /// Dots by which the picture is panned left, 0 to 8.
    pub panning: u8,
    /// The dot of the character, 0 to 8, after panning.
    pub dot: u8,
    /// The bytes of planes 0 to 3 at the address.
    pub bytes: [u8; 4],
    /// What text makes of the dot; `None` in graphics.
    pub text: Option<TextSource>,
    /// How the palette gives the number of the colour; `None` in 256 colours.
    pub palette: Option<PaletteSource>,
    /// The palette is shown, and not the overscan colour.
    pub is_palette_shown: bool,
    /// The number of the colour, before the mask.
    pub number: u8,
    /// The DAC's mask.
    pub mask: u8,
    /// The DAC's entry: the bits of the number that the mask lets pass.
    pub entry: u8,
    /// The screen is off.
    pub is_screen_off: bool,
    /// The colour.
    pub colour: Colour,
}

fn text_of(raw: &sys::zak_dot_source) -> Option<TextSource> {
    (raw.is_text != 0).then(|| TextSource {
        cell: Cell { character: raw.character, attribute: raw.attribute },
        map: raw.map,
        glyph_address: raw.glyph_address,
        glyph_row: raw.glyph_row,
        is_cursor: raw.is_cursor.taken(),
        is_blinked_away: raw.is_blinked_away.taken(),
        is_underlined: raw.is_underlined.taken(),
        is_glyph_dot: raw.is_glyph_dot.taken(),
        is_foreground: raw.is_foreground.taken(),
    })
}

fn palette_of(raw: &sys::zak_dot_source) -> Option<PaletteSource> {
    (raw.has_palette != 0).then(|| PaletteSource {
        nibble: raw.nibble,
        register: raw.palette_register,
        value: raw.palette_value,
        is_colour_select_wide: raw.is_colour_select_wide.taken(),
        middle: raw.middle,
        high: raw.high,
    })
}

impl From<sys::zak_dot_source> for DotSource {
    fn from(raw: sys::zak_dot_source) -> DotSource {
        DotSource {
            is_display: raw.is_display.taken(),
            counter: raw.counter,
            address: raw.address,
            panning: raw.panning,
            dot: raw.dot,
            bytes: raw.bytes,
            text: text_of(&raw),
            palette: palette_of(&raw),
            is_palette_shown: raw.is_palette_shown.taken(),
            number: raw.number,
            mask: raw.mask,
            entry: raw.entry,
            is_screen_off: raw.is_screen_off.taken(),
            colour: raw.colour.into(),
        }
    }
}

read! {
    /// What a write of a byte does on its way to the planes. The arrays are indexed by the plane.
    /// In write mode 1 the planes get the latches, so `rotated`, `data`, `combined` and `mask` do
    /// not matter.
    WriteStages of zak_write_stages {
        /// The offset in the window.
        in_window: u16,
        /// The offset in each plane.
        offset: u16,
        /// 0 to 3.
        write_mode: u8,
        /// The byte, rotated right.
        rotated: u8,
        /// What goes into the function: the byte, or set/reset.
        data: [u8; 4],
        /// What comes out of the function with the latches.
        combined: [u8; 4],
        /// The bits that may change; the others are the latches'.
        mask: u8,
        /// Bit `p` is 1 if the write reaches plane `p`.
        planes: u8,
        /// What the planes hold before.
        before: [u8; 4],
        /// What the planes get that the write reaches.
        written: [u8; 4],
    }
}

read! {
    /// What a read of a byte does on its way from the planes.
    ReadStages of zak_read_stages {
        /// The offset in the window.
        in_window: u16,
        /// The offset in each plane.
        offset: u16,
        /// What the latches get, indexed by the plane.
        loaded: [u8; 4],
        /// Read mode 1, which compares colours.
        is_compare: bool,
        /// The plane that read mode 0 reads.
        plane: u8,
        /// The byte that the read returns.
        value: u8,
    }
}
