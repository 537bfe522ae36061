//! The state of a card, in structs whose fields have the names of `zaklimot.h`.

use zaklimot_sys as sys;

/// A field of the library's struct, or a flag.
pub(crate) trait Taken<T> {
    fn taken(self) -> T;
}

impl<T> Taken<T> for T {
    fn taken(self) -> T {
        self
    }
}

impl Taken<bool> for u8 {
    fn taken(self) -> bool {
        self != 0
    }
}

impl Taken<Option<u32>> for u32 {
    fn taken(self) -> Option<u32> {
        (self != sys::ZAK_NEVER).then_some(self)
    }
}

macro_rules! read {
    ($(#[$doc:meta])* $name:ident of $raw:ident { $($(#[$about:meta])* $field:ident: $kind:ty,)* }) => {
        $(#[$doc])*
        #[derive(Clone, Copy, Debug, PartialEq, Eq)]
        pub struct $name { $($(#[$about])* pub $field: $kind,)* }

        impl From<sys::$raw> for $name {
            fn from(raw: sys::$raw) -> $name {
                // Each field of the library's struct is named, so none is left out.
                let sys::$raw { $($field,)* } = raw;
                $name { $($field: $field.taken(),)* }
            }
        }
    };
}
pub(crate) use read;

read! {
    /// All registers of the adapter.
    Registers of zak_registers {
        /// The miscellaneous output register.
        misc: u8,
        /// The sequencer's index.
        seq_index: u8,
        /// The sequencer's registers 0 to 4.
        seq: [u8; 5],
        /// The CRT controller's index.
        crtc_index: u8,
        /// The CRT controller's registers 0 to 18 (hexadecimal).
        crtc: [u8; 25],
        /// The graphics controller's index.
        gfx_index: u8,
        /// The graphics controller's registers 0 to 8.
        gfx: [u8; 9],
        /// The attribute controller's index, with the palette address source as bit 5.
        attr_index: u8,
        /// Whether the next write to port 3C0 (hexadecimal) is data.
        attr_is_data: bool,
        /// The attribute controller's registers 0 to 14 (hexadecimal).
        attr: [u8; 21],
        /// The DAC's index.
        dac_index: u8,
        /// The component that comes next: 0 red, 1 green, 2 blue.
        dac_component: u8,
        /// The DAC's mask.
        dac_mask: u8,
        /// The red that waits for blue.
        dac_waiting_red: u8,
        /// The green that waits for blue.
        dac_waiting_green: u8,
    }
}

read! {
    /// A colour of the DAC: 0 to 63 each.
    Colour of zak_colour {
        /// 0 to 63.
        red: u8,
        /// 0 to 63.
        green: u8,
        /// 0 to 63.
        blue: u8,
    }
}

read! {
    /// The beam: where the next dot is.
    Beam of zak_beam {
        /// 0 to 1,024.
        line: u16,
        /// 0 to 259.
        character: u16,
        /// 0 to 8.
        dot: u16,
        /// Counter of the row's first character.
        base: u16,
        /// Scan line of the row of characters, 0 to 31.
        scan: u16,
        /// Rows of this frame with a dot so far.
        rows: u16,
        /// Number of the frame modulo 32.
        frame: u8,
        /// On the second line of two under double scan.
        half: bool,
        /// Line compare was reached in this frame.
        split: bool,
    }
}

impl From<Beam> for sys::zak_beam {
    fn from(beam: Beam) -> sys::zak_beam {
        let Beam { line, character, dot, base, scan, rows, frame, half, split } = beam;
        let (half, split) = (half.into(), split.into());
        sys::zak_beam { line, character, dot, base, scan, rows, frame, half, split }
    }
}

read! {
    /// When the frame ends and input status 1 changes next, if no register is written until then,
    /// and how fast dots come. Each number of dots is exact.
    Timing of zak_timing {
        /// Dots to the end of the frame under way.
        to_frame: u32,
        /// Dots until bit 0 of input status 1 changes, which is 1 where no dot is displayed; `None`
        /// if it never changes.
        to_display: Option<u32>,
        /// Dots until bit 3 changes, which is 1 in the vertical retrace; `None` if it never
        /// changes.
        to_retrace: Option<u32>,
        /// Dots of a line, displayed or not.
        line_dots: u32,
        /// Dots of a frame.
        frame_dots: u32,
        /// Lines of a frame.
        lines: u32,
        /// Dots of [`rate_divisor`](Timing::rate_divisor) seconds: 25,175,000 or 28,322,000.
        rate: u32,
        /// 2 if the sequencer halves the clock, otherwise 1.
        rate_divisor: u32,
    }
}

impl Timing {
    /// The exact number of dots per second.
    #[must_use]
    pub fn dots_per_second(&self) -> f64 {
        f64::from(self.rate) / f64::from(self.rate_divisor)
    }
}

/// The order in which the cycles of many bytes are made, like a processor's direction flag. It does
/// not change which byte goes to which address.
#[derive(Clone, Copy, Debug, Default, PartialEq, Eq, Hash)]
pub enum Direction {
    /// The first address first.
    #[default]
    Up,
    /// The last address first.
    Down,
}

impl Direction {
    /// The form that the library takes.
    pub(crate) fn is_down(self) -> bool {
        self == Direction::Down
    }
}

read! {
    /// The latches of planes 0 to 3.
    Latches of zak_latches {
        /// Indexed by the plane.
        plane: [u8; 4],
    }
}

read! {
    /// The data of the video BIOS; all 0 until a mode is set.
    BiosData of zak_bda {
        /// Characters of a row.
        columns: u16,
        /// Bytes of a page.
        size: u16,
        /// Offset of the active page.
        start: u16,
        /// The cursor position of each page: 256 * row + column.
        cursor_places: [u16; 8],
        /// 256 * first scan line + last.
        cursor_type: u16,
        /// The port of the CRT controller's index.
        crtc_address: u16,
        /// Scan lines of a character.
        height: u16,
        /// The mode's number.
        mode: u8,
        /// The active page.
        page: u8,
        /// The last row of characters.
        last_row: u8,
    }
}

read! {
    /// The plain screen that the adapter shows.
    Screen of zak_screen {
        /// Pixels of a row; 0 in text.
        width: u32,
        /// Rows of pixels; 0 in text.
        height: u32,
        /// Characters of a row.
        columns: u16,
        /// Rows of characters.
        rows: u16,
        /// The mode's number.
        mode: u8,
        /// Whether it is a text mode.
        is_text: bool,
        /// The active page.
        page: u8,
        /// How many pages there are.
        pages: u8,
    }
}

read! {
    /// A cell of text.
    Cell of zak_cell {
        /// The character's code.
        character: u8,
        /// Its attribute.
        attribute: u8,
    }
}

read! {
    /// A position in text.
    Position of zak_place {
        /// From 0.
        row: u8,
        /// From 0.
        column: u8,
    }
}

/// The registers of interrupt 10 (hexadecimal).
#[derive(Clone, Copy, Debug, Default, PartialEq, Eq)]
pub struct Regs {
    /// The function is its high byte.
    pub ax: u16,
    /// BX.
    pub bx: u16,
    /// CX.
    pub cx: u16,
    /// DX.
    pub dx: u16,
}

impl Regs {
    /// Registers with this AX; the others are 0.
    #[must_use]
    pub fn ax(ax: u16) -> Regs {
        Regs { ax, ..Regs::default() }
    }
}

impl From<sys::zak_regs> for Regs {
    fn from(raw: sys::zak_regs) -> Regs {
        let sys::zak_regs { ax, bx, cx, dx } = raw;
        Regs { ax, bx, cx, dx }
    }
}

impl From<Regs> for sys::zak_regs {
    fn from(regs: Regs) -> sys::zak_regs {
        sys::zak_regs { ax: regs.ax, bx: regs.bx, cx: regs.cx, dx: regs.dx }
    }
}

/// What a call of the video BIOS reads from the caller's memory.
#[derive(Clone, Copy, Debug, Default, PartialEq, Eq)]
pub struct Source {
    /// How many bytes; 0 if it reads none.
    pub len: usize,
    /// Whether they lie at ES:DX. Otherwise they lie at ES:BP.
    pub is_at_dx: bool,
}

impl From<sys::zak_source> for Source {
    fn from(source: sys::zak_source) -> Source {
        Source { len: source.len, is_at_dx: source.is_at_dx }
    }
}

/// What the video BIOS answers.
#[derive(Clone, Debug, PartialEq, Eq)]
pub struct Answer {
    /// The registers afterwards.
    pub regs: Regs,
    /// What a function writes at ES:DX.
    pub table: Vec<u8>,
}
