//! Why a card would refuse a step, kind by kind.

use std::fmt;

use zaklimot_sys as sys;

use crate::error::Error;

/// A number of a reason, in the type that it has here.
trait Numbered {
    fn numbered(number: u32) -> Self;
}

/// The library's numbers have 32 bits. Those of ports, registers and modes have fewer.
macro_rules! numbered {
    ($($kind:ident),*) => {
        $(impl Numbered for $kind {
            fn numbered(number: u32) -> $kind {
                number as $kind
            }
        })*
    };
}

numbered!(u8, u16, u32);

/// An enum whose variants are numbers of the header.
macro_rules! named {
    (
        $(#[$doc:meta])*
        $name:ident { $($(#[$about:meta])* $number:ident $variant:ident,)* }
    ) => {
        $(#[$doc])*
        #[derive(Clone, Copy, Debug, PartialEq, Eq, Hash)]
        #[non_exhaustive]
        pub enum $name {
            $($(#[$about])* $variant,)*
            /// A number that this crate doesn't know.
            Other(u32),
        }

        impl $name {
            /// The one that has this number in the header.
            pub(crate) fn of(number: u32) -> $name {
                match number {
                    $(sys::$number => $name::$variant,)*
                    other => $name::Other(other),
                }
            }
        }
    };
}
pub(crate) use named;

named! {
    /// A group of registers with an index.
    Group {
        /// The sequencer.
        ZAK_GROUP_SEQUENCER Sequencer,
        /// The graphics controller.
        ZAK_GROUP_GRAPHICS_CONTROLLER GraphicsController,
        /// The CRT controller.
        ZAK_GROUP_CRT_CONTROLLER CrtController,
        /// The attribute controller.
        ZAK_GROUP_ATTRIBUTE_CONTROLLER AttributeController,
    }
}

named! {
    /// A part of the VGA that the adapter leaves out (`docs/PROFILE.md`).
    Part {
        /// Input status 0.
        ZAK_PART_INPUT_STATUS_0 InputStatus0,
        /// Subsystem enable.
        ZAK_PART_SUBSYSTEM_ENABLE SubsystemEnable,
        /// The DAC's state.
        ZAK_PART_DAC_STATE DacState,
        /// Feature control.
        ZAK_PART_FEATURE_CONTROL FeatureControl,
    }
}

impl Numbered for Group {
    fn numbered(number: u32) -> Group {
        Group::of(number)
    }
}

impl Numbered for Part {
    fn numbered(number: u32) -> Part {
        Part::of(number)
    }
}

/// The kinds, each with its numbers in the header's order.
macro_rules! kinds {
    ($(
        $(#[$doc:meta])*
        $kind:ident $name:ident $({ $($(#[$about:meta])* $field:ident: $number:ty,)* })?,
    )*) => {
        /// Why a card would refuse a step, with the numbers that decide it.
        #[derive(Clone, Copy, Debug, PartialEq, Eq, Hash)]
        #[non_exhaustive]
        pub enum Why {
            $($(#[$doc])* $name $({ $($(#[$about])* $field: $number,)* })?,)*
            /// A kind that this crate doesn't know.
            Other {
                /// The kind's number.
                kind: u32,
                /// Its numbers, and 0 behind them.
                numbers: [u32; 5],
            },
        }

        impl Why {
            fn of(kind: u32, numbers: [u32; 5]) -> Why {
                let mut rest = numbers.iter();
                let mut next = || rest.next().copied().unwrap_or_default();
                match kind {
                    $(sys::$kind => {
                        Why::$name { $($($field: Numbered::numbered(next()),)*)? }
                    })*
                    _ => Why::Other { kind, numbers },
                }
            }
        }

        #[cfg(test)]
        const NAMES: &[(&str, u32)] = &[$((stringify!($name), sys::$kind)),*];
    };
}

kinds! {
    /// No part of the adapter decodes the port, wherever the CRT controller is.
    ZAK_WHY_NO_PORT NoPort {
        /// The port.
        port: u16,
    },
    /// The CRT controller is at its other ports.
    ZAK_WHY_OTHER_CRT_CONTROLLER OtherCrtController {
        /// The port that was asked for.
        port: u16,
        /// The port of the index now: 3B4 or 3D4 (hexadecimal).
        base: u16,
        /// What the port is there.
        there: u16,
    },
    /// The port can be read, and not written.
    ZAK_WHY_READ_ONLY ReadOnly {
        /// The port.
        port: u16,
    },
    /// The adapter leaves out what the port would be.
    ZAK_WHY_PORT_LEFT_OUT PortLeftOut {
        /// The port.
        port: u16,
        /// What it would be.
        part: Part,
    },
    /// The index selects no register.
    ZAK_WHY_NO_REGISTER NoRegister {
        /// The group of registers.
        group: Group,
        /// The index.
        index: u8,
        /// The number of the group's last register.
        last: u8,
    },
    /// The adapter leaves out what a bit of the register asks for, and the bit is 1.
    ZAK_WHY_BIT_LEFT_OUT BitLeftOut {
        /// The group of registers.
        group: Group,
        /// The register's number.
        index: u8,
        /// The bit, 0 to 7.
        bit: u8,
        /// The byte for the register.
        value: u8,
    },
    /// The adapter has one value alone for these bits of the register.
    ZAK_WHY_FIELD_LEFT_OUT FieldLeftOut {
        /// The group of registers.
        group: Group,
        /// The register's number.
        index: u8,
        /// The highest of the bits.
        high: u8,
        /// The lowest.
        low: u8,
        /// The value that they must have.
        wanted: u8,
    },
    /// Display memory is off: bit 1 of miscellaneous output is 0.
    ZAK_WHY_MEMORY_OFF MemoryOff {
        /// The address.
        address: u32,
    },
    /// The address is outside the window of display memory.
    ZAK_WHY_OUTSIDE_WINDOW OutsideWindow {
        /// The address.
        address: u32,
        /// The memory map, 0 to 3.
        map: u8,
        /// The window's first address.
        first: u32,
        /// Its last.
        last: u32,
    },
    /// A word at port FFFF (hexadecimal) has no second byte.
    ZAK_WHY_LAST_PORT LastPort,
    /// A word at address FFFFFFFF (hexadecimal) has none either.
    ZAK_WHY_LAST_ADDRESS LastAddress,
    /// No mode is set, and the function needs one.
    ZAK_WHY_NO_MODE_SET NoModeSet {
        /// The function, which AH names.
        function: u8,
    },
    /// There is no such function, or it has no such subfunction.
    ZAK_WHY_NO_SERVICE NoService {
        /// The function, which AH names.
        function: u8,
        /// AL, by which some functions choose a subfunction.
        al: u8,
        /// BL, by which functions 11 and 12 (hexadecimal) do.
        bl: u8,
    },
    /// There is no such mode.
    ZAK_WHY_NO_SUCH_MODE NoSuchMode {
        /// The mode.
        mode: u8,
    },
    /// The mode is text, which has no pixels.
    ZAK_WHY_NO_PIXELS NoPixels {
        /// The mode that is set.
        mode: u8,
    },
    /// The mode is graphics, which has no character map.
    ZAK_WHY_NO_CHARACTER_MAP NoCharacterMap {
        /// The mode that is set.
        mode: u8,
    },
    /// The mode has no such page.
    ZAK_WHY_NO_PAGE NoPage {
        /// The page.
        page: u8,
        /// How many pages the mode has.
        pages: u8,
    },
    /// The page's cursor stands past its last cell.
    ZAK_WHY_CURSOR_OUTSIDE CursorOutside {
        /// The page.
        page: u8,
        /// The cell at its cursor, counted row by row from 0.
        cell: u32,
        /// How many cells a page has.
        cells: u32,
    },
    /// The page has no cell at the position.
    ZAK_WHY_POSITION_OUTSIDE PositionOutside {
        /// The row, from 0.
        row: u8,
        /// The column, from 0.
        column: u8,
        /// How many rows a page has.
        rows: u16,
        /// How many columns.
        columns: u16,
    },
    /// The page has no such pixel.
    ZAK_WHY_PIXEL_OUTSIDE PixelOutside {
        /// The pixel's column, from 0.
        x: u16,
        /// Its line, from 0.
        y: u16,
        /// How many pixels a line has.
        width: u32,
        /// How many lines a page has.
        height: u32,
    },
    /// The cells go past the page's last one.
    ZAK_WHY_CELLS_PAST CellsPast {
        /// How many cells are to be written.
        count: u16,
        /// The first of them, counted row by row from 0.
        first: u32,
        /// How many cells a page has.
        cells: u32,
    },
    /// The glyphs go past that of the last character, FF (hexadecimal).
    ZAK_WHY_GLYPHS_PAST GlyphsPast {
        /// How many glyphs are to be loaded.
        count: u16,
        /// The character of the first.
        first: u16,
    },
    /// There is no such palette register.
    ZAK_WHY_NO_PALETTE_REGISTER NoPaletteRegister {
        /// The register's number.
        register: u8,
    },
    /// BL neither clears blinking nor sets it.
    ZAK_WHY_NO_BLINKING NoBlinking {
        /// BL.
        value: u8,
    },
    /// The DAC has no such entry.
    ZAK_WHY_NO_ENTRY NoEntry {
        /// The entry's number.
        entry: u16,
    },
    /// The DAC has not so many entries from the first on.
    ZAK_WHY_NO_ENTRIES NoEntries {
        /// How many entries the call names.
        count: u16,
        /// The first of them.
        first: u16,
    },
    /// The block has another length than the service takes.
    ZAK_WHY_WRONG_BLOCK WrongBlock {
        /// How many bytes the block has.
        len: u32,
        /// How many the service takes.
        wanted: u32,
    },
    /// The mode has no glyphs of this height.
    ZAK_WHY_NO_HEIGHT NoHeight {
        /// Scan lines of a glyph.
        height: u8,
        /// The mode that is set.
        mode: u8,
    },
    /// More dots than a step may let pass.
    ZAK_WHY_TOO_MANY_DOTS TooManyDots {
        /// The dots of the step.
        dots: u32,
        /// The most that a step may have: [`MOST_DOTS`](crate::MOST_DOTS).
        most: u32,
    },
    /// No mode is set, so there are no cells to show.
    ZAK_WHY_NO_CELLS_YET NoCellsYet,
    /// The mode is graphics, which has no cells to show.
    ZAK_WHY_NO_CELLS NoCells {
        /// The mode that is set.
        mode: u8,
    },
}

/// Why a card would refuse a step, as [`Card::explain_step`](crate::Card::explain_step) tells it.
/// It is displayed as its sentence.
#[derive(Clone, Debug, PartialEq, Eq, Hash)]
pub struct Reason {
    /// What the step would return: a refusal, `E1` to `E13` of `docs/REPORT.md`.
    pub error: Error,
    /// Why, with the numbers that decide it.
    pub why: Why,
    /// Whether it is the high byte of a word that is refused.
    pub is_high: bool,
    /// A sentence, such as `No part of the adapter decodes port 060.`
    pub text: String,
}

impl Reason {
    pub(crate) fn new(raw: sys::zak_reason, text: String) -> Reason {
        let sys::zak_reason { status, kind, numbers, is_high } = raw;
        Reason { error: Error::at(status, 0), why: Why::of(kind, numbers), is_high, text }
    }
}

impl fmt::Display for Reason {
    fn fmt(&self, f: &mut fmt::Formatter<'_>) -> fmt::Result {
        f.write_str(&self.text)
    }
}

#[cfg(test)]
mod tests {
    use super::*;
    use crate::error::tests::{camel, numbers_of};

    #[test]
    fn each_kind_of_the_header_has_its_variant() {
        let kinds = numbers_of("WHY_");
        assert_eq!(kinds.len(), NAMES.len());
        for (name, kind) in kinds {
            assert!(NAMES.contains(&(camel(&name).as_str(), kind)), "{name} {kind}");
            let told = format!("{:?}", Why::of(kind, [1, 2, 3, 4, 5]));
            assert_eq!(told.split(' ').next(), Some(camel(&name).as_str()));
        }
        let other = Why::Other { kind: 999, numbers: [1, 2, 3, 4, 5] };
        assert_eq!(Why::of(999, [1, 2, 3, 4, 5]), other);
    }

    #[test]
    fn each_group_and_part_of_the_header_has_its_variant() {
        for (name, number) in numbers_of("GROUP_") {
            assert_eq!(format!("{:?}", Group::of(number)), camel(&name));
        }
        for (name, number) in numbers_of("PART_") {
            assert_eq!(format!("{:?}", Part::of(number)), camel(&name));
        }
        assert_eq!((numbers_of("GROUP_").len(), Group::of(9)), (4, Group::Other(9)));
        assert_eq!((numbers_of("PART_").len(), Part::of(9)), (4, Part::Other(9)));
    }

    #[test]
    fn numbers_are_fields_in_their_order() {
        let numbers = [2, 0x17, 3, 0, 0x0D];
        let wanted = Why::FieldLeftOut {
            group: Group::CrtController,
            index: 0x17,
            high: 3,
            low: 0,
            wanted: 0x0D,
        };
        assert_eq!(Why::of(sys::ZAK_WHY_FIELD_LEFT_OUT, numbers), wanted);
    }
}
