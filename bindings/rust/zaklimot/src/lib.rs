//! A VGA display adapter with its video BIOS: a safe interface to its library for C.
//!
//! You open a card and call it; it is closed when you drop it. Ports, addresses and registers are
//! those of a VGA:
//!
//! ```
//! use zaklimot::{Card, Error, Regs};
//!
//! let mut card = Card::new()?;
//! card.int10(Regs::ax(0x0003), &[])?; // mode 3: 80 by 25 cells of text
//! for letter in *b"HELLO" {
//!     card.int10(Regs::ax(0x0E00 + u16::from(letter)), &[])?; // the teletype function
//! }
//! assert_eq!(card.cell(0, 0, 4)?.character, b'O');
//! let picture = card.frame()?; // lets the clock run to the frame's end
//! assert_eq!((picture.width(), picture.height()), (720, 400));
//! for row in picture.rows() {
//!     assert_eq!(row.len(), 3 * 720);
//! }
//! # Ok::<(), Error>(())
//! ```
//!
//! Cycles take no time on the card: the clock runs only in [`Card::advance`] and in frames. A call
//! that the adapter refuses returns an [`Error`], and changes nothing. [`library()`] says whether
//! the library is the proved one, or the portable one, which a C compiler makes. `docs/RUST.md` of
//! the repository is the guide, and `docs/LIBRARY.md` says what is proved.
#![warn(missing_docs)]

#[cfg(doctest)]
#[doc = include_str!("../README.md")]
struct Readme;

mod card;
mod error;
mod explained;
mod mistake;
mod picture;
mod reason;
mod script;
mod stages;
mod state;

pub use card::{Card, Slice};
pub use error::Error;
pub use explained::Rebuilt;
pub use mistake::{explain_text, Mistake, MistakeKind};
pub use picture::{
    Form, IndexedPicture, Lines, Palette, Picture, ScanLine, Size, WordSize, XrgbPicture,
};
pub use reason::{Group, Part, Reason, Why};
pub use script::{assemble, disassemble, run};
pub use stages::{DotSource, PaletteSource, ReadStages, TextSource, WriteStages};
pub use state::{
    Answer, Beam, BiosData, Cell, Colour, Direction, Latches, Position, Registers, Regs, Screen,
    Source, Timing,
};

use zaklimot_sys as sys;

/// Bytes of a font file.
pub const FONTS_SIZE: usize = sys::ZAK_FONTS_SIZE as usize;
/// Dots of one [`Card::advance`], at most.
pub const MOST_DOTS: u32 = sys::ZAK_MOST_DOTS;
/// Dots in a row of a picture, at most.
pub const WIDEST: usize = sys::ZAK_WIDEST as usize;
/// Rows of a picture, at most.
pub const HIGHEST: usize = sys::ZAK_HIGHEST as usize;
/// Bytes of a state at the first dot of a frame.
pub const FIRST_STATE: usize = sys::ZAK_FIRST_STATE as usize;
/// Bytes of a state at any dot, at most. [`Card::save_fixed`] takes four more.
pub const MOST_STATE: usize = sys::ZAK_MOST_STATE as usize;

/// The project's font, [`FONTS_SIZE`] bytes: the glyphs of the text modes in 8, 14 and 16 scan
/// lines. It was beside the library when the crate was built.
#[must_use]
pub fn fonts() -> &'static [u8] {
    FONTS
}

#[cfg(not(docsrs))]
const FONTS: &[u8] = include_bytes!(env!("ZAKLIMOT_FONTS"));
#[cfg(docsrs)]
const FONTS: &[u8] = &[];

/// Which library a crate was built with.
#[derive(Clone, Copy, Debug, PartialEq, Eq, Hash)]
#[non_exhaustive]
pub enum Library {
    /// The proved library.
    Proved,
    /// The library that a C compiler made of `portable/zaklimot.c`: tested, but not proved.
    Portable,
    /// No file beside the library says its kind.
    Unknown,
}

/// Which library the crate was built with, as the build found it. If your program links a shared
/// library, it may find another one when it runs.
///
/// ```
/// println!("{:?}", zaklimot::library()); // Portable
/// ```
#[must_use]
pub fn library() -> Library {
    match sys::KIND {
        "proved" => Library::Proved,
        "portable" => Library::Portable,
        _ => Library::Unknown,
    }
}

/// The version of the linked library: its major and its minor number.
///
/// ```
/// assert_eq!(zaklimot::version().0, 1);
/// ```
#[must_use]
pub fn version() -> (u32, u32) {
    // SAFETY: the call takes no arguments.
    let version = unsafe { sys::zak_version() };
    (version >> 16, version & 0xFFFF)
}
