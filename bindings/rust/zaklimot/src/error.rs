//! Why a call failed.

use std::fmt;

use zaklimot_sys as sys;

/// Why a call failed. The card is unchanged, unless the variant says otherwise.
#[derive(Clone, Copy, Debug, PartialEq, Eq, Hash)]
#[non_exhaustive]
pub enum Error {
    /// No part of the adapter decodes the port or the address.
    NotDecoded,
    /// A register, value or port that `docs/PROFILE.md` leaves out.
    NotInProfile,
    /// No mode is set yet.
    NoMode,
    /// The video BIOS has no such function or subfunction.
    BadFunction,
    /// There is no such mode.
    BadMode,
    /// A call of text in a graphics mode, or of pixels in a text mode.
    WrongKind,
    /// The mode has no such page.
    BadPage,
    /// A pixel or a cursor position outside the screen.
    Outside,
    /// Characters past the page's last cell, or glyphs past the last character.
    CountPast,
    /// There is no such palette or DAC register.
    BadRegister,
    /// A block of another length than the function takes.
    BadBlock,
    /// An advance by more than [`MOST_DOTS`](crate::MOST_DOTS).
    TooFar,
    /// Glyphs of another height than 8, 14 or 16 scan lines.
    BadHeight,
    /// The card is not open: an earlier call on it returned [`Error::Broken`].
    NoCard,
    /// The card is open already. No call of [`Card`](crate::Card) returns it.
    OpenAlready,
    /// The font file does not have [`FONTS_SIZE`](crate::FONTS_SIZE) bytes.
    FontSize,
    /// An allocation failed. [`Card::run_on`](crate::Card::run_on) says what then holds.
    OutOfMemory,
    /// Two rows of the frame differ in width, so it has no picture. It has passed.
    Ragged,
    /// The buffer is too short: nothing was written there. A frame has passed.
    NoRoom,
    /// There is no such page, row, column, x, y, plane, beam or step; or bytes go past the plane's
    /// end, or past the last address.
    BadArgument,
    /// Corrupt BIOS data: the card's memory was overwritten.
    BadCard,
    /// The adapter shows no plain screen (`docs/SCREENS.md`).
    NoScreen,
    /// The portable library was compiled wrongly: it did what the proofs exclude, and the card is
    /// closed. The proved library never returns it.
    Broken,
    /// The bytes are not a saved state.
    StateMagic,
    /// A saved state of another version of the format.
    StateVersion,
    /// A saved state that is cut off or too long.
    StateLength,
    /// A part of the saved state is out of its bounds.
    StatePart,
    /// A state of a fixed length whose checksum is wrong.
    StateChecksum,
    /// The picture has more than 256 colours. The frame has passed, and
    /// [`Card::peek`](crate::Card::peek) still gives its dots.
    ManyColours,
    /// The steps that [`Card::rebuild`](crate::Card::rebuild) tried lead to another state.
    NotRebuilt,
    /// The bytes are no script: they don't begin with `VGAS`.
    BadMagic,
    /// A script of another version.
    BadVersion,
    /// At this offset of the script there is no step, or one out of range.
    BadStep(usize),
    /// The step at this offset of the script is cut off.
    Truncated(usize),
    /// The text or the script has more than 16,777,216 bytes.
    TooLong,
    /// This line of the text, counted from 1, is bad.
    BadLine(usize),
    /// The block or step at this offset makes the script mean more than 16,777,216 steps.
    TooMany(usize),
    /// Another status, which this crate doesn't know.
    Unknown(u32),
}

/// The status of each variant, by its name in the header. Faults of scripts have a place.
macro_rules! statuses {
    ($($status:ident $name:ident $(($place:ident))?),* $(,)?) => {
        impl Error {
            pub(crate) fn at(status: u32, place: usize) -> Error {
                let _ = place;
                match status {
                    $(sys::$status => Error::$name $(({ let $place = place; $place }))?,)*
                    other => Error::Unknown(other),
                }
            }

            /// The number of the status in `zaklimot.h`.
            pub fn number(self) -> u32 {
                match self {
                    $(Error::$name $(($place))? => { $(let _ = $place;)? sys::$status })*
                    Error::Unknown(status) => status,
                }
            }
        }

        #[cfg(test)]
        pub(crate) const NAMES: &[(&str, u32)] = &[$((stringify!($name), sys::$status)),*];
    };
}

statuses! {
    ZAK_NOT_DECODED NotDecoded, ZAK_NOT_IN_PROFILE NotInProfile, ZAK_NO_MODE NoMode,
    ZAK_BAD_FUNCTION BadFunction, ZAK_BAD_MODE BadMode, ZAK_WRONG_KIND WrongKind,
    ZAK_BAD_PAGE BadPage, ZAK_OUTSIDE Outside, ZAK_COUNT_PAST CountPast,
    ZAK_BAD_REGISTER BadRegister, ZAK_BAD_BLOCK BadBlock, ZAK_TOO_FAR TooFar,
    ZAK_BAD_HEIGHT BadHeight, ZAK_NO_CARD NoCard, ZAK_OPEN_ALREADY OpenAlready,
    ZAK_FONT_SIZE FontSize, ZAK_OUT_OF_MEMORY OutOfMemory, ZAK_RAGGED Ragged,
    ZAK_NO_ROOM NoRoom, ZAK_BAD_ARGUMENT BadArgument, ZAK_BAD_CARD BadCard,
    ZAK_NO_SCREEN NoScreen, ZAK_BROKEN Broken, ZAK_STATE_MAGIC StateMagic,
    ZAK_STATE_VERSION StateVersion, ZAK_STATE_LENGTH StateLength, ZAK_STATE_PART StatePart,
    ZAK_STATE_CHECKSUM StateChecksum, ZAK_MANY_COLOURS ManyColours, ZAK_NOT_REBUILT NotRebuilt,
    ZAK_BAD_MAGIC BadMagic,
    ZAK_BAD_VERSION BadVersion, ZAK_BAD_STEP BadStep(place), ZAK_TRUNCATED Truncated(place),
    ZAK_TOO_LONG TooLong, ZAK_BAD_LINE BadLine(place), ZAK_TOO_MANY TooMany(place),
}

impl Error {
    /// Whether the adapter refused the call, and nothing changed: `E1` to `E13` of
    /// `docs/REPORT.md`.
    #[must_use]
    pub fn is_refusal(self) -> bool {
        (sys::ZAK_NOT_DECODED..=sys::ZAK_BAD_HEIGHT).contains(&self.number())
    }
}

/// What a status means, in a sentence: the library's text without the name in C.
fn sentence_of(status: u32) -> String {
    let (mut text, mut len) = ([0; sys::ZAK_MOST_STATUS_TEXT as usize], 0);
    let told = unsafe { sys::zak_status_text(status, text.as_mut_ptr(), text.len(), &mut len) };
    match text.get(..len) {
        Some(text) if told == sys::ZAK_OK => {
            let text = String::from_utf8_lossy(text);
            text.split_once(": ").map_or(&*text, |(_, sentence)| sentence).to_string()
        }
        // The portable library needs memory for a text.
        _ => format!("status {status}"),
    }
}

impl fmt::Display for Error {
    fn fmt(&self, f: &mut fmt::Formatter<'_>) -> fmt::Result {
        let name = format!("{self:?}");
        f.write_str(name.split('(').next().unwrap_or_default())?;
        match self {
            Error::BadLine(line) => write!(f, " {line}")?,
            Error::BadStep(place) | Error::Truncated(place) | Error::TooMany(place) => {
                write!(f, " at {place}")?
            }
            Error::Unknown(status) => write!(f, " {status}")?,
            _ => {}
        }
        write!(f, ": {}", sentence_of(self.number()))
    }
}

impl std::error::Error for Error {}

/// A status as a result.
pub(crate) fn done(status: u32) -> Result<(), Error> {
    done_at(status, 0)
}

/// The same for a call that gives the place of a fault.
pub(crate) fn done_at(status: u32, place: usize) -> Result<(), Error> {
    if status == sys::ZAK_OK {
        Ok(())
    } else {
        Err(Error::at(status, place))
    }
}

#[cfg(test)]
pub(crate) mod tests {
    use super::*;

    const HEADER: &str = include_str!(env!("ZAKLIMOT_HEADER"));

    /// The Rust name of what has this name in the header.
    pub(crate) fn camel(name: &str) -> String {
        let parts = name.split('_').map(|part| {
            let (first, rest) = part.split_at(1);
            first.to_string() + &rest.to_lowercase()
        });
        parts.collect()
    }

    /// The numbers of an enum's lines, by the names behind `ZAK_`.
    fn numbers_in(body: &str) -> Vec<(&str, u32)> {
        let lines = body.lines().filter_map(|line| line.trim().strip_prefix("ZAK_"));
        let parts = lines.filter_map(|line| line.split_once(" = "));
        parts
            .map(|(name, value)| {
                let digits: String = value.chars().take_while(char::is_ascii_digit).collect();
                (name, digits.parse().unwrap())
            })
            .collect()
    }

    /// Those of the header whose names begin so, by what is behind that.
    pub(crate) fn numbers_of(prefix: &str) -> Vec<(String, u32)> {
        let all = numbers_in(HEADER).into_iter();
        all.filter_map(|(name, number)| Some((name.strip_prefix(prefix)?.to_string(), number)))
            .collect()
    }

    #[test]
    fn each_status_of_the_header_has_its_variant() {
        let (_, rest) = HEADER.split_once("enum {").unwrap();
        let (body, _) = rest.split_once("};").unwrap();
        let mut count = 0;
        for (name, status) in numbers_in(body) {
            if status != sys::ZAK_OK {
                assert!(NAMES.contains(&(camel(name).as_str(), status)), "{name} {status}");
                assert_eq!(Error::at(status, 7).number(), status);
                count += 1;
            }
        }
        assert_eq!(count, NAMES.len());
        assert_eq!(Error::at(107, 3), Error::BadLine(3));
        assert_eq!(Error::at(999, 3), Error::Unknown(999));
    }

    #[test]
    fn an_error_says_what_its_status_means() {
        let told = |status| Error::at(status, 7).to_string();
        assert_eq!(told(3), "NoMode: No mode is set yet.");
        assert_eq!(told(107), "BadLine 7: This line of the text is bad.");
        assert_eq!(told(105), "Truncated at 7: The step that begins here is cut off.");
        assert_eq!(told(999), "Unknown 999: No status has this number.");
        for (name, status) in NAMES {
            let text = told(*status);
            assert!(text.starts_with(name) && text.ends_with('.'), "{text}");
            assert_ne!(sentence_of(*status), sentence_of(999));
        }
    }
}
