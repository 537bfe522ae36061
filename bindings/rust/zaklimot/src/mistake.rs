//! What is wrong in a text.

use std::fmt;
use std::ops::Range;

use zaklimot_sys as sys;

use crate::error::{done, Error};
use crate::reason::named;

const MOST_SENTENCE: usize = sys::ZAK_MOST_MISTAKE_TEXT as usize;

named! {
    /// What kind of mistake it is.
    MistakeKind {
        /// A character that no line has outside comments.
        ZAK_MISTAKE_CHARACTER Character,
        /// A comment that begins as in another language.
        ZAK_MISTAKE_COMMENT Comment,
        /// A first word that begins no line.
        ZAK_MISTAKE_STEP Step,
        /// A word too few or too many.
        ZAK_MISTAKE_FORM Form,
        /// A number.
        ZAK_MISTAKE_NUMBER Number,
        /// What `show` is to show.
        ZAK_MISTAKE_SHOW Show,
        /// A register of `int`.
        ZAK_MISTAKE_CALL Call,
        /// The block of `int`.
        ZAK_MISTAKE_BLOCK Block,
        /// A good line that may not stand there.
        ZAK_MISTAKE_ORDER Order,
        /// The line is refused, and nothing more is known.
        ZAK_MISTAKE_UNKNOWN Unknown,
        /// More than 16,777,216 bytes of text.
        ZAK_MISTAKE_LONG_TEXT LongText,
        /// More than 16,777,216 bytes of script.
        ZAK_MISTAKE_LONG_SCRIPT LongScript,
    }
}

/// What is wrong in a text, as [`explain_text`] tells it. It is displayed as its line and its
/// sentence.
#[derive(Clone, Debug, PartialEq, Eq, Hash)]
pub struct Mistake {
    /// The number of the line, from 1; `None` if the mistake is in none.
    pub line: Option<usize>,
    /// The part of the line, in bytes from its first.
    pub part: Range<usize>,
    /// What kind of mistake it is.
    pub kind: MistakeKind,
    /// A sentence in lower case with no full stop.
    pub sentence: String,
}

impl fmt::Display for Mistake {
    fn fmt(&self, f: &mut fmt::Formatter<'_>) -> fmt::Result {
        if let Some(line) = self.line {
            write!(f, "line {line}: ")?;
        }
        f.write_str(&self.sentence)
    }
}

/// Says what is wrong in a text that [`assemble`](crate::assemble) refuses; `None` if the text
/// spells a script.
///
/// ```
/// let mistake = zaklimot::explain_text("frame\nmove 3C4 02")?.expect("there is no step `move`");
/// assert_eq!((mistake.line, mistake.part), (Some(2), 0..4));
/// assert_eq!(mistake.kind, zaklimot::MistakeKind::Step);
/// assert_eq!(zaklimot::explain_text("frame")?, None);
/// # Ok::<(), zaklimot::Error>(())
/// ```
///
/// # Errors
///
/// [`Error::OutOfMemory`].
pub fn explain_text(text: impl AsRef<[u8]>) -> Result<Option<Mistake>, Error> {
    let (text, mut raw) = (text.as_ref(), sys::zak_mistake::default());
    let (mut sentence, mut len) = ([0; MOST_SENTENCE], 0);
    // SAFETY: each pointer is to as many elements as its length says.
    done(unsafe {
        sys::zak_explain_text(
            text.as_ptr(),
            text.len(),
            &mut raw,
            sentence.as_mut_ptr(),
            sentence.len(),
            &mut len,
        )
    })?;
    let sys::zak_mistake { line, start, length, kind } = raw;
    Ok((kind != 0).then(|| Mistake {
        line: (line != 0).then_some(line),
        part: start..start + length,
        kind: MistakeKind::of(kind),
        sentence: String::from_utf8_lossy(&sentence[..len]).into_owned(),
    }))
}

#[cfg(test)]
mod tests {
    use super::*;
    use crate::error::tests::{camel, numbers_of};

    #[test]
    fn each_kind_of_the_header_has_its_variant() {
        let kinds = numbers_of("MISTAKE_");
        assert_eq!(kinds.len(), 12);
        for (name, kind) in kinds {
            assert_eq!(format!("{:?}", MistakeKind::of(kind)), camel(&name));
        }
        assert_eq!(MistakeKind::of(999), MistakeKind::Other(999));
    }
}
