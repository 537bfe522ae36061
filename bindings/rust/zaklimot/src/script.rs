//! Scripts without a card: their two forms, and whole runs.

use zaklimot_sys as sys;

use crate::error::{done_at, Error};

/// Room for a run's report, at first.
const FIRST_ROOM: usize = 1 << 20;

type OtherForm =
    unsafe extern "C" fn(*const u8, usize, *mut u8, usize, *mut usize, *mut usize) -> u32;

/// Assembles or disassembles, by two calls: the first says how long the result is.
fn other_form(call: OtherForm, given: &[u8]) -> Result<Vec<u8>, Error> {
    let (mut made, mut len, mut place) = (Vec::new(), 0, 0);
    loop {
        // SAFETY: each pointer is to as many elements as its length says, and `made` is its own
        // memory.
        let status = unsafe {
            call(given.as_ptr(), given.len(), made.as_mut_ptr(), made.len(), &mut len, &mut place)
        };
        if status != sys::ZAK_NO_ROOM {
            return done_at(status, place).map(|()| made);
        }
        made = vec![0; len];
    }
}

/// Assembles a text into the bytes of a script (`docs/SCRIPT.md`).
///
/// ```
/// assert_eq!(zaklimot::assemble("frame")?, b"VGAS\x01\x0b");
/// assert_eq!(zaklimot::assemble("frame\nmove"), Err(zaklimot::Error::BadLine(2)));
/// # Ok::<(), zaklimot::Error>(())
/// ```
///
/// # Errors
///
/// [`Error::BadLine`] with the line's number from 1, [`Error::TooLong`], [`Error::OutOfMemory`].
pub fn assemble(text: impl AsRef<[u8]>) -> Result<Vec<u8>, Error> {
    other_form(sys::zak_assemble, text.as_ref())
}

/// Disassembles a script: one line per step, every number at full width.
///
/// ```
/// assert_eq!(zaklimot::disassemble(b"VGAS\x01\x0b")?, "frame\n");
/// # Ok::<(), zaklimot::Error>(())
/// ```
///
/// # Errors
///
/// The faults of a script, [`Error::OutOfMemory`].
pub fn disassemble(script: &[u8]) -> Result<String, Error> {
    let text = other_form(sys::zak_print, script)?;
    Ok(String::from_utf8_lossy(&text).into_owned())
}

/// Whether two slices overlap, which two pointers of a call must not.
fn overlap(one: &[u8], other: &[u8]) -> bool {
    let (first, second) = (one.as_ptr_range(), other.as_ptr_range());
    first.start < second.end && second.start < first.end
}

/// Runs a whole script on a card of its own, and returns its report (`docs/REPORT.md`).
///
/// ```
/// let script = zaklimot::assemble("int ax=13\nput A0000 0F\nget A0000")?;
/// let report = zaklimot::run(&script, zaklimot::fonts())?;
/// assert!(report.ends_with(b"2 ok\n3 0F\n"));
/// # Ok::<(), zaklimot::Error>(())
/// ```
///
/// # Errors
///
/// The faults of a script, [`Error::FontSize`], [`Error::OutOfMemory`].
pub fn run(script: &[u8], fonts: &[u8]) -> Result<Vec<u8>, Error> {
    if overlap(script, fonts) {
        let own = fonts.to_vec();
        return run(script, &own);
    }
    let (mut report, mut len, mut place) = (vec![0; FIRST_ROOM], 0, 0);
    loop {
        // SAFETY: each pointer is to as many elements as its length says, and none overlap.
        let status = unsafe {
            sys::zak_run(
                script.as_ptr(),
                script.len(),
                fonts.as_ptr(),
                fonts.len(),
                report.as_mut_ptr(),
                report.len(),
                &mut len,
                &mut place,
            )
        };
        if status != sys::ZAK_NO_ROOM {
            done_at(status, place)?;
            report.truncate(len);
            return Ok(report);
        }
        report = vec![0; len];
    }
}
