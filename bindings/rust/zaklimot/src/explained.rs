//! What a card says of itself.

use zaklimot_sys as sys;

use crate::card::Card;
use crate::error::{done, done_at, Error};
use crate::reason::Reason;
use crate::stages::{DotSource, ReadStages, WriteStages};
use crate::state::Beam;

const MOST_SENTENCE: usize = sys::ZAK_MOST_REASON_TEXT as usize;
/// Room for the script of most states.
const FIRST_REBUILT: usize = 1 << 20;

/// A script that leads from power-on to the state of a card, with the same fonts.
#[derive(Clone, Debug, PartialEq, Eq)]
pub struct Rebuilt {
    /// The script, in bytes.
    pub script: Vec<u8>,
    /// The frame under way was drawn otherwise until now; all else is the same.
    pub are_dots_other: bool,
}

impl Card {
    /// Says why the card would refuse a step of a script, the first one if `step` is 0; `None` if
    /// it would do the step. Nothing changes. You may ask after the refusal as well, since a
    /// refused step changes nothing.
    ///
    /// ```
    /// use zaklimot::{assemble, Card, Error, Why};
    ///
    /// let mut card = Card::new()?;
    /// let script = assemble("int ax=3\nout 60 01")?;
    /// let reason = card.explain_step(&script, 1)?.expect("port 60 is another chip's");
    /// assert_eq!(reason.why, Why::NoPort { port: 0x60 });
    /// assert_eq!(reason.error, Error::NotDecoded);
    /// assert_eq!(reason.text, "No part of the adapter decodes port 060.");
    /// assert_eq!(card.explain_step(&script, 0)?, None);
    /// # Ok::<(), Error>(())
    /// ```
    ///
    /// # Errors
    ///
    /// [`Error::BadArgument`] if the script has no such step, and the faults of a script.
    /// [`Error::OutOfMemory`] comes from the portable library alone, for a script of more than
    /// 9.4 MB.
    pub fn explain_step(&mut self, script: &[u8], step: u32) -> Result<Option<Reason>, Error> {
        let (mut raw, mut place) = (sys::zak_reason::default(), 0);
        let (mut text, mut len) = ([0; MOST_SENTENCE], 0);
        // SAFETY: each pointer is to as many elements as its length says.
        let status = unsafe {
            sys::zak_explain_step(
                &mut self.raw,
                script.as_ptr(),
                script.len(),
                step,
                &mut raw,
                text.as_mut_ptr(),
                text.len(),
                &mut len,
                &mut place,
            )
        };
        done_at(status, place)?;
        let text = String::from_utf8_lossy(&text[..len]).into_owned();
        Ok((raw.status != sys::ZAK_OK).then(|| Reason::new(raw, text)))
    }

    /// Says where the colour of the dot at a beam comes from, by the registers and the memory as
    /// they are now. [`beam`](Card::beam) gives the card's own beam, which is at the next dot.
    /// Another beam asks of a dot that was drawn before or is still to come; the answer is true of
    /// the picture if nothing that decides the dot has changed in between.
    ///
    /// ```
    /// use zaklimot::{Card, Regs};
    ///
    /// let mut card = Card::new()?;
    /// card.int10(Regs::ax(0x0013), &[])?;
    /// card.put(0xA0000, 0x0F)?;
    /// let beam = card.beam()?;
    /// let source = card.explain_dot(beam)?;
    /// assert_eq!((source.bytes[0], source.number, source.entry), (0x0F, 0x0F, 0x0F));
    /// assert_eq!(source.colour.red, 63);
    /// assert_eq!((source.text, source.palette), (None, None)); // 256 colours
    /// # Ok::<(), zaklimot::Error>(())
    /// ```
    ///
    /// # Errors
    ///
    /// [`Error::BadArgument`] if a number of the beam is out of its bounds.
    pub fn explain_dot(&mut self, beam: Beam) -> Result<DotSource, Error> {
        let mut raw = sys::zak_dot_source::default();
        done(unsafe { sys::zak_explain_dot(&mut self.raw, &beam.into(), &mut raw) })?;
        Ok(raw.into())
    }

    /// Says what [`put`](Card::put) would do on its way to the planes, and does not do it.
    ///
    /// ```
    /// use zaklimot::{Card, Regs};
    ///
    /// let mut card = Card::new()?;
    /// card.int10(Regs::ax(0x0012), &[])?;
    /// card.out_word(0x3CE, 0x1803)?; // the function XOR with the latches
    /// let stages = card.explain_put(0xA0000, 0x55)?;
    /// assert_eq!((stages.planes, stages.written), (0x0F, [0x55; 4]));
    /// # Ok::<(), zaklimot::Error>(())
    /// ```
    ///
    /// # Errors
    ///
    /// Those of [`put`](Card::put).
    pub fn explain_put(&mut self, address: u32, value: u8) -> Result<WriteStages, Error> {
        let mut raw = sys::zak_write_stages::default();
        done(unsafe { sys::zak_explain_put(&mut self.raw, address, value, &mut raw) })?;
        Ok(raw.into())
    }

    /// Says what [`get`](Card::get) would do on its way from the planes, and does not do it.
    ///
    /// # Errors
    ///
    /// Those of [`get`](Card::get).
    pub fn explain_get(&mut self, address: u32) -> Result<ReadStages, Error> {
        let mut raw = sys::zak_read_stages::default();
        done(unsafe { sys::zak_explain_get(&mut self.raw, address, &mut raw) })?;
        Ok(raw.into())
    }

    /// Writes a script that leads from power-on to the state of the card. It is run and compared
    /// before this returns. As far as tests show, it rebuilds each state that steps led to.
    ///
    /// ```
    /// use zaklimot::{Card, Regs};
    ///
    /// let (mut card, mut other) = (Card::new()?, Card::new()?);
    /// card.int10(Regs::ax(0x0003), &[])?;
    /// card.put(0xB8000, 0x41)?;
    /// let rebuilt = card.rebuild()?;
    /// other.run_on(&rebuilt.script, 0, u32::MAX)?;
    /// assert!(other.save()? == card.save()? || rebuilt.are_dots_other);
    /// # Ok::<(), zaklimot::Error>(())
    /// ```
    ///
    /// # Errors
    ///
    /// [`Error::NotRebuilt`] for a restored state that no steps lead to, [`Error::TooLong`] for
    /// more than 16,777,216 bytes, [`Error::OutOfMemory`].
    pub fn rebuild(&mut self) -> Result<Rebuilt, Error> {
        let (mut script, mut len, mut are_dots_other) = (vec![0; FIRST_REBUILT], 0, false);
        loop {
            let (to, room) = (script.as_mut_ptr(), script.len());
            // SAFETY: `script` has as many bytes as its length says.
            let status =
                unsafe { sys::zak_rebuild(&mut self.raw, to, room, &mut len, &mut are_dots_other) };
            if status != sys::ZAK_NO_ROOM {
                done(status)?;
                script.truncate(len);
                return Ok(Rebuilt { script, are_dots_other });
            }
            script = vec![0; len];
        }
    }
}
