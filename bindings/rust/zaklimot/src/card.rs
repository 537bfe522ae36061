//! A card with a safe interface.

use std::cell::Cell as Unshared;
use std::marker::PhantomData;
use std::ops::Range;
use std::ptr::null_mut;

use zaklimot_sys as sys;

use crate::error::{done, done_at, Error};
use crate::picture::{
    Form, IndexedPicture, Lines, Palette, Picture, ScanLine, Size, WordSize, XrgbPicture,
};
use crate::state::{
    Answer, Beam, BiosData, Cell, Colour, Direction, Latches, Position, Registers, Regs, Screen,
    Source, Timing,
};
use crate::{fonts, HIGHEST, WIDEST};

const MOST_RGB: usize = sys::ZAK_MOST_RGB as usize;
const MOST_TABLE: usize = sys::ZAK_MOST_TABLE as usize;
const MOST_TEXT: usize = sys::ZAK_MOST_TEXT as usize;
/// A call of the library that writes dots line by line.
type LinesCall = unsafe extern "C" fn(
    *mut sys::zak_card,
    *mut u32,
    *mut u8,
    usize,
    *mut usize,
) -> sys::zak_status;

/// Room for the report of one step.
const STEP_ROOM: usize = MOST_RGB + 100;
/// Room for the cycles of most calls.
const FIRST_CYCLES: usize = 4096;

/// What steps of a script answered: their report, and how many were taken.
#[derive(Clone, Debug, PartialEq, Eq)]
pub struct Slice {
    /// The lines of the report for these steps (`docs/REPORT.md`).
    pub report: Vec<u8>,
    /// How many steps were taken.
    pub taken: usize,
}

/// A VGA adapter with its video BIOS, open as long as it lives.
///
/// ```
/// let mut card = zaklimot::Card::new()?;
/// card.int10(zaklimot::Regs::ax(0x0013), &[])?; // mode 13: 320 by 200, a byte a pixel
/// card.put(0xA0000, 0x0F)?; // white, top left
/// assert_eq!(card.frame()?.dot(0, 0), [63, 63, 63]);
/// assert_eq!(card.inp(0x60), Err(zaklimot::Error::NotDecoded));
/// # Ok::<(), zaklimot::Error>(())
/// ```
///
/// A card may move to another thread, and takes one call at a time:
///
/// ```
/// fn goes<T: Send>() {}
/// goes::<zaklimot::Card>();
/// ```
///
/// ```compile_fail
/// fn is_shared<T: Sync>() {}
/// is_shared::<zaklimot::Card>();
/// ```
#[derive(Debug)]
pub struct Card {
    pub(crate) raw: sys::zak_card,
    // Memory for frames, allocated at the first one.
    rgb: Vec<u8>,
    xrgb: Vec<u32>,
    widths: Vec<u32>,
    _not_sync: PhantomData<Unshared<()>>,
}

// SAFETY: a card owns everything that its pointer leads to, and the library keeps no other state.
// So a card may move to another thread, as the header says.
unsafe impl Send for Card {}

/// A slice of `len` elements, made at the first call. The system gives its memory as it is written.
fn kept<T: Clone + Default>(room: &mut Vec<T>, len: usize) -> &mut [T] {
    if room.is_empty() {
        *room = vec![T::default(); len];
    }
    room
}

fn size_of(raw: sys::zak_size) -> Size {
    Size { width: raw.width as usize, height: raw.height as usize }
}

/// Makes a call that reads a byte, a word or a struct.
macro_rules! read {
    ($card:expr, $call:ident $(, $place:expr)*) => {{
        let mut value = Default::default();
        // SAFETY: the caller borrows the card mutably, and `value` is of the type that the call
        // writes.
        done(unsafe { sys::$call(&mut $card.raw $(, $place)*, &mut value) })?;
        Ok(value.into())
    }};
}

/// Makes a call that writes a dump.
macro_rules! text {
    ($card:expr, $call:ident $(, $place:expr)*) => {{
        let (mut text, mut len) = (vec![0; MOST_TEXT], 0);
        // SAFETY: `text` has as many bytes as its length says.
        done(unsafe {
            sys::$call(&mut $card.raw $(, $place)*, text.as_mut_ptr(), text.len(), &mut len)
        })?;
        text.truncate(len);
        Ok(String::from_utf8_lossy(&text).into_owned())
    }};
}

impl Card {
    /// A card at power-on, with the project's font.
    ///
    /// # Errors
    ///
    /// [`Error::OutOfMemory`].
    pub fn new() -> Result<Card, Error> {
        Card::open(fonts())
    }

    /// A card at power-on, with the glyphs of a font file.
    ///
    /// # Errors
    ///
    /// [`Error::FontSize`], [`Error::OutOfMemory`].
    pub fn open(fonts: &[u8]) -> Result<Card, Error> {
        let mut raw = sys::zak_card { is_open: false, owed: 0, line: [0; 2], machine: null_mut() };
        // SAFETY: a zero-filled card is a closed card.
        done(unsafe { sys::zak_open(&mut raw, fonts.as_ptr(), fonts.len()) })?;
        let (rgb, xrgb, widths) = (Vec::new(), Vec::new(), Vec::new());
        Ok(Card { raw, rgb, xrgb, widths, _not_sync: PhantomData })
    }

    /// Writes a byte to a port.
    ///
    /// # Errors
    ///
    /// [`Error::NotDecoded`], [`Error::NotInProfile`].
    pub fn out(&mut self, port: u16, value: u8) -> Result<(), Error> {
        // SAFETY: here and below, only this call borrows the card.
        done(unsafe { sys::zak_out(&mut self.raw, port, value) })
    }

    /// Writes a word: its low byte to the port, its high byte to the next.
    ///
    /// # Errors
    ///
    /// [`Error::NotDecoded`], [`Error::NotInProfile`].
    pub fn out_word(&mut self, port: u16, value: u16) -> Result<(), Error> {
        done(unsafe { sys::zak_out_word(&mut self.raw, port, value) })
    }

    /// Reads a byte from a port. `in` is a keyword of Rust.
    ///
    /// # Errors
    ///
    /// [`Error::NotDecoded`], [`Error::NotInProfile`].
    pub fn inp(&mut self, port: u16) -> Result<u8, Error> {
        read!(self, zak_in, port)
    }

    /// Reads a word: the low byte from the port, the high byte from the next.
    ///
    /// # Errors
    ///
    /// [`Error::NotDecoded`], [`Error::NotInProfile`].
    pub fn inp_word(&mut self, port: u16) -> Result<u16, Error> {
        read!(self, zak_in_word, port)
    }

    /// Writes a byte to display memory, at one of the processor's addresses.
    ///
    /// # Errors
    ///
    /// [`Error::NotDecoded`], [`Error::NotInProfile`].
    pub fn put(&mut self, address: u32, value: u8) -> Result<(), Error> {
        done(unsafe { sys::zak_put(&mut self.raw, address, value) })
    }

    /// Writes a word: its low byte to the address, its high byte to the next.
    ///
    /// # Errors
    ///
    /// [`Error::NotDecoded`], [`Error::NotInProfile`].
    pub fn put_word(&mut self, address: u32, value: u16) -> Result<(), Error> {
        done(unsafe { sys::zak_put_word(&mut self.raw, address, value) })
    }

    /// Reads a byte of display memory, which loads the latches.
    ///
    /// # Errors
    ///
    /// [`Error::NotDecoded`], [`Error::NotInProfile`].
    pub fn get(&mut self, address: u32) -> Result<u8, Error> {
        read!(self, zak_get, address)
    }

    /// Reads a word: the low byte at the address, the high byte at the next.
    ///
    /// # Errors
    ///
    /// [`Error::NotDecoded`], [`Error::NotInProfile`].
    pub fn get_word(&mut self, address: u32) -> Result<u16, Error> {
        read!(self, zak_get_word, address)
    }

    /// Writes bytes to consecutive addresses, and returns how many of them the adapter decodes. A
    /// write to any other changes nothing. `bytes[i]` goes to `address + i`, in either direction.
    ///
    /// ```
    /// use zaklimot::{Card, Direction::Up, Regs};
    ///
    /// let mut card = Card::new()?;
    /// card.int10(Regs::ax(0x0013), &[])?;
    /// assert_eq!(card.put_bytes(0xA0000, &[0x0F; 64_000], Up)?, 64_000);
    /// # Ok::<(), zaklimot::Error>(())
    /// ```
    ///
    /// # Errors
    ///
    /// [`Error::BadArgument`] if `address` plus the length is above FFFFFFFF (hexadecimal).
    pub fn put_bytes(
        &mut self,
        address: u32,
        bytes: &[u8],
        direction: Direction,
    ) -> Result<usize, Error> {
        let (from, len, down, mut decoded) = (bytes.as_ptr(), bytes.len(), direction.is_down(), 0);
        // SAFETY: `bytes` has as many bytes as its length says.
        done(unsafe { sys::zak_put_bytes(&mut self.raw, address, from, len, down, &mut decoded) })?;
        Ok(decoded)
    }

    /// Writes a byte to `count` consecutive addresses, and returns how many of them the adapter
    /// decodes.
    ///
    /// # Errors
    ///
    /// As [`put_bytes`](Card::put_bytes).
    pub fn fill(
        &mut self,
        address: u32,
        value: u8,
        count: usize,
        direction: Direction,
    ) -> Result<usize, Error> {
        let (down, mut decoded) = (direction.is_down(), 0);
        done(unsafe {
            sys::zak_fill_bytes(&mut self.raw, address, value, count, down, &mut decoded)
        })?;
        Ok(decoded)
    }

    /// Reads consecutive addresses into `bytes`, which loads the latches, and returns how many of
    /// them the adapter decodes. Any other reads as FF. `bytes[i]` is the byte of `address + i`, in
    /// either direction.
    ///
    /// # Errors
    ///
    /// As [`put_bytes`](Card::put_bytes).
    pub fn get_bytes(
        &mut self,
        address: u32,
        bytes: &mut [u8],
        direction: Direction,
    ) -> Result<usize, Error> {
        let (to, len, down, mut decoded) =
            (bytes.as_mut_ptr(), bytes.len(), direction.is_down(), 0);
        // SAFETY: `bytes` has as many bytes as its length says.
        done(unsafe { sys::zak_get_bytes(&mut self.raw, address, to, len, down, &mut decoded) })?;
        Ok(decoded)
    }

    /// Reads `count` consecutive addresses, and writes each byte to another address, one after
    /// another. Each read loads the latches, so in write mode 1 all four planes are copied. Returns
    /// how many of the reads and writes the adapter decodes: `2 * count` if it decodes all.
    ///
    /// # Errors
    ///
    /// As [`put_bytes`](Card::put_bytes), for either address.
    pub fn move_bytes(
        &mut self,
        from: u32,
        to: u32,
        count: usize,
        direction: Direction,
    ) -> Result<usize, Error> {
        let (down, mut decoded) = (direction.is_down(), 0);
        done(unsafe { sys::zak_move_bytes(&mut self.raw, from, to, count, down, &mut decoded) })?;
        Ok(decoded)
    }

    /// When the frame ends and input status 1 changes next, if no register is written until then.
    /// Nothing changes.
    ///
    /// ```
    /// let mut card = zaklimot::Card::new()?;
    /// card.int10(zaklimot::Regs::ax(0x0013), &[])?;
    /// let dots = card.clock()?.to_retrace.expect("mode 13 has a vertical retrace");
    /// card.advance(dots)?;
    /// assert_eq!(card.inp(0x3DA)? & 0x08, 0x08);
    /// # Ok::<(), zaklimot::Error>(())
    /// ```
    ///
    /// # Errors
    ///
    /// A card of this crate never returns one.
    pub fn clock(&mut self) -> Result<Timing, Error> {
        read!(self, zak_clock)
    }

    /// Lets the clock run for `dots` dots, at most [`MOST_DOTS`](crate::MOST_DOTS).
    ///
    /// # Errors
    ///
    /// [`Error::TooFar`].
    pub fn advance(&mut self, dots: u32) -> Result<(), Error> {
        done(unsafe { sys::zak_advance(&mut self.raw, dots) })
    }

    /// Lets the clock run to the end of the frame under way, and lends its picture, which lies in
    /// the card's memory.
    ///
    /// # Errors
    ///
    /// [`Error::Ragged`] if two rows differ in width. The frame has passed.
    pub fn frame(&mut self) -> Result<Picture<'_>, Error> {
        let rgb = kept(&mut self.rgb, MOST_RGB);
        let size = frame_into(&mut self.raw, rgb)?;
        Ok(Picture::new(size, rgb))
    }

    /// The same, into the caller's bytes: three per dot, rows from the top, each from the left.
    ///
    /// # Errors
    ///
    /// [`Error::Ragged`], and [`Error::NoRoom`] if they are too few. With either the frame has
    /// passed.
    pub fn frame_into(&mut self, rgb: &mut [u8]) -> Result<Size, Error> {
        frame_into(&mut self.raw, rgb)
    }

    /// Lets the clock run to the end of the frame under way, and lends its picture: a word
    /// `00RRGGBB` per dot, eight bits per component.
    ///
    /// # Errors
    ///
    /// [`Error::Ragged`] if two rows differ in width. The frame has passed.
    pub fn frame_xrgb(&mut self) -> Result<XrgbPicture<'_>, Error> {
        let pixels = kept(&mut self.xrgb, WIDEST * HIGHEST);
        let size = frame_xrgb_into(&mut self.raw, pixels, WIDEST)?;
        Ok(XrgbPicture::new(WordSize { size, across: 1, down: 1 }, pixels))
    }

    /// The same, into the caller's words. Row y begins at `pixels[pitch * y]`, and words beside the
    /// picture are unchanged.
    ///
    /// # Errors
    ///
    /// [`Error::Ragged`], and [`Error::NoRoom`] if there are too few or the pitch is below the
    /// width. With either the frame has passed.
    pub fn frame_xrgb_into(&mut self, pixels: &mut [u32], pitch: usize) -> Result<Size, Error> {
        frame_xrgb_into(&mut self.raw, pixels, pitch)
    }

    /// Lets the clock run to the end of the frame under way, and lends its picture: a word per
    /// pixel, in the form that you ask for.
    ///
    /// ```
    /// use zaklimot::{Card, Form, Regs};
    ///
    /// let mut card = Card::new()?;
    /// card.int10(Regs::ax(0x0013), &[])?;
    /// let picture = card.frame_words(Form { once: true, opaque: true })?;
    /// assert_eq!((picture.width(), picture.height()), (320, 200));
    /// assert_eq!((picture.across(), picture.down()), (2, 2));
    /// assert_eq!(picture.pixels()[0], 0xFF00_0000);
    /// # Ok::<(), zaklimot::Error>(())
    /// ```
    ///
    /// # Errors
    ///
    /// [`Error::Ragged`] if two rows differ in width. The frame has passed.
    pub fn frame_words(&mut self, form: Form) -> Result<XrgbPicture<'_>, Error> {
        let pixels = kept(&mut self.xrgb, WIDEST * HIGHEST);
        let words = frame_words_into(&mut self.raw, form, pixels, WIDEST)?;
        Ok(XrgbPicture::new(words, pixels))
    }

    /// The same, into the caller's words, as for [`frame_xrgb_into`](Card::frame_xrgb_into).
    ///
    /// # Errors
    ///
    /// [`Error::Ragged`], and [`Error::NoRoom`] if there are too few or the pitch is below the
    /// width. With either the frame has passed.
    pub fn frame_words_into(
        &mut self,
        form: Form,
        pixels: &mut [u32],
        pitch: usize,
    ) -> Result<WordSize, Error> {
        frame_words_into(&mut self.raw, form, pixels, pitch)
    }

    /// Lets the clock run to the end of the frame under way, and brings the caller's words up to
    /// date with its picture, as [`frame_words_into`](Card::frame_words_into) writes it. Returns the
    /// rows that have changed: from the first with a word that differs from what was there before,
    /// whoever wrote that, to the last. If no word differs they are `0..0`.
    ///
    /// ```
    /// use zaklimot::{Card, Form, Regs};
    ///
    /// let mut card = Card::new()?;
    /// card.int10(Regs::ax(0x0013), &[])?;
    /// let form = Form { once: true, opaque: true };
    /// let mut screen = vec![0; 320 * 200]; // kept from frame to frame
    /// card.frame_update(form, &mut screen, 320)?;
    /// card.put(0xA0000 + 320 * 7, 0x0F)?;
    /// let (words, rows) = card.frame_update(form, &mut screen, 320)?;
    /// assert_eq!((words.size.width, rows), (320, 7..8));
    /// # Ok::<(), zaklimot::Error>(())
    /// ```
    ///
    /// # Errors
    ///
    /// [`Error::Ragged`], and [`Error::NoRoom`] if there are too few words or the pitch is below the
    /// width. With either the frame has passed, and the words stay.
    pub fn frame_update(
        &mut self,
        form: Form,
        pixels: &mut [u32],
        pitch: usize,
    ) -> Result<(WordSize, Range<usize>), Error> {
        let (mut picture, mut rows) = (sys::zak_picture::default(), sys::zak_rows::default());
        let (to, len) = (pixels.as_mut_ptr(), pixels.len());
        let flags = flags_of(form);
        // SAFETY: `pixels` has as many words as its length says.
        done(unsafe {
            sys::zak_frame_update(&mut self.raw, flags, &mut picture, to, len, pitch, &mut rows)
        })?;
        let first = rows.first as usize;
        Ok((word_size_of(picture), first..first + rows.count as usize))
    }

    /// Lets the clock run to the end of the frame under way, and lends its picture: a number for
    /// each dot, and the palette that has its colour there.
    ///
    /// ```
    /// use zaklimot::{Card, Regs};
    ///
    /// let mut card = Card::new()?;
    /// card.int10(Regs::ax(0x0013), &[])?;
    /// card.put(0xA0000, 0x0F)?;
    /// let picture = card.frame_indexed()?;
    /// assert_eq!(picture.palette().colours(), [0x00FF_FFFF, 0x0000_0000]);
    /// assert_eq!(picture.numbers()[..3], [0, 0, 1]); // a pixel of mode 13 is two dots wide
    /// # Ok::<(), zaklimot::Error>(())
    /// ```
    ///
    /// # Errors
    ///
    /// [`Error::ManyColours`] if the picture has more than 256 colours, [`Error::Ragged`] if two
    /// rows differ in width. The frame has passed. [`Error::OutOfMemory`]: nothing has changed.
    pub fn frame_indexed(&mut self) -> Result<IndexedPicture<'_>, Error> {
        let numbers = kept(&mut self.rgb, MOST_RGB);
        let (size, palette) = frame_indexed_into(&mut self.raw, numbers)?;
        Ok(IndexedPicture::new(size, palette, numbers))
    }

    /// The same, into the caller's bytes: one per dot, rows from the top, each from the left.
    ///
    /// # Errors
    ///
    /// Those of [`frame_indexed`](Card::frame_indexed), and [`Error::NoRoom`] if the bytes are too
    /// few: the frame has passed.
    pub fn frame_indexed_into(&mut self, numbers: &mut [u8]) -> Result<(Size, Palette), Error> {
        frame_indexed_into(&mut self.raw, numbers)
    }

    /// Lets the clock run to the end of the line under way, and writes a word for each of its dots
    /// to the beginning of the caller's: `FFRRGGBB` if `opaque` is true, otherwise `00RRGGBB`.
    ///
    /// ```
    /// use zaklimot::{Card, Regs, WIDEST};
    ///
    /// let (mut card, mut words) = (Card::new()?, [0; WIDEST]);
    /// card.int10(Regs::ax(0x0013), &[])?;
    /// loop {
    ///     let line = card.line(false, &mut words)?;
    ///     assert_eq!(line.width, if line.number < 400 { 640 } else { 0 });
    ///     if line.ends_frame {
    ///         break;
    ///     }
    /// }
    /// # Ok::<(), zaklimot::Error>(())
    /// ```
    ///
    /// # Errors
    ///
    /// [`Error::NoRoom`] if there are fewer words than dots. The line has passed.
    pub fn line(&mut self, opaque: bool, words: &mut [u32]) -> Result<ScanLine, Error> {
        let mut line = sys::zak_scan_line::default();
        let flags = if opaque { sys::ZAK_OPAQUE } else { 0 };
        let (to, len) = (words.as_mut_ptr(), words.len());
        // SAFETY: there are as many words as the length says.
        done(unsafe { sys::zak_line(&mut self.raw, flags, &mut line, to, len) })?;
        let sys::zak_scan_line { number, width, ends_frame } = line;
        Ok(ScanLine { number, width: width as usize, ends_frame })
    }

    /// Lets the clock run to the end of the frame under way, and lends its dots line by line, even
    /// if lines differ in width.
    ///
    /// # Errors
    ///
    /// A card of this crate never returns one.
    pub fn lines(&mut self) -> Result<Lines<'_>, Error> {
        self.lines_by(sys::zak_frame_lines)
    }

    /// Lends what is drawn until now of the frame under way, line by line. The clock stands still.
    /// At the first dot of a frame it is the frame before, unless that was skipped.
    ///
    /// ```
    /// use zaklimot::{Card, Regs};
    ///
    /// let mut card = Card::new()?;
    /// card.int10(Regs::ax(0x0013), &[])?;
    /// card.advance(800)?;
    /// assert_eq!(card.peek()?.widths()[..2], [640, 0]);
    /// # Ok::<(), zaklimot::Error>(())
    /// ```
    ///
    /// # Errors
    ///
    /// A card of this crate never returns one.
    pub fn peek(&mut self) -> Result<Lines<'_>, Error> {
        self.lines_by(sys::zak_peek)
    }

    /// The dots that a call writes line by line.
    fn lines_by(&mut self, call: LinesCall) -> Result<Lines<'_>, Error> {
        let rgb = kept(&mut self.rgb, MOST_RGB);
        let (widths, mut used) = (kept(&mut self.widths, HIGHEST), 0);
        let (to, len) = (rgb.as_mut_ptr(), rgb.len());
        // SAFETY: there are ZAK_HIGHEST widths, and as many bytes as the length says.
        done(unsafe { call(&mut self.raw, widths.as_mut_ptr(), to, len, &mut used) })?;
        Ok(Lines::new(widths, &rgb[..used]))
    }

    /// Lets the clock run to the end of the frame under way, and draws nothing of it: for a frame
    /// that nobody looks at. The card goes on as after [`frame`](Card::frame).
    ///
    /// ```
    /// use zaklimot::Card;
    ///
    /// let mut card = Card::new()?;
    /// card.skip_frame()?;
    /// assert_eq!(card.beam()?.frame, 1);
    /// # Ok::<(), zaklimot::Error>(())
    /// ```
    ///
    /// # Errors
    ///
    /// A card of this crate never returns one.
    pub fn skip_frame(&mut self) -> Result<(), Error> {
        done(unsafe { sys::zak_skip_frame(&mut self.raw) })
    }

    /// What [`int10`](Card::int10) with these registers reads from the caller's memory. With a
    /// block of exactly `len` bytes it never returns [`Error::BadBlock`].
    ///
    /// ```
    /// use zaklimot::{Card, Regs, Source};
    ///
    /// let five = Regs { cx: 5, ..Regs::ax(0x1301) };
    /// assert_eq!(Card::new()?.block(five), Ok(Source { len: 5, is_at_dx: false }));
    /// # Ok::<(), zaklimot::Error>(())
    /// ```
    ///
    /// # Errors
    ///
    /// A card of this crate never returns one.
    pub fn block(&mut self, regs: Regs) -> Result<Source, Error> {
        read!(self, zak_block, &regs.into())
    }

    /// Calls the video BIOS, interrupt 10 (hexadecimal). `block` is what memory contains at ES:BP
    /// or ES:DX, for functions that read it (`docs/SERVICES.md`).
    ///
    /// # Errors
    ///
    /// [`Error::NoMode`] to [`Error::BadBlock`], [`Error::BadHeight`], [`Error::OutOfMemory`].
    pub fn int10(&mut self, regs: Regs, block: &[u8]) -> Result<Answer, Error> {
        let (mut regs, mut table, mut len) = (regs.into(), [0; MOST_TABLE], 0);
        // SAFETY: each pointer is to as many elements as its length says.
        done(unsafe {
            sys::zak_int10(
                &mut self.raw,
                &mut regs,
                block.as_ptr(),
                block.len(),
                table.as_mut_ptr(),
                table.len(),
                &mut len,
            )
        })?;
        Ok(Answer { regs: regs.into(), table: table[..len].to_vec() })
    }

    /// The script of the cycles that [`int10`](Card::int10) with these registers would make now.
    /// Nothing changes. It has a step `out`, `in`, `put` or `get` for each cycle, in order. A card
    /// that runs it gets the registers and the memory that `int10` leaves, but keeps its BIOS data.
    ///
    /// ```
    /// use zaklimot::{Card, Regs};
    ///
    /// let mut card = Card::new()?;
    /// card.int10(Regs::ax(0x0003), &[])?;
    /// let script = card.cycles(Regs::ax(0x0E41), &[])?; // printing an A
    /// assert!(zaklimot::disassemble(&script)?.starts_with("put B8000 41\n"));
    /// # Ok::<(), zaklimot::Error>(())
    /// ```
    ///
    /// # Errors
    ///
    /// Those of [`int10`](Card::int10), and [`Error::TooLong`] for more than 16,777,216 bytes.
    pub fn cycles(&mut self, regs: Regs, block: &[u8]) -> Result<Vec<u8>, Error> {
        let regs: sys::zak_regs = regs.into();
        let (mut script, mut len) = (vec![0; FIRST_CYCLES], 0);
        loop {
            // SAFETY: each pointer is to as many elements as its length says.
            let status = unsafe {
                sys::zak_cycles(
                    &mut self.raw,
                    &regs,
                    block.as_ptr(),
                    block.len(),
                    script.as_mut_ptr(),
                    script.len(),
                    &mut len,
                )
            };
            if status != sys::ZAK_NO_ROOM {
                done(status)?;
                script.truncate(len);
                return Ok(script);
            }
            script = vec![0; len];
        }
    }

    /// All registers, as they are. This and the reads below change nothing, not even a latch or the
    /// flip-flop.
    ///
    /// # Errors
    ///
    /// A card of this crate never returns one, here and in the next four calls.
    pub fn registers(&mut self) -> Result<Registers, Error> {
        read!(self, zak_read_registers)
    }

    /// The colour of an entry of the DAC: six bits per component.
    ///
    /// # Errors
    ///
    /// As [`registers`](Card::registers).
    pub fn colour(&mut self, entry: u8) -> Result<Colour, Error> {
        read!(self, zak_read_colour, entry)
    }

    /// The beam: where the next dot is.
    ///
    /// # Errors
    ///
    /// As [`registers`](Card::registers).
    pub fn beam(&mut self) -> Result<Beam, Error> {
        read!(self, zak_read_beam)
    }

    /// The latches of planes 0 to 3.
    ///
    /// # Errors
    ///
    /// As [`registers`](Card::registers).
    pub fn latches(&mut self) -> Result<Latches, Error> {
        read!(self, zak_read_latches)
    }

    /// The data of the video BIOS; all 0 until a mode is set.
    ///
    /// # Errors
    ///
    /// As [`registers`](Card::registers).
    pub fn bios_data(&mut self) -> Result<BiosData, Error> {
        read!(self, zak_read_bda)
    }

    /// Reads bytes of plane 0 to 3, from an offset on, until `bytes` is full.
    ///
    /// # Errors
    ///
    /// [`Error::BadArgument`] if they go past the plane's end at 65,536, or there is no such plane.
    pub fn plane(&mut self, plane: u8, offset: u16, bytes: &mut [u8]) -> Result<(), Error> {
        let (to, len) = (bytes.as_mut_ptr(), bytes.len());
        // SAFETY: `bytes` has as many bytes as its length says.
        done(unsafe { sys::zak_read_plane(&mut self.raw, plane, offset, to, len) })
    }

    /// The plain screen that the adapter shows.
    ///
    /// # Errors
    ///
    /// [`Error::NoScreen`] if it shows none, [`Error::OutOfMemory`].
    pub fn screen(&mut self) -> Result<Screen, Error> {
        read!(self, zak_screen_read)
    }

    /// A cell of text. Each call reads the whole screen.
    ///
    /// # Errors
    ///
    /// [`Error::NoScreen`], [`Error::BadArgument`] if there is no such page, row or column,
    /// [`Error::OutOfMemory`].
    pub fn cell(&mut self, page: u8, row: u8, column: u8) -> Result<Cell, Error> {
        read!(self, zak_screen_cell, page, row, column)
    }

    /// The number of a pixel's colour in a graphics mode. Each call reads the whole screen.
    ///
    /// # Errors
    ///
    /// [`Error::NoScreen`], [`Error::BadArgument`] if there is no such page, x or y,
    /// [`Error::OutOfMemory`].
    pub fn pixel(&mut self, page: u8, x: u16, y: u16) -> Result<u8, Error> {
        read!(self, zak_screen_pixel, page, x, y)
    }

    /// The cursor position of a page, 0 to 7.
    ///
    /// # Errors
    ///
    /// [`Error::NoScreen`], [`Error::BadArgument`], [`Error::OutOfMemory`].
    pub fn cursor(&mut self, page: u8) -> Result<Position, Error> {
        read!(self, zak_screen_cursor, page)
    }

    /// The registers as the text of the step `show regs` (`docs/REPORT.md`).
    ///
    /// # Errors
    ///
    /// [`Error::OutOfMemory`], here and in the dumps below.
    pub fn show_regs(&mut self) -> Result<String, Error> {
        text!(self, zak_show_regs)
    }

    /// The beam as text.
    ///
    /// # Errors
    ///
    /// As [`show_regs`](Card::show_regs).
    pub fn show_beam(&mut self) -> Result<String, Error> {
        text!(self, zak_show_beam)
    }

    /// The latches as text.
    ///
    /// # Errors
    ///
    /// As [`show_regs`](Card::show_regs).
    pub fn show_latches(&mut self) -> Result<String, Error> {
        text!(self, zak_show_latches)
    }

    /// The data of the video BIOS as text.
    ///
    /// # Errors
    ///
    /// As [`show_regs`](Card::show_regs).
    pub fn show_bda(&mut self) -> Result<String, Error> {
        text!(self, zak_show_bda)
    }

    /// The cells of the active page as text, one row per line.
    ///
    /// # Errors
    ///
    /// [`Error::NoMode`], [`Error::WrongKind`] in a graphics mode.
    pub fn show_cells(&mut self) -> Result<String, Error> {
        text!(self, zak_show_cells)
    }

    /// An entry of the DAC as text.
    ///
    /// # Errors
    ///
    /// As [`show_regs`](Card::show_regs).
    pub fn show_dac(&mut self, entry: u8) -> Result<String, Error> {
        text!(self, zak_show_dac, entry)
    }

    /// 1 to 256 bytes of plane 0 to 3, from an offset on, as text.
    ///
    /// # Errors
    ///
    /// [`Error::BadArgument`].
    pub fn show_plane(&mut self, plane: u8, offset: u16, count: u16) -> Result<String, Error> {
        text!(self, zak_show_plane, plane, offset, count)
    }

    /// The state of the card, from which this card or another can go on as if it had never stopped
    /// (`docs/STATE.md`). It does not contain the fonts.
    ///
    /// # Errors
    ///
    /// A card of this crate never returns one.
    pub fn save(&mut self) -> Result<Vec<u8>, Error> {
        let mut state = vec![0; self.save_size()?];
        self.save_into(&mut state)?;
        Ok(state)
    }

    /// How many bytes the state has now: [`FIRST_STATE`](crate::FIRST_STATE) at the first dot of a
    /// frame, and three more for each dot drawn since.
    ///
    /// # Errors
    ///
    /// A card of this crate never returns one.
    pub fn save_size(&mut self) -> Result<usize, Error> {
        read!(self, zak_save_size)
    }

    /// Writes the state to the beginning of the caller's bytes, and returns how many bytes it has.
    /// [`MOST_STATE`](crate::MOST_STATE) bytes are always enough. Nothing is allocated.
    ///
    /// ```
    /// use zaklimot::{Card, Regs, FIRST_STATE};
    ///
    /// let (mut card, mut state) = (Card::new()?, vec![0; FIRST_STATE]);
    /// card.int10(Regs::ax(0x0013), &[])?;
    /// card.frame()?;
    /// let len = card.save_into(&mut state)?;
    /// assert_eq!(len, FIRST_STATE); // right after a frame
    /// card.restore(&state[..len])?;
    /// # Ok::<(), zaklimot::Error>(())
    /// ```
    ///
    /// # Errors
    ///
    /// [`Error::NoRoom`] if they are too few. Nothing is written then.
    pub fn save_into(&mut self, state: &mut [u8]) -> Result<usize, Error> {
        let (to, room, mut len) = (state.as_mut_ptr(), state.len(), 0);
        // SAFETY: `state` has as many bytes as its length says.
        done(unsafe { sys::zak_save(&mut self.raw, to, room, &mut len) })?;
        Ok(len)
    }

    /// Restores a saved state.
    ///
    /// # Errors
    ///
    /// [`Error::StateMagic`] to [`Error::StatePart`] for other bytes. The card is then unchanged.
    pub fn restore(&mut self, state: &[u8]) -> Result<(), Error> {
        done(unsafe { sys::zak_restore(&mut self.raw, state.as_ptr(), state.len()) })
    }

    /// Fills the caller's bytes with the state, zeros and a checksum, so that all states have one
    /// size. Nothing is allocated.
    ///
    /// ```
    /// use zaklimot::{Card, Error, Regs};
    ///
    /// let (mut card, mut state) = (Card::new()?, vec![0; 1_100_000]);
    /// card.int10(Regs::ax(0x0013), &[])?;
    /// card.save_fixed(&mut state)?;
    /// card.restore_fixed(&state)?;
    /// state[100] ^= 1;
    /// assert_eq!(card.restore_fixed(&state), Err(Error::StateChecksum));
    /// # Ok::<(), Error>(())
    /// ```
    ///
    /// # Errors
    ///
    /// [`Error::NoRoom`] if they are too few. Nothing is written then.
    pub fn save_fixed(&mut self, state: &mut [u8]) -> Result<(), Error> {
        done(unsafe { sys::zak_save_fixed(&mut self.raw, state.as_mut_ptr(), state.len()) })
    }

    /// Restores a state that [`save_fixed`](Card::save_fixed) wrote.
    ///
    /// # Errors
    ///
    /// [`Error::StateChecksum`], and those of [`restore`](Card::restore). The card is then
    /// unchanged.
    pub fn restore_fixed(&mut self, state: &[u8]) -> Result<(), Error> {
        done(unsafe { sys::zak_restore_fixed(&mut self.raw, state.as_ptr(), state.len()) })
    }

    /// Skips the first `first` steps of a script, and takes at most `most` steps after them. Fewer
    /// are taken only if the script ends.
    ///
    /// # Errors
    ///
    /// The faults of a script, before any step is taken. After [`Error::OutOfMemory`] the card is
    /// as it was before.
    pub fn run_on(&mut self, script: &[u8], first: u32, most: u32) -> Result<Slice, Error> {
        // With too little room the steps are taken, but have no report. So they are taken again.
        let (state, mut report) = (self.save()?, vec![0; STEP_ROOM]);
        loop {
            let (len, taken, status) = self.slice(script, first, most, &mut report);
            if status.is_ok() {
                report.truncate(len);
                return Ok(Slice { report, taken });
            }
            self.restore(&state)?;
            match status {
                Err(Error::NoRoom) => report = vec![0; len],
                _ => status?,
            }
        }
    }

    /// One call of `zak_run_on`: the length of the report, how many steps were taken, and the
    /// status.
    fn slice(
        &mut self,
        script: &[u8],
        first: u32,
        most: u32,
        report: &mut [u8],
    ) -> (usize, usize, Result<(), Error>) {
        let (mut len, mut taken, mut place) = (0, 0, 0);
        // SAFETY: each pointer is to as many elements as its length says, and `report` is borrowed
        // alone.
        let status = unsafe {
            sys::zak_run_on(
                &mut self.raw,
                script.as_ptr(),
                script.len(),
                first,
                most,
                report.as_mut_ptr(),
                report.len(),
                &mut len,
                &mut taken,
                &mut place,
            )
        };
        (len, taken, done_at(status, place))
    }
}

fn frame_into(raw: &mut sys::zak_card, rgb: &mut [u8]) -> Result<Size, Error> {
    let mut size = sys::zak_size::default();
    // SAFETY: `rgb` has as many bytes as its length says.
    done(unsafe { sys::zak_frame(raw, &mut size, rgb.as_mut_ptr(), rgb.len()) })?;
    Ok(size_of(size))
}

fn frame_indexed_into(
    raw: &mut sys::zak_card,
    numbers: &mut [u8],
) -> Result<(Size, Palette), Error> {
    let (mut size, mut palette) = (sys::zak_size::default(), sys::zak_palette::default());
    let (to, len) = (numbers.as_mut_ptr(), numbers.len());
    // SAFETY: `numbers` has as many bytes as its length says.
    done(unsafe { sys::zak_frame_indexed(raw, &mut size, &mut palette, to, len) })?;
    Ok((size_of(size), Palette::new(palette.len as usize, palette.colours)))
}

fn frame_xrgb_into(
    raw: &mut sys::zak_card,
    pixels: &mut [u32],
    pitch: usize,
) -> Result<Size, Error> {
    let mut size = sys::zak_size::default();
    let (to, len) = (pixels.as_mut_ptr(), pixels.len());
    // SAFETY: `pixels` has as many words as its length says.
    done(unsafe { sys::zak_frame_xrgb(raw, &mut size, to, len, pitch) })?;
    Ok(size_of(size))
}

fn frame_words_into(
    raw: &mut sys::zak_card,
    form: Form,
    pixels: &mut [u32],
    pitch: usize,
) -> Result<WordSize, Error> {
    let mut picture = sys::zak_picture::default();
    let (to, len) = (pixels.as_mut_ptr(), pixels.len());
    // SAFETY: `pixels` has as many words as its length says.
    done(unsafe { sys::zak_frame_words(raw, flags_of(form), &mut picture, to, len, pitch) })?;
    Ok(word_size_of(picture))
}

/// The flags that ask for a form.
fn flags_of(form: Form) -> u32 {
    let once = if form.once { sys::ZAK_ONCE } else { 0 };
    once + if form.opaque { sys::ZAK_OPAQUE } else { 0 }
}

fn word_size_of(picture: sys::zak_picture) -> WordSize {
    let sys::zak_picture { width, height, across, down } = picture;
    let size = size_of(sys::zak_size { width, height });
    WordSize { size, across: across as usize, down: down as usize }
}

impl Drop for Card {
    fn drop(&mut self) {
        // SAFETY: the card is open, and only closed here.
        unsafe { sys::zak_close(&mut self.raw) };
    }
}
