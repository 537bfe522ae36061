//! The pictures of frames, in the card's memory.

use std::slice::ChunksExact;

use crate::WIDEST;

/// The size of a picture: dots of a row, and rows.
#[derive(Clone, Copy, Debug, Default, PartialEq, Eq)]
pub struct Size {
    /// Dots of a row.
    pub width: usize,
    /// Rows.
    pub height: usize,
}

/// The form of a picture of [`Card::frame_words`](crate::Card::frame_words) and
/// [`Card::frame_update`](crate::Card::frame_update).
#[derive(Clone, Copy, Debug, Default, PartialEq, Eq)]
pub struct Form {
    /// Whether a pixel that the screen shows on several dots or lines has one word.
    pub once: bool,
    /// Whether words are `FFRRGGBB` rather than `00RRGGBB`.
    pub opaque: bool,
}

/// The size of a picture in words, and how many dots of a line, 1 or 2, and scan lines, 1 to 64,
/// each word stands for.
#[derive(Clone, Copy, Debug, PartialEq, Eq)]
pub struct WordSize {
    /// Words in a row, and rows.
    pub size: Size,
    /// Dots of a line that a word stands for.
    pub across: usize,
    /// Scan lines that a word stands for.
    pub down: usize,
}

/// A picture that the card lends: three bytes per dot, red, green and blue, 0 to 63 each.
#[derive(Clone, Copy, Debug, PartialEq, Eq)]
pub struct Picture<'a> {
    size: Size,
    rgb: &'a [u8],
}

impl<'a> Picture<'a> {
    pub(crate) fn new(size: Size, rgb: &'a [u8]) -> Picture<'a> {
        Picture { size, rgb: &rgb[..3 * size.width * size.height] }
    }

    /// Dots of a row.
    #[must_use]
    pub fn width(&self) -> usize {
        self.size.width
    }

    /// Rows.
    #[must_use]
    pub fn height(&self) -> usize {
        self.size.height
    }

    /// All bytes: rows from the top, dots from the left.
    #[must_use]
    pub fn rgb(&self) -> &'a [u8] {
        self.rgb
    }

    /// The rows from the top, three bytes per dot.
    pub fn rows(&self) -> ChunksExact<'a, u8> {
        self.rgb.chunks_exact(3 * self.size.width.max(1))
    }

    /// The colour of a dot, x from the left and y from the top.
    ///
    /// # Panics
    ///
    /// If the dot is outside the picture.
    #[must_use]
    pub fn dot(&self, x: usize, y: usize) -> [u8; 3] {
        assert!(x < self.size.width && y < self.size.height, "({x}, {y}) is outside the picture");
        let at = 3 * (self.size.width * y + x);
        [self.rgb[at], self.rgb[at + 1], self.rgb[at + 2]]
    }

    /// The picture as a Netpbm PPM (P6, at most 63), as reports have it.
    #[must_use]
    pub fn ppm(&self) -> Vec<u8> {
        let mut ppm = format!("P6\n{} {}\n63\n", self.size.width, self.size.height).into_bytes();
        ppm.extend_from_slice(self.rgb);
        ppm
    }
}

/// The colours of a picture as words `00RRGGBB`, at most 256, each once, in the order in which they
/// first appear.
#[derive(Clone, Copy, Debug, PartialEq, Eq)]
pub struct Palette {
    len: usize,
    colours: [u32; 256],
}

impl Palette {
    pub(crate) fn new(len: usize, colours: [u32; 256]) -> Palette {
        Palette { len, colours }
    }

    /// The colours. A number is the place of its colour.
    #[must_use]
    pub fn colours(&self) -> &[u32] {
        &self.colours[..self.len]
    }
}

/// A picture that the card lends: a number for each dot, and the palette that has its colour there.
#[derive(Clone, Copy, Debug, PartialEq, Eq)]
pub struct IndexedPicture<'a> {
    size: Size,
    palette: Palette,
    numbers: &'a [u8],
}

impl<'a> IndexedPicture<'a> {
    pub(crate) fn new(size: Size, palette: Palette, numbers: &'a [u8]) -> IndexedPicture<'a> {
        IndexedPicture { size, palette, numbers: &numbers[..size.width * size.height] }
    }

    /// Dots of a row.
    #[must_use]
    pub fn width(&self) -> usize {
        self.size.width
    }

    /// Rows.
    #[must_use]
    pub fn height(&self) -> usize {
        self.size.height
    }

    /// The colours, of which the numbers are the places.
    #[must_use]
    pub fn palette(&self) -> &Palette {
        &self.palette
    }

    /// All numbers: rows from the top, dots from the left.
    #[must_use]
    pub fn numbers(&self) -> &'a [u8] {
        self.numbers
    }

    /// The rows from the top, a number for each dot.
    pub fn rows(&self) -> ChunksExact<'a, u8> {
        self.numbers.chunks_exact(self.size.width.max(1))
    }
}

/// A picture that the card lends: a word `00RRGGBB` or `FFRRGGBB` per pixel, eight bits per
/// component.
#[derive(Clone, Copy, Debug, PartialEq, Eq)]
pub struct XrgbPicture<'a> {
    size: Size,
    across: usize,
    down: usize,
    pixels: &'a [u32],
}

impl<'a> XrgbPicture<'a> {
    pub(crate) fn new(words: WordSize, pixels: &'a [u32]) -> XrgbPicture<'a> {
        let WordSize { size, across, down } = words;
        XrgbPicture { size, across, down, pixels: &pixels[..WIDEST * size.height] }
    }

    /// Dots of a line that a word stands for, 1 or 2.
    #[must_use]
    pub fn across(&self) -> usize {
        self.across
    }

    /// Scan lines that a word stands for, 1 to 64.
    #[must_use]
    pub fn down(&self) -> usize {
        self.down
    }

    /// Dots of a row.
    #[must_use]
    pub fn width(&self) -> usize {
        self.size.width
    }

    /// Rows.
    #[must_use]
    pub fn height(&self) -> usize {
        self.size.height
    }

    /// Words from the beginning of a row to the beginning of the next.
    #[must_use]
    pub fn pitch(&self) -> usize {
        WIDEST
    }

    /// The words of all rows. Each row has [`pitch`](XrgbPicture::pitch) words, and the first
    /// `width` of them are the picture's.
    #[must_use]
    pub fn pixels(&self) -> &'a [u32] {
        self.pixels
    }

    /// The rows from the top.
    pub fn rows(&self) -> impl Iterator<Item = &'a [u32]> + 'a {
        let width = self.size.width;
        self.pixels.chunks_exact(WIDEST).map(move |row| &row[..width])
    }
}

/// A line of a frame, as it ends.
#[derive(Clone, Copy, Debug, Default, PartialEq, Eq)]
pub struct ScanLine {
    /// Its number in the frame, from 0. Lines without a dot count too.
    pub number: u32,
    /// Dots, at most [`WIDEST`]; 0 for a line with none.
    pub width: usize,
    /// Whether the frame ends with this line.
    pub ends_frame: bool,
}

/// The dots of a frame line by line, even if its lines differ in width.
#[derive(Clone, Copy, Debug, PartialEq, Eq)]
pub struct Lines<'a> {
    widths: &'a [u32],
    rgb: &'a [u8],
}

impl<'a> Lines<'a> {
    pub(crate) fn new(widths: &'a [u32], rgb: &'a [u8]) -> Lines<'a> {
        Lines { widths, rgb }
    }

    /// How many dots each of 1,024 lines has, 0 to 2,304.
    #[must_use]
    pub fn widths(&self) -> &'a [u32] {
        self.widths
    }

    /// All dots, those of line 0 first.
    #[must_use]
    pub fn rgb(&self) -> &'a [u8] {
        self.rgb
    }

    /// The dots of all 1,024 lines, in order; empty for a line without dots.
    pub fn iter(&self) -> impl Iterator<Item = &'a [u8]> + 'a {
        let mut rest = self.rgb;
        self.widths.iter().map(move |width| {
            let (line, behind) = rest.split_at(3 * *width as usize);
            rest = behind;
            line
        })
    }
}
