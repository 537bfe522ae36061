//! A toy adapter: the memory of a VGA and the registers by which it is written and read.
//! docs/HOST-PATH.md has the rules. loader.rs holds it to single-step tests.

#[derive(Clone, PartialEq)]
pub struct Toy {
    pub misc: u8,
    pub seq: [u8; 5],
    pub gfx: [u8; 9],
    pub latches: [u8; 4],
    pub planes: Vec<[u8; 4]>,
}

const WINDOWS: [(u32, u32); 4] =
    [(0xA0000, 0x20000), (0xA0000, 0x10000), (0xB0000, 0x8000), (0xB8000, 0x8000)];

impl Toy {
    pub fn new() -> Toy {
        Toy { misc: 0, seq: [0; 5], gfx: [0; 9], latches: [0; 4], planes: vec![[0; 4]; 65536] }
    }

    /// The place of an address in the window; none of one that isn't decoded.
    fn place(&self, address: u32) -> Option<usize> {
        let (first, size) = WINDOWS[(self.gfx[6] >> 2 & 3) as usize];
        let place = address.checked_sub(first).filter(|&place| place < size)?;
        (self.misc & 2 != 0).then_some(place as usize & 0xFFFF)
    }

    fn offset(&self, place: usize) -> usize {
        match (self.seq[4] & 8 != 0, self.gfx[6] & 2 != 0) {
            (true, _) => place & 0xFFFC,
            (false, true) => place & 0xFFFE,
            (false, false) => place,
        }
    }

    /// The byte that a write stores in a plane.
    fn stored(&self, plane: usize, byte: u8) -> u8 {
        let is_set = |mask: u8| if mask >> plane & 1 != 0 { 0xFF } else { 0 };
        let rotated = byte.rotate_right((self.gfx[3] & 7) as u32);
        let (latch, mask) = (self.latches[plane], self.gfx[8]);
        let (data, mask) = match self.gfx[5] & 3 {
            0 if is_set(self.gfx[1]) == 0 => (rotated, mask),
            0 => (is_set(self.gfx[0]), mask),
            1 => return latch,
            2 => (is_set(byte), mask),
            _ => (is_set(self.gfx[0]), mask & rotated),
        };
        let joined = match self.gfx[3] >> 3 & 3 {
            0 => data,
            1 => data & latch,
            2 => data | latch,
            _ => data ^ latch,
        };
        joined & mask | latch & !mask
    }

    /// A write of a byte; none if it isn't decoded.
    pub fn put(&mut self, address: u32, byte: u8) -> Option<()> {
        let place = self.place(address)?;
        let reached = match (self.seq[4] & 8 != 0, self.seq[4] & 4 != 0) {
            (true, _) => 1 << (place & 3),
            (false, false) => [0b0101, 0b1010][place & 1],
            (false, true) => 0b1111,
        };
        let offset = self.offset(place);
        let planes = reached & self.seq[2];
        for plane in (0..4).filter(|plane| planes >> plane & 1 != 0) {
            self.planes[offset][plane] = self.stored(plane, byte);
        }
        Some(())
    }

    /// A read of a byte, which loads the latches; none if it isn't decoded.
    pub fn get(&mut self, address: u32) -> Option<u8> {
        let place = self.place(address)?;
        self.latches = self.planes[self.offset(place)];
        if self.gfx[5] & 8 != 0 {
            let compared = (0..4).filter(|plane| self.gfx[7] >> plane & 1 != 0);
            let colour = |plane: usize| if self.gfx[2] >> plane & 1 != 0 { 0xFF } else { 0 };
            return Some(!compared.fold(0, |bits, plane| bits | self.latches[plane] ^ colour(plane)));
        }
        let picked = match (self.seq[4] & 8 != 0, self.gfx[5] & 0x10 != 0) {
            (true, _) => place & 3,
            (false, true) => self.gfx[4] as usize & 2 | place & 1,
            (false, false) => self.gfx[4] as usize & 3,
        };
        Some(self.latches[picked])
    }
}
