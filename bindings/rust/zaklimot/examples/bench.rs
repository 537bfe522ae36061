//! How long calls take through the crate, in microseconds: `bench`. `bench/calls.c` of the
//! repository makes the same calls by C.

use std::time::Instant;

use zaklimot::{Card, Error, Regs};

const RUNS: usize = 9;

/// The best of several runs of so many calls each.
fn best(
    name: &str,
    times: u32,
    mut call: impl FnMut(u32) -> Result<(), Error>,
) -> Result<(), Error> {
    let mut least = f64::MAX;
    for _ in 0..RUNS {
        let start = Instant::now();
        for at in 0..times {
            call(at)?;
        }
        least = least.min(start.elapsed().as_secs_f64());
    }
    println!("{name} {:.3}", least * 1e6 / f64::from(times));
    Ok(())
}

fn main() -> Result<(), Error> {
    for mode in [0x13, 0x03, 0x12] {
        let mut card = Card::new()?;
        card.int10(Regs::ax(mode), &[])?;
        println!("mode {mode:02X}");
        if mode != 0x03 {
            best("put", 1_000_000, |at| card.put(0xA0000 + (at & 0x7FFF), at.to_le_bytes()[0]))?;
            best("get", 1_000_000, |at| card.get(0xA0000 + (at & 0x7FFF)).map(|_| ()))?;
        }
        best("frame", 200, |_| card.frame().map(|_| ()))?;
        best("frame_xrgb", 200, |_| card.frame_xrgb().map(|_| ()))?;
        best("lines", 200, |_| card.lines().map(|_| ()))?;
    }
    Ok(())
}
