//! Takes the steps of a script slice by slice: `slices SCRIPT STEPS`.
//!
//! Writes the printed text, and then the report of each slice of so many steps. After every
//! slice it goes back and takes it once more, as a debugger does.

// `let .. else` would need Rust 1.65.
#![allow(clippy::single_match_else)]

use std::error::Error;
use std::io::{stdout, Write};
use std::num::NonZeroU32;
use std::process::ExitCode;
use std::{env, fs};

use zaklimot::{assemble, disassemble, Card};

/// Takes all steps, so many at a time and each slice twice, and hands over their reports.
fn slices(
    card: &mut Card,
    script: &[u8],
    steps: u32,
    mut write: impl FnMut(&[u8]),
) -> Result<(), zaklimot::Error> {
    let mut first = 0;
    loop {
        let state = card.save()?;
        let once = card.run_on(script, first, steps)?;
        card.restore(&state)?;
        let again = card.run_on(script, first, steps)?;
        assert!(once == again);
        write(&again.report);
        first += u32::try_from(again.taken).expect("at most `steps` are taken");
        if again.taken < steps as usize {
            return Ok(());
        }
    }
}

fn run(path: &str, steps: NonZeroU32) -> Result<(), Box<dyn Error>> {
    let script = assemble(fs::read(path)?)?;
    let mut out = disassemble(&script)?.into_bytes();
    let mut card = Card::new()?;
    slices(&mut card, &script, steps.get(), |report| out.extend_from_slice(report))?;
    stdout().write_all(&out)?;
    Ok(())
}

fn main() -> ExitCode {
    let words: Vec<String> = env::args().collect();
    let (path, steps) = match words.as_slice() {
        [_, path, steps] => (path, steps),
        _ => {
            eprintln!("slices SCRIPT STEPS");
            return ExitCode::from(2);
        }
    };
    // Slices of no step would never come to the script's end.
    let steps = match steps.parse() {
        Ok(steps) => steps,
        Err(_) => {
            eprintln!("{steps}: a slice has one step or more");
            return ExitCode::from(2);
        }
    };
    match run(path, steps) {
        Ok(()) => ExitCode::SUCCESS,
        Err(error) => {
            eprintln!("{path}: {error}");
            ExitCode::FAILURE
        }
    }
}
