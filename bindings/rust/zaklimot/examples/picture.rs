//! Sets mode 13, draws its 256 colours in another thread, and writes a picture:
//! `picture PICTURE.ppm`.

// `let .. else` would need Rust 1.65.
#![allow(clippy::single_match_else)]

use std::error::Error;
use std::process::ExitCode;
use std::{env, fs, thread};

use zaklimot::{Card, Direction::Up, Regs};

fn draw(mut card: Card) -> Result<Vec<u8>, zaklimot::Error> {
    card.int10(Regs::ax(0x0013), &[])?;
    let colour = |at: u32| at % 320 / 20 + 16 * (2 * (at / 320) / 25);
    let pixel = |at| u8::try_from(colour(at)).expect("there are 256 colours");
    let screen: Vec<u8> = (0..64_000).map(pixel).collect();
    card.put_bytes(0xA0000, &screen, Up)?;
    Ok(card.frame()?.ppm())
}

fn picture(path: &str) -> Result<(), Box<dyn Error>> {
    let card = Card::new()?;
    let ppm = thread::spawn(move || draw(card)).join().expect("the thread ends")?;
    fs::write(path, ppm).map_err(|error| format!("{path} can't be written: {error}"))?;
    Ok(())
}

fn main() -> ExitCode {
    let words: Vec<String> = env::args().collect();
    let path = match words.as_slice() {
        [_, path] => path,
        _ => {
            eprintln!("picture PICTURE.ppm");
            return ExitCode::from(2);
        }
    };
    match picture(path) {
        Ok(()) => ExitCode::SUCCESS,
        Err(error) => {
            eprintln!("picture: {error}");
            ExitCode::FAILURE
        }
    }
}
