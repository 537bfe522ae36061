//! zcat write-mode-0-planar.json.gz | cargo run --release
mod toy;
use serde::Deserialize;
use toy::Toy;

#[derive(Deserialize)]
struct State {
    misc: u8,
    seq: [u8; 5],
    gfx: [u8; 9],
    latches: [u8; 4],
    planes: Vec<(u16, u8, u8, u8, u8)>,
}

#[derive(Deserialize)]
struct Element {
    name: String,
    initial: State,
    put: Option<(u32, u8)>,
    get: Option<(u32,)>,
    answer: Option<u8>,
    refused: Option<String>,
    r#final: State,
}

fn set_state(card: &mut Toy, state: &State) {
    (card.misc, card.seq, card.gfx, card.latches) = (state.misc, state.seq, state.gfx, state.latches);
    for &(offset, a, b, c, d) in &state.planes {
        card.planes[offset as usize] = [a, b, c, d];
    }
}

fn is_right(card: &mut Toy, element: &Element) -> bool {
    set_state(card, &element.initial);
    let mut wanted = card.clone();
    set_state(&mut wanted, &element.r#final);
    let answer = match (element.put, element.get) {
        (Some((address, byte)), _) => card.put(address, byte).map(|()| None),
        (None, Some((address,))) => card.get(address).map(Some),
        (None, None) => return false,
    };
    answer == element.refused.is_none().then_some(element.answer) && *card == wanted
}

fn main() {
    let elements = serde_json::from_reader(std::io::stdin().lock());
    let elements: Vec<Element> = elements.expect("elements of memory on standard input");
    let mut card = Toy::new();
    let wrong: Vec<_> = elements.iter().filter(|element| !is_right(&mut card, element)).collect();
    if let Some(first) = wrong.first() {
        println!("the first that differs: {}", first.name);
    }
    println!("{} right, {} wrong", elements.len() - wrong.len(), wrong.len());
    std::process::exit((elements.is_empty() || !wrong.is_empty()) as i32);
}
