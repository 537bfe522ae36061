//! What a core calls for each frame allocates nothing. The counting allocator is the whole
//! program's, so this test has a program of its own.

use std::alloc::{GlobalAlloc, Layout, System};
use std::cell::Cell;

use zaklimot::{Card, Error, Form, Regs, FIRST_STATE};

/// The system's allocator, which counts what each thread asks for.
struct Counting;

thread_local! {
    /// How often this thread has asked. What runs the tests has a thread of its own, which asks too.
    static ASKED: Cell<usize> = const { Cell::new(0) };
}

fn asked() -> usize {
    ASKED.with(Cell::get)
}

// SAFETY: each call goes on to the system's allocator as it is.
unsafe impl GlobalAlloc for Counting {
    unsafe fn alloc(&self, layout: Layout) -> *mut u8 {
        ASKED.with(|asked| asked.set(asked.get() + 1));
        System.alloc(layout)
    }

    unsafe fn dealloc(&self, memory: *mut u8, layout: Layout) {
        System.dealloc(memory, layout);
    }
}

#[global_allocator]
static ALLOCATOR: Counting = Counting;

/// A frame and a snapshot of it, in memory of the caller's.
fn frame(card: &mut Card, words: &mut [u32], state: &mut [u8]) -> Result<(), Error> {
    let form = Form { once: true, opaque: true };
    card.frame_words_into(form, words, 320)?;
    card.frame_update(form, words, 320)?;
    let len = card.save_into(state)?;
    card.restore(&state[..len])?;
    card.save_fixed(state)?;
    card.restore_fixed(state)
}

#[test]
fn a_snapshot_a_frame_allocates_nothing() {
    let mut card = Card::new().unwrap();
    card.int10(Regs::ax(0x0013), &[]).unwrap();
    let (mut words, mut state) = (vec![0; 320 * 200], vec![0; FIRST_STATE + 4]);
    frame(&mut card, &mut words, &mut state).unwrap();
    let before = asked();
    let done = frame(&mut card, &mut words, &mut state);
    let after = asked();
    assert_eq!((done, after), (Ok(()), before));
    // What is counted sees a state in memory of its own.
    let state = card.save().unwrap();
    assert!(asked() > after && state.len() == FIRST_STATE);
}
