//! The card by its calls: what they answer, and what misuse answers.

use std::thread;

use zaklimot::Direction::{Down, Up};
use zaklimot::{assemble, fonts, run, Card, Cell, Error, Form, Position, Regs, Source};
use zaklimot::{FIRST_STATE, FONTS_SIZE, MOST_DOTS, MOST_STATE};

fn card_in(mode: u16) -> Card {
    let mut card = Card::new().unwrap();
    card.int10(Regs::ax(mode), &[]).unwrap();
    card
}

#[test]
fn cycles_reach_the_adapter() {
    let mut card = card_in(0x0013);
    card.put(0xA0000, 0x12).unwrap();
    card.put_word(0xA0001, 0x5634).unwrap();
    assert_eq!(card.get(0xA0001), Ok(0x34));
    assert_eq!(card.get_word(0xA0000), Ok(0x3412));
    card.out(0x3C4, 2).unwrap();
    card.out_word(0x3CE, 0x0F08).unwrap();
    assert_eq!(card.inp(0x3C4), Ok(2));
    assert_eq!(card.inp_word(0x3CE), Ok(0x0F08));
    let registers = card.registers().unwrap();
    assert_eq!((registers.seq_index, registers.gfx[8]), (2, 0x0F));
    assert_eq!(card.latches().unwrap().plane, [0x12, 0x34, 0x56, 0]);
    let mut bytes = [9; 3];
    card.plane(2, 0, &mut bytes).unwrap();
    assert_eq!(bytes, [0x56, 0, 0]);
}

#[test]
fn pixels_stand_once() {
    let mut card = card_in(0x0013);
    card.out(0x3C8, 1).unwrap();
    for component in [63, 0, 21] {
        card.out(0x3C9, component).unwrap();
    }
    card.put(0xA0000 + 320, 1).unwrap();
    let whole: Vec<u32> = card.frame_xrgb().unwrap().rows().flatten().copied().collect();
    let once = card.frame_words(Form { once: true, opaque: false }).unwrap();
    assert_eq!((once.width(), once.height(), once.across(), once.down()), (320, 200, 2, 2));
    for (y, row) in once.rows().enumerate() {
        for (x, &word) in row.iter().enumerate() {
            assert_eq!(word, whole[640 * (2 * y) + 2 * x]);
        }
    }
    let mut words = vec![9; 321 * 200];
    let form = Form { once: true, opaque: true };
    assert_eq!(card.frame_words_into(form, &mut words, 319), Err(Error::NoRoom));
    let told = card.frame_words_into(form, &mut words, 321).unwrap();
    assert_eq!((told.size.width, told.across), (320, 2));
    assert_eq!((words[321], words[320], words[0]), (0xFFFF_0055, 9, 0xFF00_0000));
}

#[test]
fn rows_that_change_are_told() {
    let mut card = card_in(0x0013);
    let form = Form { once: true, opaque: false };
    let mut words = vec![9; 321 * 200];
    assert_eq!(card.frame_update(form, &mut words, 319), Err(Error::NoRoom));
    assert_eq!(card.frame_update(form, &mut words[1..], 321), Err(Error::NoRoom));
    assert!(words.iter().all(|word| *word == 9));
    let (told, rows) = card.frame_update(form, &mut words, 321).unwrap();
    assert_eq!((told.size.width, told.size.height, told.across, told.down), (320, 200, 2, 2));
    assert_eq!((rows, words[319], words[320]), (0..200, 0, 9));
    card.put(0xA0000 + 320 * 7, 0x0F).unwrap();
    card.put(0xA0000 + 320 * 100 + 319, 0x0F).unwrap();
    assert_eq!(card.frame_update(form, &mut words, 321).unwrap().1, 7..101);
    assert_eq!((words[321 * 7], words[321 * 100 + 319]), (0x00FF_FFFF, 0x00FF_FFFF));
    assert_eq!(card.frame_update(form, &mut words, 321).unwrap().1, 0..0);
    // What somebody else writes is changed too, but not beside the picture.
    (words[321 * 150], words[321 * 199 + 320]) = (1, 1);
    assert_eq!(card.frame_update(form, &mut words, 321).unwrap().1, 150..151);
    assert_eq!((words[321 * 150], words[321 * 199 + 320]), (0, 1));
    let opaque = Form { opaque: true, ..form };
    assert_eq!(card.frame_update(opaque, &mut words, 321).unwrap().1, 0..200);
    card.advance(100_000).unwrap();
    for word in [0x0011, 0x2001] {
        card.out_word(0x3D4, word).unwrap();
    }
    let before = words.clone();
    assert_eq!(card.frame_update(form, &mut words, 321), Err(Error::Ragged));
    assert!(words == before);
}

#[test]
fn blocks_are_told() {
    let mut card = card_in(0x0003);
    let colours = Regs { bx: 3, cx: 5, ..Regs::ax(0x1012) };
    assert_eq!(card.block(colours), Ok(Source { len: 15, is_at_dx: true }));
    assert!(card.int10(colours, &[0; 15]).is_ok());
    assert_eq!(card.int10(colours, &[0; 16]), Err(Error::BadBlock));
}

#[test]
fn cycles_of_a_call_are_the_call() {
    let (mut card, mut other) = (card_in(0x0003), card_in(0x0003));
    let letter = Regs { bx: 7, ..Regs::ax(0x0E41) };
    let state = card.save().unwrap();
    let script = card.cycles(letter, &[]).unwrap();
    assert_eq!(card.save().unwrap(), state);
    assert_eq!(zaklimot::disassemble(&script).unwrap().lines().next(), Some("put B8000 41"));
    card.int10(letter, &[]).unwrap();
    other.run_on(&script, 0, u32::MAX).unwrap();
    assert_eq!(other.registers(), card.registers());
    assert_eq!(other.get(0xB8000), Ok(0x41));
    // More than fit at first: a mode set clears the memory.
    let many = card.cycles(Regs::ax(0x0012), &[]).unwrap();
    assert!(many.len() > 65_536);
    assert_eq!(card.cycles(Regs::ax(0x0099), &[]), Err(Error::BadMode));
}

#[test]
fn transfers_are_their_cycles() {
    let (mut card, mut other) = (card_in(0x0013), card_in(0x0013));
    let screen: Vec<u8> = (0..64_000u32).map(|at| (at * 7 / 3).to_le_bytes()[0]).collect();
    assert_eq!(card.put_bytes(0xA0000, &screen, Up), Ok(64_000));
    for (address, &value) in (0xA0000..).zip(&screen) {
        other.put(address, value).unwrap();
    }
    assert!(card.save() == other.save());
    let mut read = vec![0; 64_000];
    assert_eq!(card.get_bytes(0xA0000, &mut read, Up), Ok(64_000));
    assert!(read == screen);
    assert_eq!(card.latches().unwrap().plane, screen[63_996..]);
    assert_eq!(card.get_bytes(0xA0000, &mut read, Down), Ok(64_000));
    assert!(read == screen);
    assert_eq!(card.latches().unwrap().plane, screen[..4]);
    assert_eq!(card.fill(0xA0000, 9, 10, Down), Ok(10));
    card.get_bytes(0xA0000, &mut read[..11], Up).unwrap();
    assert_eq!((&read[..10], read[10]), (&[9; 10][..], screen[10]));
}

#[test]
fn transfers_go_up_and_down() {
    let mut card = card_in(0x0013);
    let mut read = [0; 4];
    for (direction, moved) in [(Up, b"aaaa"), (Down, b"aabc")] {
        card.put_bytes(0xA0000, b"abcd", direction).unwrap();
        assert_eq!(card.move_bytes(0xA0000, 0xA0001, 3, direction), Ok(6));
        card.get_bytes(0xA0000, &mut read, direction).unwrap();
        assert_eq!(&read, moved);
    }
    // A window ends at AFFFF here.
    assert_eq!(card.put_bytes(0xAFFFE, &[1, 2, 3], Up), Ok(2));
    assert_eq!(card.get_bytes(0xAFFFD, &mut read, Down), Ok(3));
    assert_eq!(read, [0, 1, 2, 0xFF]);
    assert_eq!(card.move_bytes(0xAFFFE, 0xAFFFD, 3, Up), Ok(5));
    assert_eq!(card.fill(0xC0000, 1, 1000, Up), Ok(0));
    assert_eq!(card.get_bytes(0xA0000, &mut [], Up), Ok(0));
    assert_eq!(card.put_bytes(0xA0000, &[], Down), Ok(0));
    // The window has 128 KB, and A0000 and B0000 are one byte of memory: the last write stays.
    card.out_word(0x3CE, 0x0106).unwrap();
    let mut data = vec![0; 0x10001];
    (data[0], data[0x10000]) = (1, 2);
    for (direction, value) in [(Up, 2), (Down, 1)] {
        assert_eq!(card.put_bytes(0xA0000, &data, direction), Ok(0x10001));
        assert_eq!(card.get(0xA0000), Ok(value));
    }
}

#[test]
fn transfers_end_at_the_last_address() {
    let mut card = card_in(0x0013);
    let (state, mut read) = (card.save().unwrap(), [7; 2]);
    assert_eq!(card.put_bytes(0xFFFF_FFFE, &[1, 2], Up), Err(Error::BadArgument));
    assert_eq!(card.fill(0xA0000, 1, 0xFFF6_0000, Up), Err(Error::BadArgument));
    assert_eq!(card.fill(0, 1, usize::MAX, Down), Err(Error::BadArgument));
    assert_eq!(card.get_bytes(0xFFFF_FFFF, &mut read, Down), Err(Error::BadArgument));
    assert_eq!(card.move_bytes(0xA0000, 0xFFFF_FFFE, 2, Up), Err(Error::BadArgument));
    assert_eq!(card.move_bytes(0xFFFF_FFFE, 0xA0000, 2, Down), Err(Error::BadArgument));
    assert_eq!(card.move_bytes(0, 0, usize::MAX, Down), Err(Error::BadArgument));
    assert_eq!(read, [7; 2]);
    assert!(card.save().unwrap() == state);
    assert_eq!(card.put_bytes(0xFFFF_FFFD, &[1, 2], Up), Ok(0));
}

#[test]
// Rates are exact numbers.
#[allow(clippy::float_cmp)]
fn the_clock_tells_what_comes() {
    let mut card = card_in(0x0013);
    let clock = card.clock().unwrap();
    assert_eq!((clock.line_dots, clock.lines, clock.frame_dots), (800, 449, 359_200));
    assert_eq!(
        (clock.to_frame, clock.to_display, clock.to_retrace),
        (359_200, Some(640), Some(329_600))
    );
    assert_eq!(
        (clock.rate, clock.rate_divisor, clock.dots_per_second()),
        (25_175_000, 1, 25_175_000.0)
    );
    card.advance(329_599).unwrap();
    assert_eq!((card.inp(0x3DA).unwrap() & 8, card.clock().unwrap().to_retrace), (0, Some(1)));
    card.advance(1).unwrap();
    assert_eq!((card.inp(0x3DA).unwrap() & 8, card.clock().unwrap().to_frame), (8, 29_600));
    card.advance(29_600).unwrap();
    assert_eq!((card.beam().unwrap().line, card.beam().unwrap().frame), (0, 1));
    card.out_word(0x3C4, 0x0901).unwrap();
    assert_eq!(card.clock().unwrap().dots_per_second(), 12_587_500.0);
    // Each character of each line is displayed, and the retrace would begin past the last line.
    for word in [0x0011, 0xFF01, 0xFF12, 0xFF07, 0xFF10] {
        card.out_word(0x3D4, word).unwrap();
    }
    let clock = card.clock().unwrap();
    assert_eq!((clock.to_display, clock.to_retrace), (None, None));
}

#[test]
fn what_is_refused_has_its_name() {
    let mut card = Card::new().unwrap();
    assert_eq!(card.out(0x60, 0), Err(Error::NotDecoded));
    assert_eq!(card.get(0x9FFFF), Err(Error::NotDecoded));
    assert_eq!(card.int10(Regs::ax(0x0E41), &[]), Err(Error::NoMode));
    assert_eq!(card.int10(Regs::ax(0x0099), &[]), Err(Error::BadMode));
    assert_eq!(card.advance(MOST_DOTS + 1), Err(Error::TooFar));
    assert_eq!(card.screen(), Err(Error::NoScreen));
    assert_eq!(card.show_cells(), Err(Error::NoMode));
    assert_eq!(card.plane(4, 0, &mut [0]), Err(Error::BadArgument));
    assert_eq!(card.plane(0, 1, &mut vec![0; 65536]), Err(Error::BadArgument));
    assert_eq!(card.show_plane(0, 0, 257), Err(Error::BadArgument));
    assert!(Error::TooFar.is_refusal() && !Error::NoScreen.is_refusal());
    assert_eq!(Card::open(&[]).map(|_| ()), Err(Error::FontSize));
    assert_eq!(Card::open(&[0; FONTS_SIZE + 1]).map(|_| ()), Err(Error::FontSize));
}

#[test]
fn a_frame_has_its_picture() {
    let mut card = card_in(0x0013);
    card.put(0xA0000 + 320 * 199 + 319, 0x0F).unwrap();
    let picture = card.frame().unwrap();
    assert_eq!((picture.width(), picture.height()), (640, 400));
    assert_eq!(picture.dot(639, 399), [63, 63, 63]);
    assert_eq!(picture.dot(637, 399), [0, 0, 0]);
    assert_eq!(picture.rows().count(), 400);
    assert_eq!(picture.ppm().len(), 14 + 3 * 640 * 400);
    let rgb = picture.rgb().to_vec();
    let words = card.frame_xrgb().unwrap();
    assert_eq!((words.width(), words.height()), (640, 400));
    let last = words.rows().last().unwrap();
    assert_eq!((last.len(), last[637], last[639]), (640, 0, 0x00FF_FFFF));
    let lines = card.lines().unwrap();
    assert_eq!((lines.widths()[399], lines.widths()[400]), (640, 0));
    assert_eq!(lines.iter().count(), 1024);
    assert_eq!(lines.iter().flatten().copied().collect::<Vec<u8>>(), rgb);
}

#[test]
fn the_palette_has_the_colour_of_each_number() {
    let mut card = card_in(0x0013);
    for x in 0..320 {
        card.put(0xA0000 + x, (x % 256) as u8).unwrap();
    }
    let mut other = Card::new().unwrap();
    other.restore(&card.save().unwrap()).unwrap();
    let words: Vec<u32> = other.frame_xrgb().unwrap().rows().flatten().copied().collect();
    let picture = card.frame_indexed().unwrap();
    let colours = picture.palette().colours();
    assert_eq!((picture.width(), picture.height()), (640, 400));
    let named: Vec<u32> = picture.numbers().iter().map(|n| colours[usize::from(*n)]).collect();
    assert_eq!(named, words);
    assert_eq!(picture.numbers()[0], 0);
    assert_eq!(picture.rows().count(), 400);
    assert_eq!(card.frame_indexed_into(&mut [0; 9]), Err(Error::NoRoom));
}

#[test]
fn a_picture_may_have_too_many_colours_for_a_palette() {
    let mut card = card_in(0x0013);
    card.out(0x3C8, 0).unwrap();
    for colour in 0..=255 {
        for component in [colour % 64, colour / 64, 0] {
            card.out(0x3C9, component).unwrap();
        }
        card.put(0xA0000 + u32::from(colour), colour).unwrap();
        card.put(0xA0000 + 320 * 199 + u32::from(colour), colour).unwrap();
    }
    assert_eq!(card.frame_indexed().unwrap().palette().colours().len(), 256);
    card.advance(100_000).unwrap();
    card.out(0x3C8, 7).unwrap();
    for component in [63, 63, 63] {
        card.out(0x3C9, component).unwrap();
    }
    assert_eq!(card.frame_indexed(), Err(Error::ManyColours));
    assert_eq!(card.peek().unwrap().widths()[0], 640);
}

#[test]
fn what_is_drawn_until_now_is_the_beginning_of_the_frame() {
    let mut card = card_in(0x0013);
    card.frame().unwrap();
    card.advance(100_000).unwrap();
    let before = card.save().unwrap();
    let drawn = card.peek().unwrap();
    let (rows, bytes) =
        (drawn.widths().to_vec(), drawn.iter().flatten().copied().collect::<Vec<u8>>());
    assert!(rows[0] == 640 && rows[399] == 0 && !bytes.is_empty());
    assert_eq!(card.save().unwrap(), before);
    let whole: Vec<u8> = card.lines().unwrap().iter().flatten().copied().collect();
    assert_eq!(whole[..bytes.len()], bytes[..]);
}

#[test]
fn a_skipped_frame_leaves_what_a_frame_leaves() {
    let mut card = card_in(0x0013);
    let mut other = card_in(0x0013);
    for each in [&mut card, &mut other] {
        each.put(0xA0000, 0x0F).unwrap();
        each.advance(123_456).unwrap();
    }
    card.frame().unwrap();
    other.skip_frame().unwrap();
    assert_eq!(other.save().unwrap(), card.save().unwrap());
    assert_eq!(other.frame().unwrap().rgb(), card.frame().unwrap().rgb());
}

#[test]
fn a_frame_goes_into_the_callers_buffer() {
    let mut card = card_in(0x0013);
    let mut rgb = vec![0xEE; 3 * 640 * 400 + 1];
    assert_eq!(card.frame_into(&mut rgb[..9]), Err(Error::NoRoom));
    assert_eq!(rgb[0], 0xEE);
    let size = card.frame_into(&mut rgb).unwrap();
    assert_eq!((size.width, size.height, rgb[0]), (640, 400, 0));
    assert_eq!(rgb[3 * 640 * 400], 0xEE);
    let mut words = vec![7; 641 * 400];
    assert_eq!(card.frame_xrgb_into(&mut words, 639), Err(Error::NoRoom));
    card.frame_xrgb_into(&mut words, 641).unwrap();
    assert_eq!((words[639], words[640], words[641]), (0, 7, 0));
}

#[test]
fn the_bios_answers_tables() {
    let mut card = card_in(0x0003);
    let regs = Regs { ax: 0x1017, bx: 7, cx: 1, dx: 0 };
    let answer = card.int10(regs, &[]).unwrap();
    assert_eq!((answer.regs, answer.table.as_slice()), (regs, &[42, 42, 42][..]));
    assert_eq!(card.colour(7).unwrap().red, 42);
    let text = Regs { ax: 0x1300, bx: 0x001E, cx: 2, dx: 0x0203 };
    card.int10(text, b"Hi").unwrap();
    assert_eq!(card.cell(0, 2, 4), Ok(Cell { character: b'i', attribute: 0x1E }));
    card.int10(Regs { ax: 0x0200, dx: 0x0506, ..Regs::default() }, &[]).unwrap();
    assert_eq!(card.cursor(0), Ok(Position { row: 5, column: 6 }));
    assert_eq!(card.bios_data().unwrap().cursor_places[0], 0x0506);
    assert!(card.screen().unwrap().is_text);
    assert_eq!(card.cell(0, 25, 0), Err(Error::BadArgument));
    assert_eq!(card_in(0x0013).pixel(0, 319, 199), Ok(0));
}

#[test]
fn dumps_are_those_of_reports() {
    let mut card = card_in(0x0003);
    card.advance(901).unwrap();
    let script = assemble(
        "int ax=3\nadvance 901\nshow regs\nshow beam\nshow latches\nshow bda\nshow dac 7\n\
         show plane 2 41 3\nshow cells",
    );
    let report = String::from_utf8(run(&script.unwrap(), fonts()).unwrap()).unwrap();
    let dumps = [
        card.show_regs().unwrap(),
        card.show_beam().unwrap(),
        card.show_latches().unwrap(),
        card.show_bda().unwrap(),
        card.show_dac(7).unwrap(),
        card.show_plane(2, 0x41, 3).unwrap(),
        card.show_cells().unwrap(),
    ];
    let numbered = dumps.iter().enumerate().map(|(at, dump)| format!("{} {dump}", at + 3));
    assert!(report.ends_with(&numbered.collect::<String>()), "{report}");
    let beam = card.beam().unwrap();
    assert_eq!((beam.line, beam.character, beam.dot, beam.half), (1, 0, 1, false));
}

#[test]
fn a_restored_card_goes_on() {
    let mut card = card_in(0x0013);
    card.put(0xA0000, 0x0F).unwrap();
    card.advance(12_345).unwrap();
    let state = card.save().unwrap();
    let (dot, mut other) = (card.frame().unwrap().dot(0, 0), Card::new().unwrap());
    other.restore(&state).unwrap();
    assert_eq!(other.save().unwrap(), state);
    assert_eq!(other.frame().unwrap().dot(0, 0), dot);
    assert_eq!(other.restore(&[]), Err(Error::StateMagic));
    assert_eq!(other.restore(&state[..state.len() - 1]), Err(Error::StateLength));
    let mut damaged = state.clone();
    damaged[4] = 2;
    assert_eq!(other.restore(&damaged), Err(Error::StateVersion));
    damaged[4] = 1;
    damaged[40] = 0xFF;
    assert_eq!(other.restore(&damaged), Err(Error::StatePart));
}

#[test]
fn states_go_into_the_callers_bytes() {
    let mut card = card_in(0x0013);
    card.put(0xA0000, 0x0F).unwrap();
    for dots in [0, 640] {
        card.advance(dots).unwrap();
        let len = FIRST_STATE + 3 * dots as usize;
        let (known, mut state) = (card.save().unwrap(), vec![0xEE; len + 5]);
        assert_eq!((known.len(), card.save_size()), (len, Ok(len)));
        assert_eq!(card.save_into(&mut state[..len - 1]), Err(Error::NoRoom));
        assert_eq!(card.save_into(&mut []), Err(Error::NoRoom));
        assert_eq!(card.save_fixed(&mut state[..len + 3]), Err(Error::NoRoom));
        assert_eq!(card.save_fixed(&mut []), Err(Error::NoRoom));
        assert!(state.iter().all(|&byte| byte == 0xEE));
        assert_eq!(card.save_into(&mut state), Ok(len));
        assert!(state[..len] == known && state[len..] == [0xEE; 5]);
        card.save_fixed(&mut state).unwrap();
        assert!(state[..len] == known && state[len] == 0);
        let mut other = Card::new().unwrap();
        other.restore_fixed(&state).unwrap();
        assert!(other.save().unwrap() == known);
    }
    assert!(card.save_into(&mut vec![0; MOST_STATE]).is_ok());
}

#[test]
fn scripts_run_whole_and_in_slices() {
    let script = assemble("version 2\nint ax=13\nrepeat 20\nframe\nend\nin 60").unwrap();
    let whole = run(&script, fonts()).unwrap();
    // Longer than the room that each is first given.
    assert!(whole.len() > 14_000_000);
    let mut card = Card::new().unwrap();
    let first = card.run_on(&script, 0, 21).unwrap();
    let rest = card.run_on(&script, 21, 9).unwrap();
    assert_eq!((first.taken, rest.taken), (21, 1));
    assert_eq!(rest.report, b"22 E1 NotDecoded\n");
    assert!([first.report, rest.report].concat() == whole);
}

#[test]
fn bad_scripts_tell_where() {
    assert_eq!(assemble("frame\nmove 1"), Err(Error::BadLine(2)));
    assert_eq!(run(b"VGAS\x01\x63", fonts()), Err(Error::BadStep(5)));
    assert_eq!(run(b"VGAS", fonts()), Err(Error::Truncated(4)));
    assert_eq!(run(b"", fonts()), Err(Error::BadMagic));
    assert_eq!(run(fonts(), fonts()), Err(Error::BadMagic));
    assert_eq!(run(b"VGAS\x01", &[]), Err(Error::FontSize));
    assert_eq!(zaklimot::disassemble(b"VGAS\x07"), Err(Error::BadVersion));
    let mut card = card_in(0x0003);
    let state = card.save().unwrap();
    assert_eq!(card.run_on(b"VGAS\x01\x0b\x63", 0, 1), Err(Error::BadStep(6)));
    assert_eq!(card.save().unwrap(), state);
}

#[test]
fn cards_go_to_other_threads() {
    let draw = |mut card: Card, value: u8| {
        card.put(0xA0000, value).unwrap();
        let red = card.frame().unwrap().dot(0, 0)[0];
        (card, red)
    };
    let threads: Vec<_> = [(0x0F, 63), (0x04, 42), (0x00, 0)]
        .into_iter()
        .map(|(value, red)| {
            let card = card_in(0x0013);
            (red, thread::spawn(move || draw(card, value)))
        })
        .collect();
    for (red, thread) in threads {
        let (mut card, drawn) = thread.join().unwrap();
        assert_eq!(drawn, red);
        assert_eq!(card.frame().unwrap().dot(0, 0)[0], red);
    }
}
