//! What a card says of itself: each reason of a refusal, dots, cycles of memory, texts, and states
//! that are rebuilt.

use zaklimot::Direction::Up;
use zaklimot::{assemble, explain_text, Card, Error, Group, MistakeKind, Part, Reason, Regs, Why};

fn card_in(mode: u16) -> Card {
    let mut card = Card::new().unwrap();
    card.int10(Regs::ax(mode), &[]).unwrap();
    card
}

/// Why a step is refused after others, which are taken at power-on. The step is then taken: it is
/// refused, changes nothing, and has the same reason afterwards.
fn reason_after(before: &str, step: &str) -> Reason {
    let mut card = Card::new().unwrap();
    card.run_on(&assemble(before).unwrap(), 0, u32::MAX).unwrap();
    let (state, script) = (card.save().unwrap(), assemble(step).unwrap());
    let reason = card.explain_step(&script, 0).unwrap().expect(step);
    let report = card.run_on(&script, 0, 1).unwrap().report;
    let line = format!("1 E{} {:?}\n", reason.error.number(), reason.error);
    assert_eq!(String::from_utf8(report).unwrap(), line, "{step}");
    assert_eq!(card.explain_step(&script, 0).unwrap().as_ref(), Some(&reason), "{step}");
    assert!(card.save().unwrap() == state, "{step}");
    assert!(reason.text.ends_with('.') && reason.to_string() == reason.text, "{step}");
    reason
}

/// The same of steps that have no high byte, or whose low byte is refused.
fn why(before: &str, step: &str) -> Why {
    let reason = reason_after(before, step);
    assert!(!reason.is_high, "{step}");
    reason.why
}

#[test]
fn ports_are_refused_for_a_reason() {
    let (text, port) = ("int ax=3", 0x3B4);
    assert_eq!(why("", "out 60 1"), Why::NoPort { port: 0x60 });
    assert_eq!(why(text, "out 3B4 0"), Why::OtherCrtController { port, base: 0x3D4, there: 0x3D4 });
    let read = Why::OtherCrtController { port: 0x3DA, base: 0x3B4, there: 0x3BA };
    assert_eq!(why("int ax=7", "in 3DA"), read);
    assert_eq!(why("", "out 3C1 0"), Why::ReadOnly { port: 0x3C1 });
    for (step, port, part) in [
        ("in 3C2", 0x3C2, Part::InputStatus0),
        ("out 3C3 1", 0x3C3, Part::SubsystemEnable),
        ("in 3C7", 0x3C7, Part::DacState),
        ("out 3DA 0", 0x3DA, Part::FeatureControl),
    ] {
        assert_eq!(why(text, step), Why::PortLeftOut { port, part }, "{step}");
    }
    assert_eq!(reason_after("", "outw FFFF 0").why, Why::LastPort);
}

#[test]
fn registers_are_refused_for_a_reason() {
    for (before, step, group, index, last) in [
        ("out 3C4 7", "in 3C5", Group::Sequencer, 7, 4),
        ("out 3CE B", "out 3CF 0", Group::GraphicsController, 0x0B, 8),
        ("int ax=3\nout 3D4 1F", "in 3D5", Group::CrtController, 0x1F, 0x18),
        ("int ax=3\nin 3DA\nout 3C0 15", "in 3C1", Group::AttributeController, 0x15, 0x14),
    ] {
        assert_eq!(why(before, step), Why::NoRegister { group, index, last }, "{step}");
    }
    let (group, crtc) = (Group::GraphicsController, Group::CrtController);
    let shift = reason_after("", "outw 3CE 2005");
    assert_eq!(shift.why, Why::BitLeftOut { group, index: 5, bit: 5, value: 0x20 });
    assert!(shift.is_high && shift.error == Error::NotInProfile);
    let count = Why::BitLeftOut { group: crtc, index: 0x14, bit: 5, value: 0x28 };
    assert_eq!(reason_after("int ax=3", "outw 3D4 2814").why, count);
    let mode = Why::FieldLeftOut { group: crtc, index: 0x17, high: 3, low: 0, wanted: 3 };
    assert_eq!(reason_after("int ax=3", "outw 3D4 17").why, mode);
}

#[test]
fn addresses_are_refused_for_a_reason() {
    let off = reason_after("", "put A0000 1");
    assert_eq!((off.why, off.error), (Why::MemoryOff { address: 0xA0000 }, Error::NotDecoded));
    let outside = Why::OutsideWindow { address: 0xA0000, map: 3, first: 0xB8000, last: 0xBFFFF };
    assert_eq!(why("int ax=3", "get A0000"), outside);
    let high = reason_after("int ax=13", "putw AFFFF 0");
    let past = Why::OutsideWindow { address: 0xB0000, map: 1, first: 0xA0000, last: 0xAFFFF };
    assert_eq!((high.why, high.is_high), (past, true));
    assert_eq!(reason_after("int ax=3", "getw FFFFFFFF").why, Why::LastAddress);
}

#[test]
fn calls_are_refused_for_a_reason() {
    let text = "int ax=3";
    assert_eq!(why("", "int ax=E41"), Why::NoModeSet { function: 0x0E });
    let service = Why::NoService { function: 0x99, al: 1, bl: 2 };
    assert_eq!(why(text, "int ax=9901 bx=2"), service);
    assert_eq!(why("", "int ax=4"), Why::NoSuchMode { mode: 4 });
    assert_eq!(why(text, "int ax=C01"), Why::NoPixels { mode: 3 });
    assert_eq!(why("int ax=13", "int ax=1111"), Why::NoCharacterMap { mode: 0x13 });
    assert_eq!(why(text, "int ax=508"), Why::NoPage { page: 8, pages: 8 });
    assert_eq!(why(text, "int ax=1000 bx=10"), Why::NoPaletteRegister { register: 0x10 });
    assert_eq!(why(text, "int ax=1003 bx=2"), Why::NoBlinking { value: 2 });
    assert_eq!(why(text, "int ax=1010 bx=100"), Why::NoEntry { entry: 0x100 });
    let entries = "int ax=1012 bx=FF cx=2 block 000000000000";
    assert_eq!(why(text, entries), Why::NoEntries { count: 2, first: 0xFF });
    assert_eq!(why(text, "int ax=1012 cx=1 block 0000"), Why::WrongBlock { len: 2, wanted: 3 });
    let height = "int ax=1110 bx=900 cx=1 block 000000000000000000";
    assert_eq!(why(text, height), Why::NoHeight { height: 9, mode: 3 });
}

#[test]
fn places_are_refused_for_a_reason() {
    let cursor = Why::CursorOutside { page: 0, cell: 25 * 80 + 80, cells: 2000 };
    assert_eq!(why("int ax=3\nint ax=200 dx=1950", "int ax=800"), cursor);
    let position = Why::PositionOutside { row: 24, column: 81, rows: 25, columns: 80 };
    assert_eq!(why("int ax=3", "int ax=1300 cx=1 dx=1851 block 41"), position);
    let pixel = Why::PixelOutside { x: 320, y: 199, width: 320, height: 200 };
    assert_eq!(why("int ax=13", "int ax=C01 cx=140 dx=C7"), pixel);
    let cells = Why::CellsPast { count: 81, first: 24 * 80, cells: 2000 };
    assert_eq!(why("int ax=3\nint ax=200 dx=1800", "int ax=941 cx=51"), cells);
    let glyphs = format!("int ax=1110 bx=800 cx=2 dx=FF block {}", "00".repeat(16));
    assert_eq!(why("int ax=3", &glyphs), Why::GlyphsPast { count: 2, first: 0xFF });
}

#[test]
fn other_steps_are_refused_for_a_reason() {
    let dots = Why::TooManyDots { dots: 16_777_217, most: 16_777_216 };
    assert_eq!(why("", "advance 16777217"), dots);
    assert_eq!(why("", "show cells"), Why::NoCellsYet);
    assert_eq!(why("int ax=13", "show cells"), Why::NoCells { mode: 0x13 });
}

#[test]
fn steps_that_are_done_have_no_reason() {
    let (mut card, script) = (card_in(3), assemble("frame\nout 60 1").unwrap());
    assert_eq!(card.explain_step(&script, 0), Ok(None));
    let reason = card.explain_step(&script, 1).unwrap().unwrap();
    assert_eq!(reason.text, "No part of the adapter decodes port 060.");
    assert_eq!(card.explain_step(&script, 2), Err(Error::BadArgument));
    assert_eq!(card.explain_step(b"VGAX\x01", 0), Err(Error::BadMagic));
    assert_eq!(card.explain_step(b"VGAS\x01\x0B\xFF", 0), Err(Error::BadStep(6)));
    assert_eq!(card.explain_step(b"VGAS\x01\x0B\x01", 0), Err(Error::Truncated(6)));
}

/// Lets a line pass dot by dot, and compares its dots with those that are told.
fn compare_line(card: &mut Card) {
    let (line, mut told) = (card.beam().unwrap().line, Vec::new());
    while card.beam().unwrap().line == line {
        let beam = card.beam().unwrap();
        let source = card.explain_dot(beam).unwrap();
        if source.is_display {
            told.extend([source.colour.red, source.colour.green, source.colour.blue]);
        }
        assert_eq!(source.entry, source.number & source.mask);
        card.advance(1).unwrap();
    }
    let drawn = card.peek().unwrap();
    assert_eq!(drawn.iter().nth(usize::from(line)), Some(&told[..]));
}

#[test]
fn dots_are_drawn_as_they_are_explained() {
    for (mode, window) in [(3, 0xB8000), (0x12, 0xA0000), (0x13, 0xA0000)] {
        let mut card = card_in(mode);
        let bytes: Vec<u8> = (0..4000u32).map(|at| (at * at / 5).to_le_bytes()[0]).collect();
        card.put_bytes(window, &bytes, Up).unwrap();
        card.frame().unwrap();
        for _ in 0..3 {
            compare_line(&mut card);
        }
    }
}

#[test]
fn a_dot_has_parts_by_its_mode() {
    let mut card = card_in(3);
    card.put_word(0xB8000, 0x1E41).unwrap();
    let beam = card.beam().unwrap();
    let source = card.explain_dot(beam).unwrap();
    let (text, palette) = (source.text.unwrap(), source.palette.unwrap());
    assert_eq!((text.cell.character, text.cell.attribute), (0x41, 0x1E));
    assert_eq!((text.is_glyph_dot, text.is_foreground, text.glyph_address), (false, false, 0x820));
    assert_eq!((palette.nibble, palette.register, palette.value), (1, 1, 1));
    assert_eq!((source.address, source.bytes[0], source.bytes[1]), (0, 0x41, 0x1E));
    assert!(source.is_display && source.is_palette_shown && !source.is_screen_off);
    assert_eq!(source.colour, card.colour(1).unwrap());
    let mut packed = card_in(0x13);
    packed.put(0xA0000, 7).unwrap();
    let source = packed.explain_dot(beam).unwrap();
    assert_eq!((source.text, source.palette, source.number), (None, None, 7));
    for beam in [
        zaklimot::Beam { line: 1025, ..beam },
        zaklimot::Beam { character: 260, ..beam },
        zaklimot::Beam { dot: 9, ..beam },
        zaklimot::Beam { scan: 32, ..beam },
        zaklimot::Beam { frame: 32, ..beam },
    ] {
        assert_eq!(card.explain_dot(beam), Err(Error::BadArgument));
    }
}

#[test]
fn cycles_of_memory_do_what_their_stages_say() {
    let mut card = card_in(0x12);
    card.put(0xA0005, 0xF0).unwrap();
    card.get(0xA0005).unwrap();
    for (write_mode, value) in [(0, 0x3C), (1, 0x3C), (2, 0x05), (3, 0x3C)] {
        card.out_word(0x3CE, 256 * write_mode + 5).unwrap();
        card.out_word(0x3CE, 0x1903).unwrap(); // XOR, rotated by 1
        card.out_word(0x3CE, 0x7E08).unwrap();
        card.out_word(0x3C4, 0x0602).unwrap();
        let state = card.save().unwrap();
        let stages = card.explain_put(0xA0007, value).unwrap();
        assert!(card.save().unwrap() == state);
        assert_eq!((stages.offset, stages.in_window, stages.planes), (7, 7, 6));
        assert_eq!(
            (u16::from(stages.write_mode), stages.rotated),
            (write_mode, value.rotate_right(1))
        );
        card.put(0xA0007, value).unwrap();
        for plane in 0..4u8 {
            let (at, mut byte) = (usize::from(plane), [0]);
            card.plane(plane, 7, &mut byte).unwrap();
            let is_reached = stages.planes >> plane & 1 == 1;
            let left = if is_reached { stages.written[at] } else { stages.before[at] };
            assert_eq!(byte, [left], "write mode {write_mode}, plane {plane}");
        }
    }
    assert_eq!(card.explain_put(0xC0000, 1), Err(Error::NotDecoded));
}

#[test]
fn reads_return_what_their_stages_say() {
    let mut card = card_in(0x12);
    for (plane, value) in [(1, 0x11), (2, 0x22), (4, 0x44), (8, 0x88)] {
        card.out_word(0x3C4, 256 * plane + 2).unwrap();
        card.put(0xA0009, value).unwrap();
    }
    card.get(0xA0000).unwrap();
    for (index, value, is_compare) in [(4, 2, false), (5, 8, true)] {
        card.out_word(0x3CE, 256 * value + index).unwrap();
        let (state, stages) = (card.save().unwrap(), card.explain_get(0xA0009).unwrap());
        assert!(card.save().unwrap() == state);
        assert_eq!((stages.offset, stages.in_window, stages.plane), (9, 9, 2));
        assert_eq!((stages.loaded, stages.is_compare), ([0x11, 0x22, 0x44, 0x88], is_compare));
        assert_eq!(card.get(0xA0009), Ok(stages.value));
        assert_eq!(card.latches().unwrap().plane, stages.loaded);
    }
    assert_eq!(card.explain_get(0xC0000), Err(Error::NotDecoded));
}

#[test]
fn mistakes_have_a_line_a_part_and_a_kind() {
    for (text, line, part, kind) in [
        ("frame\n\x01 in 3CC", 2, 0..1, MistakeKind::Character),
        ("move 3C4 02", 1, 0..4, MistakeKind::Step),
        ("\nout 3C4 102", 2, 8..11, MistakeKind::Number),
        ("frame 2", 1, 6..7, MistakeKind::Form),
        ("show cell", 1, 5..9, MistakeKind::Show),
    ] {
        let mistake = explain_text(text).unwrap().expect(text);
        let told = (mistake.line, mistake.part.clone(), mistake.kind);
        assert_eq!(told, (Some(line), part, kind), "{text}");
        assert_eq!(assemble(text), Err(Error::BadLine(line)));
        assert_eq!(mistake.to_string(), format!("line {line}: {}", mistake.sentence));
        assert!(!mistake.sentence.is_empty() && !mistake.sentence.ends_with('.'), "{text}");
    }
    for (text, kind) in [
        ("out 3C4 02 // index", MistakeKind::Comment),
        ("int ex=3", MistakeKind::Call),
        ("int ax=1012 block 010", MistakeKind::Block),
        ("version 2\nend", MistakeKind::Order),
    ] {
        assert_eq!(explain_text(text).unwrap().map(|mistake| mistake.kind), Some(kind), "{text}");
    }
    assert_eq!(explain_text("frame ; a comment"), Ok(None));
    let long = explain_text("\n".repeat(16_777_217)).unwrap().unwrap();
    assert_eq!((long.line, long.part, long.kind), (None, 0..0, MistakeKind::LongText));
}

#[test]
fn states_are_rebuilt() {
    let mut card = card_in(0x13);
    let noise: Vec<u8> = (0..64_000u32).map(|at| (at * at / 7).to_le_bytes()[0]).collect();
    card.put_bytes(0xA0000, &noise, Up).unwrap();
    card.frame().unwrap();
    for are_dots_other in [false, true] {
        let state = card.save().unwrap();
        let rebuilt = card.rebuild().unwrap();
        assert_eq!(rebuilt.are_dots_other, are_dots_other);
        assert!(card.save().unwrap() == state);
        let mut other = Card::new().unwrap();
        other.run_on(&rebuilt.script, 0, u32::MAX).unwrap();
        assert_eq!(other.save().unwrap() == state, !are_dots_other);
        assert_eq!((other.registers(), other.beam()), (card.registers(), card.beam()));
        // Another colour than that in which the dots of these lines are drawn.
        card.advance(10_000).unwrap();
        for byte in [63, 0, 0] {
            card.out(0x3C9, byte).unwrap();
        }
        card.fill(0xA0000, 0, 64_000, Up).unwrap();
    }
}

#[test]
fn states_that_no_steps_lead_to_are_not_rebuilt() {
    let mut card = card_in(3);
    let mut state = card.save().unwrap();
    state[41 + 0x14] |= 0x20; // a bit of underline location that the adapter refuses
    card.restore(&state).unwrap();
    assert_eq!(card.rebuild(), Err(Error::NotRebuilt));
    assert!(card.save().unwrap() == state);
}
