//! The declarations of this crate against the header, text against text.

use std::collections::BTreeSet;
use std::fmt::Write;

// The crate's own copy, so that the test runs in a packed crate too.
const HEADER: &str = include_str!("../portable/zaklimot.h");
const SOURCE: &str = include_str!("../src/lib.rs");

/// The header without its comments.
fn header() -> String {
    let mut text = String::new();
    let mut rest = HEADER;
    while let Some((before, after)) = rest.split_once("/*") {
        text.push_str(before);
        rest = after.split_once("*/").expect("a comment ends").1;
    }
    text + rest
}

/// A text with one blank in the place of each run of them, and no comma before a parenthesis.
fn plain(text: &str) -> String {
    let words: Vec<&str> = text.split_whitespace().collect();
    words.join(" ").replace("( ", "(").replace(", )", ")")
}

/// The lines of this crate that are no comments, as one text.
fn source() -> String {
    let lines = SOURCE.lines().filter(|line| !line.trim_start().starts_with("//"));
    plain(&lines.collect::<Vec<_>>().join("\n"))
}

/// The name of a type in Rust.
fn kind(name: &str) -> String {
    match name {
        "uint8_t" => "u8".into(),
        "uint16_t" => "u16".into(),
        "uint32_t" => "u32".into(),
        "size_t" => "usize".into(),
        "void" => "c_void".into(),
        other => other.into(),
    }
}

/// A parameter of C in Rust.
fn parameter(given: &str) -> String {
    let given = given.trim();
    // An array is a pointer.
    let given = match given.split_once('[') {
        Some((before, _)) => before.replacen(' ', " *", 1),
        None => given.to_string(),
    };
    let (is_const, given) = match given.strip_prefix("const ") {
        Some(rest) => (true, rest.to_string()),
        None => (false, given),
    };
    if let Some((name, word)) = given.split_once('*') {
        let pointer = if is_const { "*const" } else { "*mut" };
        return format!("{}: {pointer} {}", word.trim(), kind(name.trim()));
    }
    let (name, word) = given.rsplit_once(' ').expect("a type and a name");
    format!("{word}: {}", kind(name.trim()))
}

/// The declarations of all calls.
fn calls() -> Vec<String> {
    let header = header();
    let parts =
        header.split(';').map(plain).filter(|part| part.contains(" zak_") && part.ends_with(')'));
    let mut found = Vec::new();
    for part in parts {
        let begin = ["zak_status zak_", "uint32_t zak_"]
            .iter()
            .filter_map(|word| part.rfind(word))
            .max()
            .unwrap_or_else(|| panic!("no call: {part}"));
        let (answer, rest) = part[begin..].split_once(' ').expect("what it answers");
        let (name, given) = rest.split_once('(').expect("parameters");
        let given = given.trim_end_matches(')');
        let parameters: Vec<String> = match given {
            "void" => Vec::new(),
            _ => given.split(',').map(parameter).collect(),
        };
        found.push(format!("pub fn {name}({}) -> {};", parameters.join(", "), kind(answer)));
    }
    found
}

/// The fields of a struct, from its lines in C.
fn fields(body: &str) -> String {
    let mut text = String::new();
    for line in body.split(';').map(plain).filter(|line| !line.is_empty()) {
        let line = line.replace("void *", "pointer ");
        let (name, words) = line.split_once(' ').expect("a type and names");
        let name = if name == "pointer" { "*mut c_void".into() } else { kind(name) };
        for word in words.split(',').map(str::trim) {
            match word.split_once('[') {
                Some((word, count)) => {
                    write!(text, "pub {word}: [{name}; {}], ", count.trim_end_matches(']'))
                }
                None => write!(text, "pub {word}: {name}, "),
            }
            .expect("a text takes more");
        }
    }
    text
}

/// The declarations of all structs.
fn structs() -> Vec<String> {
    let header = header();
    let mut found = Vec::new();
    for part in header.split("typedef struct ").skip(1) {
        let (name, rest) = part.split_once('{').expect("a body");
        let (body, _) = rest.split_once('}').expect("its end");
        found.push(format!("pub struct {} {{ {}}}", name.trim(), fields(body)));
    }
    found
}

/// The declarations of all statuses.
fn statuses() -> Vec<String> {
    let header = header();
    let (_, rest) = header.split_once("enum {").expect("the statuses");
    let (body, _) = rest.split_once('}').expect("their end");
    let lines = body.split(',').map(plain).filter(|line| !line.is_empty());
    lines
        .map(|line| format!("pub const {}: zak_status = {};", words(&line).0, words(&line).1))
        .collect()
}

fn words(line: &str) -> (String, String) {
    let (name, value) = line.split_once(" = ").expect("a name and a number");
    (name.to_string(), value.to_string())
}

#[test]
fn calls_are_the_headers() {
    let (source, calls) = (source(), calls());
    assert!(calls.len() > 40, "{} calls were read", calls.len());
    for call in &calls {
        assert!(source.contains(call.as_str()), "the crate lacks\n{call}");
    }
    assert_eq!(source.matches("pub fn zak_").count(), calls.len());
}

#[test]
fn structs_are_the_headers() {
    let (source, structs) = (source(), structs());
    assert_eq!(structs.len(), 22);
    for one in &structs {
        assert!(source.contains(one.as_str()), "the crate lacks\n{one}");
    }
    assert_eq!(source.matches("pub struct zak_").count(), structs.len());
    assert_eq!(source.matches("#[repr(C)]").count(), structs.len());
}

#[test]
fn statuses_are_the_headers() {
    let (source, statuses) = (source(), statuses());
    assert!(statuses.len() > 30);
    for one in &statuses {
        assert!(source.contains(one.as_str()), "the crate lacks\n{one}");
    }
    assert_eq!(source.matches(": zak_status = ").count(), statuses.len());
}

/// The numbers that the header names in its enums, but for the statuses, which are in the first.
fn named() -> Vec<String> {
    let header = header();
    let bodies =
        header.split("enum {").skip(2).map(|rest| rest.split_once('}').expect("its end").0);
    let lines = bodies.flat_map(|body| body.split(',').map(plain)).filter(|line| !line.is_empty());
    lines.map(|line| format!("pub const {}: u32 = {};", words(&line).0, words(&line).1)).collect()
}

/// The numbers that the header defines, those that others are made of in their place.
#[test]
fn numbers_are_the_headers() {
    let header = header();
    let mut known: Vec<(String, u32)> = Vec::new();
    for line in header.lines().filter_map(|line| line.strip_prefix("#define ZAK_")) {
        let (name, value) = line.split_once(' ').unwrap_or((line, ""));
        if let Some(number) = product(&known, value) {
            known.push((name.to_string(), number));
        }
    }
    let source = source();
    let own: BTreeSet<String> = known
        .iter()
        .map(|(name, number)| format!("pub const ZAK_{name}: u32 = {number};"))
        .chain(named())
        .collect();
    assert!(own.len() >= 67, "{own:?}");
    for one in &own {
        assert!(source.contains(one.as_str()), "the crate lacks\n{one}");
    }
    assert_eq!(source.matches(": u32 = ").count(), own.len());
}

/// The value of a product, or of a sum of two, as the header has them.
fn product(known: &[(String, u32)], text: &str) -> Option<u32> {
    let text = text.trim().trim_start_matches('(').trim_end_matches(')');
    if let Some((left, right)) = text.split_once('+') {
        return Some(product(known, left)? + product(known, right)?);
    }
    text.split('*').map(|word| number(known, word.trim())).product()
}

fn number(known: &[(String, u32)], word: &str) -> Option<u32> {
    if let Some(name) = word.strip_prefix("ZAK_") {
        return known.iter().find(|(own, _)| own == name).map(|(_, value)| *value);
    }
    let digits = word.trim_end_matches('u');
    match digits.strip_prefix("0x") {
        Some(digits) => u32::from_str_radix(digits, 16).ok(),
        None => digits.parse().ok(),
    }
}
