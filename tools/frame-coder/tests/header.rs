//! The C header says the same as this crate: its version, its constants, its refusals and its functions.

use frame_coder::{
    Account, Refusal, MAX_COORDINATE, MAX_FRAME_LENGTH, MAX_FREE, MAX_MESSAGE_LENGTH, MAX_RECORD_LENGTH, VERSION,
};

const HEADER: &str = include_str!("../../../crates/frame_coder/frame_coder.h");
const ARCHIVE: &str = include_str!("../src/archive.rs");

/// What the header defines a name as.
fn defined(name: &str) -> &'static str {
    let lines = HEADER.lines().filter_map(|line| line.strip_prefix("#define "));
    let mut words = lines.map(|line| line.split_whitespace()).filter_map(|mut words| words.next().zip(words.next()));
    words.find(|(first, _)| *first == name).expect("the header defines it").1
}

#[test]
fn constants() {
    assert_eq!(defined("FRAME_CODER_VERSION"), format!("{VERSION:?}"));
    assert_eq!(defined("CODER_MAX_MESSAGE_LENGTH"), MAX_MESSAGE_LENGTH.to_string());
    assert_eq!(defined("CODER_MAX_FRAME_LENGTH"), MAX_FRAME_LENGTH.to_string());
    assert_eq!(defined("CODER_MAX_RECORD_LENGTH"), MAX_RECORD_LENGTH.to_string());
    assert_eq!(defined("CODER_MAX_COORDINATE"), MAX_COORDINATE.to_string());
    assert_eq!(defined("CODER_MAX_FREE"), MAX_FREE.to_string());
    assert_eq!(defined("CODER_MAX_COUNT"), Account::MAX_COUNT.to_string());
}

#[test]
fn refusals() {
    let entries = HEADER.lines().filter_map(|line| line.trim().strip_prefix("CODER_REFUSED_")?.split_once(" = "));
    let entries = entries.map(|(name, rest)| {
        let number: String = rest.chars().take_while(char::is_ascii_digit).collect();
        (name.replace('_', "").to_lowercase(), number)
    });
    let own = Refusal::ALL.iter().map(|refusal| (format!("{refusal:?}").to_lowercase(), refusal.number().to_string()));
    assert!(entries.eq(own));
}

/// The declarations that begin with these words, up to the next semicolon: the name, and the parameters.
fn declared<'a>(text: &'a str, begin: &'a str) -> impl Iterator<Item = (&'a str, Vec<String>)> {
    text.split(begin).skip(1).filter_map(|rest| rest.split(';').next()?.split_once('(')).map(|(name, rest)| {
        let list = rest.split(')').next().unwrap_or("");
        let parameters = list.split(',').map(|one| one.split_whitespace().collect::<Vec<_>>().join(" "));
        (name, parameters.filter(|one| !one.is_empty()).collect())
    })
}

/// A parameter of C as Rust writes it.
fn in_rust(parameter: &str) -> String {
    let (of, name) = parameter.rsplit_once(' ').expect("a parameter has a type and a name");
    let (constant, of) = of.strip_prefix("const ").map_or((false, of), |of| (true, of));
    let own = match of {
        "uint8_t" => "u8",
        "int32_t" => "i32",
        "uint32_t" => "u32",
        "uint64_t" => "u64",
        "size_t" => "usize",
        "float" => "f32",
        "double" => "f64",
        other => panic!("{other} in the header"),
    };
    match (name.strip_prefix('*'), constant) {
        (Some(name), true) => format!("{name}: *const {own}"),
        (Some(name), false) => format!("{name}: *mut {own}"),
        (None, _) => format!("{name}: {own}"),
    }
}

#[test]
fn functions() {
    // Those that answer, and behind them the one that gives a length.
    let header = declared(HEADER, "\nint64_t ").chain(declared(HEADER, "\nsize_t "));
    let header = header.map(|(name, parameters)| (name, parameters.iter().map(|one| in_rust(one)).collect()));
    let header: Vec<(&str, Vec<String>)> = header.collect();
    assert!(!header.is_empty());
    assert_eq!(header, declared(ARCHIVE, "pub fn ").collect::<Vec<_>>());
}
