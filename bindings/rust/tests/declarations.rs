//! The header and the declarations in Rust are those of the library's source: the same six functions with the same parameters
//! in the same order.

use std::collections::BTreeMap;

const LIBRARY: &str = include_str!("../../../crates/pirwodd_c/src/lib.rt");
const HEADER: &str = include_str!("../../../include/pirwodd.h");
const RUST: &str = include_str!("../src/lent.rs");
/// The tests that compare the library with others declare its functions once more.
const COMPARE: &str = include_str!("../../../tests/compare/src/library.rs");

/// The functions that are found behind a word, by name, each with its parameters: the text between the parentheses.
fn functions<'a>(text: &'a str, before: &str) -> BTreeMap<&'a str, Vec<String>> {
    let found = text.split(before).skip(1).map(|rest| {
        let (name, rest) = rest.split_once('(').expect("parameters");
        let (parameters, _) = rest.split_once(')').expect("an end of parameters");
        let parameters = parameters.split(',').map(|parameter| parameter.trim().replace('\n', " "));
        (name, parameters.filter(|parameter| !parameter.is_empty()).collect())
    });
    found.filter(|(name, _)| name.starts_with("pirwodd_")).collect()
}

/// A parameter of the source, with its slices as pointer and length, in another language. In a contract `result` is what a
/// function hands back, so that a parameter of that name is `res` in the source.
fn passed(parameter: &str, number: fn(&str) -> String, pointer: fn(&str, &str) -> [String; 2]) -> Vec<String> {
    let (name, kind) = parameter.split_once(": ").expect("a name and a type");
    let name = if name == "res" { "result" } else { name };
    match kind {
        "u64" => vec![number(name)],
        slice => pointer(name, slice).to_vec(),
    }
}

fn in_c(parameter: &str) -> Vec<String> {
    let number = |name: &str| format!("uint64_t {name}");
    passed(parameter, number, |name, slice| {
        let kind = match slice {
            "&[u8]" => "const uint8_t *",
            "&mut [u8]" => "uint8_t *",
            "&mut [u64]" => "uint64_t *",
            _ => panic!("a parameter of another type: {slice}"),
        };
        [format!("{kind}{name}"), format!("size_t {name}_length")]
    })
}

fn in_rust(parameter: &str) -> Vec<String> {
    let number = |name: &str| format!("{name}: u64");
    passed(parameter, number, |name, slice| {
        let kind = match slice {
            "&[u8]" => "*const u8",
            "&mut [u8]" => "*mut u8",
            "&mut [u64]" => "*mut u64",
            _ => panic!("a parameter of another type: {slice}"),
        };
        [format!("{name}: {kind}"), format!("{name}_length: usize")]
    })
}

fn source(turn: fn(&str) -> Vec<String>) -> BTreeMap<&'static str, Vec<String>> {
    let functions = functions(LIBRARY, "pub extern \"C\" fn ");
    assert_eq!(functions.len(), 6);
    functions
        .into_iter()
        .map(|(name, parameters)| (name, parameters.iter().flat_map(|parameter| turn(parameter)).collect()))
        .collect()
}

#[test]
fn the_header() {
    assert_eq!(functions(HEADER, "\nuint32_t "), source(in_c));
}

#[test]
fn the_declarations_in_rust() {
    assert_eq!(functions(RUST, "    fn "), source(in_rust));
    assert_eq!(functions(COMPARE, "    fn "), source(in_rust));
}

/// Each is handed back a number of 32 bits.
#[test]
fn what_is_handed_back() {
    let calls = LIBRARY.split("pub extern \"C\" fn ").skip(1);
    assert!(calls.clone().all(|call| call[call.find(')').unwrap()..].starts_with(") -> u32\n")));
    assert!([RUST, COMPARE].iter().all(|text| text.matches("    ) -> u32;").count() == 6));
    assert_eq!(HEADER.matches("\nuint32_t pirwodd_").count(), 6);
}
