//! The wrapper against include/codremif.h: the refusals have the same numbers, names and words, what is said of a set has the
//! same numbers and names, as many bytes are enough, the same number stands for no place, and the library is of the header's
//! version.

#![deny(warnings)]

use std::fmt::Debug;
use std::path::Path;

use codremif_host::answer::{Reason, Said};
use codremif_host::calls;

fn header() -> String {
    let path = Path::new(env!("CARGO_MANIFEST_DIR")).join("../../include/codremif.h");
    std::fs::read_to_string(&path).unwrap_or_else(|error| panic!("{}: {error}", path.display()))
}

/// `LINE_DUE` for `LineDue`.
fn c_name(rust_name: impl Debug) -> String {
    let mut name = String::new();
    for letter in format!("{rust_name:?}").chars() {
        if letter.is_uppercase() && !name.is_empty() {
            name.push('_');
        }
        name.push(letter.to_ascii_uppercase());
    }
    name
}

/// The names and numbers of an enum.
fn numbers(header: &str, enumeration: &str) -> Vec<(String, u8)> {
    let enumeration = between(header, &format!("enum {enumeration} {{"), "};");
    let lines = enumeration.lines().filter_map(|line| line.trim().strip_prefix("CODREMIF_"));
    lines
        .map(|line| {
            let (name, number) = line.split_once(" = ").expect("a name and a number");
            (name.to_string(), number.trim_end_matches(',').parse().expect("a number"))
        })
        .collect()
}

/// The words of a name: the strings of its case, put together.
fn words(header: &str, name: &str) -> String {
    let returned = between(header, &format!("case CODREMIF_{name}: return"), ";\n");
    returned.split('"').skip(1).step_by(2).collect()
}

fn between<'text>(text: &'text str, start: &str, end: &str) -> &'text str {
    let (_, rest) = text.split_once(start).unwrap_or_else(|| panic!("the header has no {start}"));
    rest.split_once(end).expect("an end").0
}

#[test]
fn refusals() {
    let header = header();
    let mut expected = vec![("ACCEPTED".to_string(), 0)];
    expected.extend(Reason::ALL.map(|reason| (c_name(reason), reason.number())));
    assert_eq!(numbers(&header, "codremif_refusal"), expected, "header left, wrapper right");
    for reason in Reason::ALL {
        assert_eq!(words(&header, &c_name(reason)), reason.words(), "header left, wrapper right");
    }
}

#[test]
fn what_is_said_of_a_set() {
    let expected: Vec<_> = (0..).zip(Said::ALL).map(|(number, said)| (c_name(said), number)).collect();
    assert_eq!(numbers(&header(), "codremif_lookup"), expected, "header left, wrapper right");
}

#[test]
fn bytes_that_are_enough() {
    let header = header();
    for (name, bytes) in [("MARK", calls::MARK_BYTES), ("LIST", calls::LIST_BYTES)] {
        let stated = between(&header, &format!("#define CODREMIF_{name}_BYTES "), "\n");
        assert_eq!(stated, bytes.to_string(), "header left, wrapper right");
    }
}

/// The wrapper takes 2^64 - 1 for none.
#[test]
fn no_place() {
    let header = header();
    for name in ["WITNESS", "PLACE"] {
        assert_eq!(between(&header, &format!("#define CODREMIF_NO_{name} "), "\n"), "((uint64_t)-1)");
    }
}

#[test]
fn version() {
    let header = header();
    let stated = between(&header, "#define CODREMIF_VERSION ", "\n");
    assert_eq!(calls::version().to_string(), stated, "library left, header right");
}
