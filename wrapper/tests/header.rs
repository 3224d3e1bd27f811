//! include/clight.h and the wrapper have the same causes, endings and limits,
//! with the same numbers.

use clight::{CAUSES, ENDINGS};

const HEADER: &str = include_str!("../../include/clight.h");

/// The names of an enum of the header, each with its number.
fn members(name: &str) -> Vec<(String, usize)> {
    let start = HEADER.find(&format!("enum {name} {{")).expect(name);
    let body = &HEADER[start..start + HEADER[start..].find("};").unwrap()];
    body.lines()
        .filter_map(|line| line.trim().strip_prefix("CLIGHT_")?.split_once(" = "))
        .map(|(member, rest)| {
            let digits: String = rest.chars().take_while(char::is_ascii_digit).collect();
            (member.to_string(), digits.parse().unwrap())
        })
        .collect()
}

/// `RowCount` as `ROW_COUNT`.
fn in_capitals(name: &str) -> String {
    let mut words = String::new();
    for letter in name.chars() {
        if letter.is_uppercase() && !words.is_empty() {
            words.push('_');
        }
        words.push(letter.to_ascii_uppercase());
    }
    words
}

#[test]
fn endings_agree() {
    let own = ENDINGS.iter().enumerate().map(|(number, (_, word))| (word.to_uppercase(), number));
    assert_eq!(members("clight_ending"), own.collect::<Vec<_>>());
    assert!(ENDINGS.iter().enumerate().all(|(number, (ending, _))| *ending as usize == number));
}

#[test]
fn causes_agree() {
    let done = std::iter::once(("DONE".to_string(), 0));
    let own = CAUSES.iter().map(|cause| (in_capitals(&format!("{cause:?}")), *cause as usize));
    assert_eq!(members("clight_cause"), done.chain(own).collect::<Vec<_>>());
}

#[test]
fn limits_agree() {
    let own = [
        ("ROW_WORDS", clight::ROW_WORDS),
        ("LINE_WORDS", 5),
        ("SOURCE_HEADER_WORDS", clight::SOURCE_HEADER_WORDS),
        ("KERNEL_HEADER_WORDS", clight::KERNEL_HEADER_WORDS),
        ("SOURCE_ROWS_LIMIT", clight::SOURCE_ROWS_LIMIT),
        ("KERNEL_ROWS_LIMIT", clight::KERNEL_ROWS_LIMIT),
        ("STACK", clight::STACK),
        ("KERNEL_STACK", clight::KERNEL_STACK),
        ("SHALLOW_ROWS", clight::SHALLOW_ROWS),
    ];
    assert_eq!(members("clight_limit"), own.map(|(name, number)| (name.to_string(), number)));
}
