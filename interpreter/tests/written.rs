//! The last field of the trial's first line, of the rules made for it, by hand.

use interpreter::cases::{answer_lines, written_lines};
use interpreter::rules::rules;

fn field(name: &str) -> String {
    let rule = rules().into_iter().find(|rule| rule.name == name).expect(name);
    let lines = answer_lines(&rule.case);
    let line = lines.lines().next().expect("a line").to_string();
    line.rsplit(' ').next().expect("a field").to_string()
}

fn numbers(name: &str) -> String {
    let rule = rules().into_iter().find(|rule| rule.name == name).expect(name);
    written_lines(&rule.case.text)
}

#[test]
fn last_fields() {
    let fields = [
        ("writes at the ends of the words", "8"),
        ("63 alone", "1"),
        ("64 alone", "1"),
        ("255 alone", "1"),
        ("writes to all of 256", "256"),
        ("reads are no writes", "0"),
        ("a variable written thrice", "1"),
        ("array 31, and V of 0", "0"),
        ("V of 0 and no arrays", "0"),
        ("a write in an index", "1"),
        ("a write in the index of a read", "1"),
        ("writes in a branch not taken", "2"),
        ("a write behind 0 &&", "1"),
        ("a write behind a fault", "1"),
        ("the field of a run with index fault", "2"),
        ("the field of an overflow", "1"),
        ("the field of a spent run", "2"),
    ];
    for (name, expected) in fields {
        assert_eq!(field(name), expected, "{name}");
    }
}

#[test]
fn by_number() {
    let ends = "variables 0 63 64 127 128 191 192 255\narrays\ndeclared\n";
    assert_eq!(numbers("writes at the ends of the words"), ends);
    assert_eq!(numbers("array 31, and V of 0"), "variables\narrays 31\ndeclared\n");
    assert_eq!(numbers("a write in an index"), "variables 0\narrays 1\ndeclared\n");
    assert_eq!(numbers("V over 256"), "refused 1 0\n");
}
