//! The writes of runs, and what holds of them.

use interpreter::cases::{compare_writes, write_lines, Case};
use interpreter::generate::{self, Size};
use interpreter::writes::{within, writes};
use interpreter::Form::{self, Kernel, Source};
use interpreter::{text, Ending};

/// The lines of the writes within so many steps, from zeros.
fn lines(form: Form, steps: u32, text: &str) -> String {
    let text = text.replace(' ', "\t").into_bytes();
    write_lines(form, &Case { budget: steps, words: Vec::new(), text })
}

/// v0 = 2; a[v0 -= 1] = v0++;
const WORKED: &str = "1 3\n42 1 0 0 0 0\n41 2 0 0 0 5\n21 3 4 0 0 0\n2 0 0 0 0 0\n1 2 0 0 0 0\n\
    41 6 0 0 0 0\n21 7 11 0 0 0\n3 0 8 0 0 0\n23 9 10 0 0 0\n2 0 0 0 0 0\n1 1 0 0 0 0\n\
    29 12 0 0 0 0\n2 0 0 0 0 0\n";

/// while (1) v0 = 0;
const ENDLESS: &str =
    "1\n42 1 0 0 0 0\n44 2 3 0 0 0\n1 1 0 0 0 0\n41 4 0 0 0 0\n21 5 6 0 0 0\n2 0 0 0 0 0\n1 0 0 0 0 0\n";

/// The same in kernel form, with a temporary: while (1) { v1 = ONE; v0 = TWO; }
fn kernel(one: &str, two: &str) -> String {
    format!(
        "1 0 1\n42 1 0 0 0 0\n44 2 3 0 0 0\n1 1 0 0 0 0\n42 4 0 0 0 0\n\
         41 5 0 0 0 8\n21 6 7 0 0 0\n2 1 0 0 0 0\n{one}\n\
         41 9 0 0 0 0\n21 10 11 0 0 0\n2 0 0 0 0 0\n{two}\n"
    )
}

const ZERO: &str = "1 0 0 0 0 0";
const TEMPORARY: &str = "2 1 0 0 0 0";

#[test]
fn worked_example() {
    assert_eq!(lines(Source, 0, WORKED), "");
    assert_eq!(lines(Source, 12, WORKED), "0 2\n0 3\n");
    assert_eq!(lines(Source, 13, WORKED), "0 2\n0 3\n0 2\n3 2\n");
    assert_eq!(lines(Source, 100, WORKED), "0 2\n0 3\n0 2\n3 2\n");
    assert_eq!(lines(Source, 1, "1\n"), "refused 2 0\n");
}

#[test]
fn equal_values_are_written_and_temporaries_are_not() {
    assert_eq!(lines(Source, 6, ENDLESS), "");
    assert_eq!(lines(Source, 17, ENDLESS), "0 0\n0 0\n0 0\n");
    assert_eq!(lines(Kernel, 22, &kernel(ZERO, TEMPORARY)), "0 0\n0 0\n");
}

/// The writes within N steps are those of the run with budget N.
#[test]
fn writes_within_are_those_of_the_budget() {
    let mixed = (0..150).map(|i| generate::case(31, i, Size::Mixed));
    let endless = (0..100).map(|i| generate::endless_case(31, i));
    for case in mixed.chain(endless) {
        let (header, rows) = text::read(Source, &case.text).unwrap();
        let mut start = case.words.clone();
        start.resize(Source.store_words(&header, &rows), 0);
        let made = |budget| writes(Source, &header, &rows, &mut start.clone(), budget).unwrap().1;
        let long = made(3_000);
        for budget in (0..200).chain([1_000, 2_999]) {
            assert_eq!(made(budget), within(&long, budget), "{budget}");
        }
    }
}

#[test]
fn endless_cases_do_not_end() {
    for i in 0..100 {
        let case = generate::endless_case(8, i);
        let (outcome, _) = interpreter::cases::evaluate(Source, &case).unwrap();
        assert_eq!(outcome.ending, Ending::Spent);
    }
}

#[test]
fn pairs_are_told_apart() {
    let source = Case { budget: 0, words: Vec::new(), text: ENDLESS.replace(' ', "\t").into() };
    let verdict = |kernel: String| compare_writes(&source, kernel.replace(' ', "\t").as_bytes());
    assert!(verdict(kernel(ZERO, TEMPORARY)).unwrap().endless);
    // Another value.
    let differs = verdict(kernel("1 1 0 0 0 0", TEMPORARY));
    assert_eq!(differs, Err("the source's writes within 7 steps".to_string()));
    // A write too many, which has the value that the word holds: the source ends, and its one write comes first.
    let once = "1\n42 1 0 0 0 0\n41 2 0 0 0 0\n21 3 4 0 0 0\n2 0 0 0 0 0\n1 0 0 0 0 0\n";
    let twice = "1 0 0\n42 1 0 0 0 0\n41 2 0 0 0 5\n21 3 4 0 0 0\n2 0 0 0 0 0\n1 0 0 0 0 0\n\
        41 6 0 0 0 0\n21 7 8 0 0 0\n2 0 0 0 0 0\n1 0 0 0 0 0\n";
    let source = Case { budget: 0, words: Vec::new(), text: once.replace(' ', "\t").into() };
    let differs = compare_writes(&source, twice.replace(' ', "\t").as_bytes());
    assert_eq!(differs, Err("the translation's writes within 9 steps".to_string()));
}
