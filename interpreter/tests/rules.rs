//! The rules on the shelf and more, against answers worked out by hand.

use interpreter::cases::{answer, answer_lines, read_all, write, Case};
use interpreter::rules::{rules, EXAMPLE};
use interpreter::trial::trial;
use interpreter::Form::Source;

#[test]
fn every_rule_has_its_answer() {
    let mut wrong = Vec::new();
    for rule in rules() {
        let given = answer(Source, &rule.case);
        if given != rule.answer {
            wrong.push(format!("{}: {} and not {given}", rule.name, rule.answer));
        }
    }
    assert!(wrong.is_empty(), "{}", wrong.join("\n"));
}

#[test]
fn rules_survive_the_case_format() {
    let rules = rules();
    let mut bytes = Vec::new();
    rules.iter().for_each(|rule| write(&rule.case, &mut bytes));
    let cases = read_all(&bytes).unwrap();
    assert_eq!(cases.len(), rules.len());
    assert!(cases.iter().zip(&rules).all(|(case, rule)| *case == rule.case));
}

#[test]
fn the_worked_example_as_a_trial() {
    assert_eq!(trial(EXAMPLE.as_bytes()), "source ended 13 2 0 0 2 1");
}

/// A spent run and a refusal have one line.
#[test]
fn lines_of_an_answer() {
    let lines = |budget, words: &[i32]| {
        let text = EXAMPLE.as_bytes().to_vec();
        answer_lines(&Case { budget, words: words.to_vec(), text })
    };
    assert_eq!(lines(13, &[]), "source ended 13 2 0 0 2 1\nkernel ended 2 0 0 2\n");
    assert_eq!(lines(12, &[]), "source spent 12 3 0 0 0 1\n");
    assert_eq!(lines(12, &[0]), "refused 11 0\n");
}
