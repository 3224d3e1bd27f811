//! Generated and damaged cases: shares, determinism, and what holds of runs.

use interpreter::cases::{evaluate, read_all, write, Case};
use interpreter::generate::Size;
use interpreter::table::rows_of;
use interpreter::tally::Tally;
use interpreter::tree::link_fields;
use interpreter::Form::Source;
use interpreter::{damage, generate, text, Ending};

fn generated(count: u64) -> impl Iterator<Item = Case> {
    (0..count).map(|i| generate::case(11, i, Size::Mixed))
}

fn tally(cases: impl Iterator<Item = Case>) -> Tally {
    let mut tally = Tally::default();
    cases.for_each(|case| tally.add(Source, &case));
    tally
}

#[test]
fn shares_of_generated_cases() {
    let tally = tally(generated(3_000));
    assert_eq!(tally.accepted, 3_000);
    assert!(tally.bytes < 3_300_000);
    for (ending, least) in [
        ("ended", 900),
        ("spent", 400),
        ("overflow", 100),
        ("zero", 100),
        ("index", 100),
        ("guard", 30),
    ] {
        assert!(tally.answers[ending] >= least, "{ending}: {:?}", tally.answers);
    }
    for kind in (1..=32).chain(40..=51).chain(54..=56).chain(58..=60) {
        let programs = tally.programs_with.get(&kind).copied().unwrap_or(0);
        assert!(programs >= 150, "kind {kind} in {programs} programs");
    }
    // About a third of the programs have guarded statements with arms, as many functions.
    for kind in [56, 59] {
        let programs = tally.programs_with[&kind];
        assert!((900..=1_100).contains(&programs), "kind {kind} in {programs} programs");
    }
}

#[test]
fn shares_of_damaged_cases() {
    let tally = tally((0..4_000).map(|i| damage::case(11, i)));
    for (number, least) in [
        (1, 80),
        (2, 20),
        (3, 200),
        (4, 200),
        (5, 200),
        (6, 100),
        (7, 100),
        (8, 100),
        (9, 50),
        (11, 60),
        (14, 100),
        (18, 50),
        (19, 50),
        (20, 30),
        (23, 60),
        (24, 80),
    ] {
        let count = tally.answers.get(&format!("refused {number:2}")).copied().unwrap_or(0);
        assert!(count >= least, "{number}: {count}");
    }
    assert!(tally.accepted >= 300);
}

#[test]
fn cases_depend_on_seed_and_number_alone() {
    for i in [0, 1, 500] {
        assert_eq!(generate::case(3, i, Size::Mixed), generate::case(3, i, Size::Mixed));
        assert_ne!(generate::case(3, i, Size::Mixed), generate::case(4, i, Size::Mixed));
        assert_ne!(generate::case(3, i, Size::Mixed), generate::case(3, i + 1, Size::Mixed));
        assert_eq!(damage::case(3, i), damage::case(3, i));
    }
}

#[test]
fn cases_come_back_from_their_format() {
    let cases: Vec<Case> = generated(200).chain((0..200).map(|i| damage::case(2, i))).collect();
    let mut bytes = Vec::new();
    cases.iter().for_each(|case| write(case, &mut bytes));
    assert_eq!(read_all(&bytes).unwrap(), cases);
    assert!(read_all(&bytes[..bytes.len() - 1]).is_err());
    assert!(read_all(b"1\t2\tx\nab").is_err());
    assert!(read_all(b"4294967296\t0\n").is_err());
}

#[test]
fn accepted_texts_are_written_the_same() {
    for case in generated(300) {
        let (header, rows) = text::read(Source, &case.text).unwrap();
        assert_eq!(text::write(&header, &rows), case.text);
    }
}

/// Rows are not only numbered owner first, parts in order, then the next item.
#[test]
fn rows_come_in_many_orders() {
    let mut far = 0;
    for case in generated(400) {
        let (_, words) = text::read(Source, &case.text).unwrap();
        let rows = rows_of(&words);
        let in_order = rows.iter().enumerate().all(|(at, row)| {
            let first = link_fields(row).into_iter().map(|i| row[i]).find(|&link| link != 0);
            first.is_none_or(|link| link as usize == at + 1)
        });
        far += !in_order as usize;
    }
    assert!(far > 180, "{far}");
}

/// Every smaller budget is spent, with its own count; every larger one gives the same.
#[test]
fn budgets() {
    for mut case in generated(300) {
        case.budget = 3_000;
        let (whole, store) = evaluate(Source, &case).unwrap();
        if whole.ending == Ending::Spent {
            continue;
        }
        for budget in 0..whole.count + 3 {
            case.budget = budget;
            let (outcome, words) = evaluate(Source, &case).unwrap();
            if budget < whole.count {
                assert_eq!((outcome.ending, outcome.count), (Ending::Spent, budget));
            } else {
                assert_eq!((outcome, &words), (whole, &store));
            }
        }
    }
}

/// The numbering of the rows changes nothing in a run but the order of the declared words.
#[test]
fn order_of_rows_does_not_matter() {
    use interpreter::random::Random;
    use interpreter::tree::{number, Order};
    for i in 0..200 {
        let random = &mut Random::new(21, i);
        let program = generate::program(random, Size::Mixed);
        let answers: Vec<_> =
            [Order::Pre, Order::Breadth, Order::Last, Order::StatementsFirst, Order::Random]
                .into_iter()
                .map(|order| {
                    let rows = number(&program.tree, order, random);
                    let text = text::write(&program.header, &rows);
                    let case = Case { budget: 2_000, words: Vec::new(), text };
                    let (outcome, mut store) = evaluate(Source, &case).unwrap();
                    store.truncate(Source.size(&program.header) as usize);
                    (outcome, store)
                })
                .collect();
        assert!(answers.iter().all(|answer| *answer == answers[0]));
    }
}

#[test]
fn large_programs() {
    let tally = tally((0..20).map(|i| generate::case(5, i, Size::Large)));
    assert_eq!(tally.accepted, 20);
    assert_eq!(tally.most_rows, 2_048);
}

/// Tables of random words get some answer.
#[test]
fn random_tables_are_answered() {
    use interpreter::random::Random;
    let random = &mut Random::new(77, 0);
    let mut accepted = 0;
    for _ in 0..50_000 {
        let count = random.below(5);
        let mut rows = vec![interpreter::table::BLOCK, random.between(0, 1), 0, 0, 0, 0];
        for _ in 0..count {
            rows.push(random.pick(&[1, 2, 3, 4, 21, 29, 40, 41, 42, 44, 47, 48, 50]));
            let most = random.pick(&[0, 0, 3, 6]);
            rows.extend((0..5).map(|i| if i > 1 && i < 4 { 0 } else { random.between(0, most) }));
        }
        let answer = interpreter::run(Source, &[2, 3], &rows, &mut [0; 5], 100);
        accepted += answer.is_ok() as usize;
    }
    assert!(accepted > 0);
}
