//! Functions: what programs that are made have of them, joins, and write sets.

use interpreter::cases::{answer_lines, preview_lines, write_lines, written_lines, Case};
use interpreter::generate::{self, Program, Size};
use interpreter::join::{compare, join};
use interpreter::machine::run_checked;
use interpreter::random::Random;
use interpreter::table::*;
use interpreter::tree::*;
use interpreter::Form::Source;
use interpreter::{check, day, generate_joins, text, trial, Refusal};

/// The generated programs that define functions, with their rows.
fn defining(seed: u64, count: u64) -> impl Iterator<Item = (Program, Vec<i32>)> {
    (0..count).filter_map(move |i| {
        let mut random = Random::new(seed, i);
        let program = generate::program(&mut random, Size::Mixed);
        let order = generate::any_order(&mut random);
        let rows = number(&program.tree, order, &mut random);
        (!definitions(rows_of(&rows)).is_empty()).then_some((program, rows))
    })
}

fn has_call(tree: &Tree) -> bool {
    tree.kind == CALL || tree.below().any(has_call)
}

/// How many trees of this kind have a call in this part.
fn calling(tree: &Tree, kind: i32, part: usize) -> usize {
    let own = match &tree.parts[part] {
        Part::One(part) => tree.kind == kind && has_call(part),
        _ => false,
    };
    usize::from(own) + tree.below().map(|below| calling(below, kind, part)).sum::<usize>()
}

/// How many returns stand below trees of this kind.
fn is_within(tree: &Tree, kind: i32) -> usize {
    let of_kind = tree.kind == kind;
    tree.below().map(|part| if of_kind { returns(part) } else { is_within(part, kind) }).sum()
}

fn returns(tree: &Tree) -> usize {
    usize::from(tree.kind == RETURN) + tree.below().map(returns).sum::<usize>()
}

/// The numbers of the functions that are called anywhere below.
fn called(tree: &Tree, numbers: &mut Vec<i32>) {
    if let (CALL, Part::Number(number)) = (tree.kind, &tree.parts[0]) {
        numbers.push(*number);
    }
    tree.below().for_each(|part| called(part, numbers));
}

#[test]
fn functions_stand_in_many_places() {
    let (mut programs, mut uncalled, mut full, mut long) = (0, 0, 0, 0);
    let mut owners = [0; 8];
    let kinds = [ADD, ELEMENT, ARGUMENT, ARM, ASSIGN, IF, SWITCH, RETURN];
    // Which part of each may have a call.
    let parts = [0, 1, 0, 0, 1, 0, 0, 0];
    let mut left = [0; 6];
    let nests = [WHILE, DO, FOR, SWITCH, GUARDED_IF, GUARDED_DO];
    for (program, words) in defining(95, 4_000) {
        let tree = &program.tree;
        programs += 1;
        for (i, &kind) in kinds.iter().enumerate() {
            owners[i] += calling(tree, kind, parts[i]);
        }
        for (i, &kind) in nests.iter().enumerate() {
            left[i] += is_within(tree, kind);
        }
        let mut numbers = Vec::new();
        called(tree, &mut numbers);
        let defined = definitions(rows_of(&words)).len();
        uncalled += usize::from((0..defined as i32).any(|number| !numbers.contains(&number)));
        long += usize::from(defined > 40);
        full +=
            tree.below().filter(|item| item.kind == DEFINE && item.below().count() == 65).count();
    }
    assert!(
        programs > 1_100 && uncalled > 100 && full > 0 && long > 5,
        "{programs} {uncalled} {full} {long}"
    );
    assert!(owners.iter().all(|&count| count > 50), "{owners:?}");
    assert!(left.iter().all(|&count| count > 50), "{left:?}");
}

/// In most programs a run enters a function: one with empty bodies has another count.
#[test]
fn functions_are_entered() {
    let (mut programs, mut entered) = (0, 0);
    for (program, rows) in defining(96, 2_000) {
        let mut other = program.tree.clone();
        other.each(&mut |tree| {
            if tree.kind == DEFINE {
                tree.parts[2] = Part::One(Box::new(block(vec![plain(EMPTY), plain(EMPTY)])));
            }
        });
        let emptied = rows_in_order(&other);
        let ran = |rows: &[i32]| {
            let mut store = vec![1; Source.store_words(&program.header, rows)];
            run_checked(Source, &program.header, rows, &mut store, 20_000)
        };
        programs += 1;
        entered += usize::from(ran(&rows) != ran(&emptied));
    }
    assert!(entered * 10 > programs * 7, "{entered} of {programs}");
}

fn table(items: Vec<Tree>) -> Vec<i32> {
    rows_in_order(&block(items))
}

/// `int f0(v0) { return v0; } v1 = f0(value);`
fn identity(value: i32) -> Vec<Tree> {
    vec![
        define(0, &[0], vec![give_back(Some(variable(0)))]),
        expression(assign(variable(1), call(0, vec![constant(value)]))),
    ]
}

#[test]
fn joined_rows() {
    let first = (vec![2], table(identity(5)));
    let second_items = vec![
        define(0, &[], vec![]),
        define(1, &[], vec![expression(call(0, vec![]))]),
        expression(call(1, vec![])),
    ];
    let second = (vec![2], table(second_items));
    let rows = join(&first, &second).unwrap();
    let expected: Vec<Row> = vec![
        [BLOCK, 1, 0, 0, 0, 0],
        // The first's definition, with all below it.
        [DEFINE, 0, 2, 3, 0, 6],
        [DECLARE, 0, 0, 0, 0, 0],
        [BLOCK, 4, 0, 0, 0, 0],
        [RETURN, 5, 0, 0, 0, 0],
        [VARIABLE, 0, 0, 0, 0, 0],
        // The second's, with other numbers.
        [DEFINE, 1, 0, 7, 0, 8],
        [BLOCK, 0, 0, 0, 0, 0],
        [DEFINE, 2, 0, 9, 0, 12],
        [BLOCK, 10, 0, 0, 0, 0],
        [EXPRESSION, 11, 0, 0, 0, 0],
        [CALL, 1, 0, 0, 0, 0],
        // The first's other rows.
        [BLOCK, 13, 0, 0, 0, 19],
        [EXPRESSION, 14, 0, 0, 0, 0],
        [ASSIGN, 15, 16, 0, 0, 0],
        [VARIABLE, 1, 0, 0, 0, 0],
        [CALL, 0, 17, 0, 0, 0],
        [ARGUMENT, 18, 0, 0, 0, 0],
        [CONSTANT, 5, 0, 0, 0, 0],
        // The second's.
        [BLOCK, 20, 0, 0, 0, 0],
        [EXPRESSION, 21, 0, 0, 0, 0],
        [CALL, 2, 0, 0, 0, 0],
    ];
    assert_eq!(rows_of(&rows), expected);
    // Definitions alone, in either program, and no definitions.
    let alone = (vec![2], table(vec![define(0, &[], vec![])]));
    let none = (vec![2], table(vec![plain(EMPTY)]));
    for (first, second) in [(&alone, &none), (&none, &alone), (&alone, &alone), (&none, &none)] {
        let rows = join(first, second).unwrap();
        assert_eq!(check(Source, &[2], &rows), Ok(()));
        assert!(compare(first, second, &rows, &[3, 4]).is_ok());
    }
}

#[test]
fn joined_limits() {
    // Definitions stay at depth 2, all else goes down by one.
    let nest = |depth| (1..depth).fold(block(vec![]), |inner, _| block(vec![inner]));
    let in_function = (vec![0], table(vec![define(0, &[], vec![nest(61)])]));
    let lone = (vec![0], table(vec![]));
    assert!(join(&in_function, &lone).is_ok());
    assert!(join(&lone, &in_function).is_ok());
    let outside = (vec![0], table(vec![define(0, &[], vec![]), nest(63)]));
    // The new block, the definition and its body, row 0; the innermost of the blocks.
    assert_eq!(join(&outside, &lone), Err(Refusal::new(9, 3 + 63)));
    // 64 words in both, and 65: the row of the last in the joined order.
    let numbers: Vec<i32> = (0..32).collect();
    let half = |items: Vec<Tree>| {
        let items = [vec![define(0, &numbers, vec![])], items].concat();
        (vec![64], table(items))
    };
    assert!(join(&half(vec![]), &half(vec![])).is_ok());
    let more = half(vec![declare(40, constant(1))]);
    // 1 + 34 rows of definitions twice, the first's block, its declaration.
    assert_eq!(join(&more, &half(vec![])), Err(Refusal::new(20, 1 + 68 + 1)));
    assert_eq!(join(&half(vec![]), &more), Err(Refusal::new(20, 1 + 68 + 1 + 1)));
}

#[test]
fn generated_joins_hold() {
    let (mut joined, mut both) = (0, 0);
    for number in 0..1_500 {
        let pair = generate_joins::pair(19, number);
        let read = |i: usize| text::read(Source, &pair[i].text);
        let (Ok(first), Ok(second)) = (read(0), read(1)) else { continue };
        let Ok(rows) = join(&first, &second) else { continue };
        let size = Source.size(&first.0) as usize;
        let words: Vec<i32> = pair[0].words.iter().copied().chain([0; 9_000]).take(size).collect();
        assert!(compare(&first, &second, &rows, &words).is_ok(), "pair {number}");
        let defines = |rows: &[i32]| !definitions(rows_of(rows)).is_empty();
        joined += 1;
        both += usize::from(defines(&first.1) && defines(&second.1));
    }
    assert!(joined > 500 && both > 50, "{joined} {both}");
}

fn case_of(header: &[i32], words: &[i32], items: Vec<Tree>) -> Case {
    Case { budget: 1_000, words: words.to_vec(), text: text::write(header, &table(items)) }
}

/// What is never called counts, and parameters do; a place that names one is its word.
#[test]
fn what_functions_can_write() {
    let writes = |items| written_lines(&text::write(&[3, 2], &table(items)));
    let set = |number| expression(assign(variable(number), constant(1)));
    let never = define(0, &[0], vec![set(0), set(2)]);
    assert_eq!(writes(vec![never.clone()]), "variables 2\narrays\ndeclared 0\n");
    assert_eq!(writes(vec![never, set(0)]), "variables 0 2\narrays\ndeclared 0\n");
    let cell = expression(assign(element(0, constant(0)), constant(1)));
    let inner = define(0, &[], vec![cell, block(vec![declare(1, constant(2)), set(1)]), set(1)]);
    assert_eq!(writes(vec![inner]), "variables 1\narrays 0\ndeclared 0\n");
    let lines = answer_lines(&case_of(&[2], &[1, 2, 3], identity(5)));
    assert_eq!(lines, "source ended 10 1 5 2\nkernel ended 1 5\n");
    assert_eq!(trial::trial(&text::write(&[2], &table(identity(5)))), "source ended 10 0 5 2");
    assert_eq!(write_lines(Source, &case_of(&[2], &[], identity(5))), "1 5\n");
    assert_eq!(preview_lines(&case_of(&[2], &[1, 2, 3], identity(5))), "ended 10 1\n1: 2 5\n");
    let rule = String::from_utf8(text::write(&[2], &table(identity(5)))).unwrap();
    assert_eq!(day::day(format!("{rule}\n0\t3\t3\n").as_bytes()), "3\t0\t0\t3\t0\n");
    assert_eq!(day::day(format!("{rule}\n0\t3\t3\n1\t9\n").as_bytes()), "3\t1\t0\t3\t5\n");
}
