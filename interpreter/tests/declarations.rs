//! Names inside a block: what holds of the runs of programs that declare them, and
//! what previews, joins, days, trials, writes and pages make of declared words.

use interpreter::cases::{answer_lines, preview_lines, write_lines, written_lines, Case};
use interpreter::generate::{self, Program, Size};
use interpreter::join::join;
use interpreter::machine::run_checked;
use interpreter::random::Random;
use interpreter::table::*;
use interpreter::tree::*;
use interpreter::Form::Source;
use interpreter::{check, day, generate_joins, preview, text, trial, Ending, Refusal};

mod renaming;

use renaming::Renaming;

/// The generated programs that declare names, with their rows.
fn declaring(seed: u64, count: u64) -> impl Iterator<Item = (Program, Vec<i32>, Random)> {
    (0..count).filter_map(move |i| {
        let mut random = Random::new(seed, i);
        let program = generate::program(&mut random, Size::Mixed);
        let order = generate::any_order(&mut random);
        let rows = number(&program.tree, order, &mut random);
        (!declarations(&rows).is_empty()).then_some((program, rows, random))
    })
}

/// A program ends as the one in which declared objects and parameters are variables behind the
/// others.
#[test]
fn declared_names_are_variables_of_their_own() {
    let (mut compared, mut calling) = (0, 0);
    for (program, rows, mut random) in declaring(91, 6_000) {
        let header = &program.header;
        let declared = declarations(&rows).len();
        let mut renaming = Renaming::new(header[0]);
        let renamed = rows_in_order(&renaming.tree(&program.tree));
        let more = (renaming.fresh - header[0]) as usize;
        let mut wider = header.clone();
        wider[0] = renaming.fresh;
        if check(Source, &wider, &renamed).is_err() {
            // Over 256 variables, 8,192 words, 2,048 rows or 64 levels.
            continue;
        }
        let any = |random: &mut Random| random.between(-9, 9);
        let variables: Vec<i32> = (0..header[0]).map(|_| any(&mut random)).collect();
        let cells: Vec<i32> = header[1..].iter().flat_map(|&n| vec![2; n as usize]).collect();
        let own: Vec<i32> = (0..declared + more).map(|_| any(&mut random)).collect();
        let mut store = [&variables[..], &cells, &own[..declared]].concat();
        let mut other = [&variables[..], &own[declared..], &cells].concat();
        let one = run_checked(Source, header, &rows, &mut store, 20_000);
        let two = run_checked(Source, &wider, &renamed, &mut other, 1_000_000);
        if one.ending == Ending::Spent {
            continue;
        }
        assert_eq!(one.ending, two.ending);
        let size = Source.size(header) as usize;
        other.drain(header[0] as usize..header[0] as usize + more);
        assert_eq!(store[..size], other);
        compared += 1;
        calling += usize::from(rows_of(&rows).iter().any(|row| row[0] == ARGUMENT));
    }
    assert!(compared > 2_000 && calling > 700, "{compared} {calling}");
}

/// At every budget the first S words, the ending and the count are the same, whatever the declared
/// words hold at the start.
#[test]
fn declared_words_do_not_matter_at_the_start() {
    for (program, rows, mut random) in declaring(92, 600) {
        let size = Source.size(&program.header) as usize;
        let words: Vec<i32> = (0..size).map(|_| random.between(-2, 5)).collect();
        for budget in (0..60).chain([500, 5_000]) {
            let ran = |fill: i32| {
                let mut store = words.clone();
                store.resize(Source.store_words(&program.header, &rows), fill);
                let outcome = run_checked(Source, &program.header, &rows, &mut store, budget);
                (outcome, store[..size].to_vec())
            };
            assert_eq!(ran(i32::MIN), ran(random.word() as i32));
        }
    }
}

/// Where the declarations of a program stand.
#[derive(Debug, Default)]
struct Standing {
    in_loops: usize,
    first: usize,
    last: usize,
    hiding: usize,
}

impl Standing {
    /// Counts those below a tree, which the given numbers are declared around.
    fn count(&mut self, tree: &Tree, in_loop: bool, around: &mut Vec<i32>) {
        let in_loop = in_loop || matches!(tree.kind, WHILE | DO | FOR | GUARDED_DO);
        for part in &tree.parts {
            let outer = around.len();
            match part {
                Part::One(tree) => self.count(tree, in_loop, around),
                Part::List(items) => {
                    for (i, item) in items.iter().enumerate() {
                        if let (DECLARE, Part::Number(number)) = (item.kind, &item.parts[0]) {
                            self.in_loops += usize::from(in_loop);
                            self.first += usize::from(i == 0);
                            self.last += usize::from(i + 1 == items.len());
                            self.hiding += usize::from(around.contains(number));
                            around.push(*number);
                        }
                        self.count(item, in_loop, around);
                    }
                }
                _ => {}
            }
            around.truncate(outer);
        }
    }
}

/// The declarations' rows in the order of the program's text.
fn in_text_order(rows: &[Row], first: usize, found: &mut Vec<usize>) {
    let mut at = first;
    loop {
        if rows[at][0] == DECLARE {
            found.push(at);
        }
        for field in link_fields(&rows[at]).into_iter().filter(|&field| field != NEXT) {
            if rows[at][field] != 0 {
                in_text_order(rows, rows[at][field] as usize, found);
            }
        }
        at = rows[at][NEXT] as usize;
        if at == 0 {
            return;
        }
    }
}

#[test]
fn declarations_stand_in_many_places() {
    let mut standing = Standing::default();
    let (mut programs, mut full, mut against) = (0, 0, 0);
    for (program, words, _) in declaring(93, 3_000) {
        standing.count(&program.tree, false, &mut Vec::new());
        programs += 1;
        full += usize::from(declarations(&words).len() == 64);
        let mut found = Vec::new();
        in_text_order(rows_of(&words), 0, &mut found);
        against += usize::from(!found.is_sorted());
    }
    let Standing { in_loops, first, last, hiding } = standing;
    assert!(programs > 800 && full > 15 && against > 150, "{programs} {full} {against}");
    assert!(in_loops > 1_000 && first > 1_000 && last > 500 && hiding > 1_000, "{standing:?}");
}

/// The rows of a block with these items.
fn table(items: Vec<Tree>) -> Vec<i32> {
    rows_in_order(&block(items))
}

fn case_of(header: &[i32], words: &[i32], items: Vec<Tree>) -> Case {
    Case { budget: 1_000, words: words.to_vec(), text: text::write(header, &table(items)) }
}

/// { int v0 = 5; v1 = v0; }
fn small() -> Vec<Tree> {
    vec![declare(0, constant(5)), expression(assign(variable(1), variable(0)))]
}

#[test]
fn previews() {
    let rows = table(small());
    let told = |store: &[i32], room: usize| {
        let mut scratch = vec![77; room];
        let told = preview(&[2], &rows, store, 100, &mut scratch);
        (told.map(|told| told.differing), scratch)
    };
    assert_eq!(told(&[1, 2, 3], 2), (Err(Refusal::new(15, 0)), vec![77; 2]));
    assert_eq!(told(&[1, 2, 3], 3), (Ok(1), vec![1, 5, 5]));
    assert_eq!(told(&[1, 2, 3], 5), (Ok(1), vec![1, 5, 5, 77, 77]));
    // The declared word differs, and is not counted.
    assert_eq!(told(&[1, 5, 3], 3), (Ok(0), vec![1, 5, 5]));
    // 11 before 15.
    assert_eq!(told(&[1, 2], 2), (Err(Refusal::new(11, 0)), vec![77; 2]));
    assert_eq!(preview_lines(&case_of(&[2], &[1, 2, 3], small())), "ended 7 1\n1: 2 5\n");
}

#[test]
fn joins() {
    let program = |count: i32| {
        let items = (0..count).map(|_| block(vec![declare(0, constant(1))])).collect();
        (vec![1], table(items))
    };
    assert!(join(&program(64), &program(0)).is_ok());
    assert!(join(&program(31), &program(33)).is_ok());
    // The new block, the first's 193 rows, the second's row 0 and block, and its declaration.
    assert_eq!(join(&program(64), &program(1)), Err(Refusal::new(20, 196)));
    assert_eq!(join(&program(0), &program(64)).map(|rows| rows.len()), Ok(6 * (1 + 1 + 193)));
    // 9 before 20, both of the join: a declaration, and blocks to depth 64.
    let nest = (1..63).fold(block(vec![]), |inner, _| block(vec![inner]));
    let deep = (vec![1], table(vec![declare(0, constant(1)), nest]));
    assert_eq!(check(Source, &deep.0, &deep.1), Ok(()));
    assert_eq!(join(&program(64), &deep), Err(Refusal::new(9, 1 + 193 + 3 + 62)));
    // The second's words stand behind the first's.
    let one = (vec![1], table(vec![declare(0, constant(3))]));
    let two = (vec![1], table(vec![declare(0, constant(4))]));
    let rows = join(&one, &two).unwrap();
    let mut store = [9, 0, 0];
    run_checked(Source, &[1], &rows, &mut store, 100);
    assert_eq!(store, [9, 3, 4]);
}

#[test]
fn pairs_with_many_declarations() {
    let mut twenty = 0;
    for number in 0..600 {
        let pair = generate_joins::pair(9, number);
        let read = |i: usize| text::read(Source, &pair[i].text);
        let (Ok(first), Ok(second)) = (read(0), read(1)) else { continue };
        let of_the_join = [&first, &second].iter().all(|p| check(Source, &p.0, &p.1).is_ok());
        if let Err(Refusal { number: 20, place }) = join(&first, &second) {
            twenty += usize::from(of_the_join && place > 0);
        }
    }
    assert!(twenty > 10, "{twenty}");
}

#[test]
fn trials_days_and_writes() {
    let text = text::write(&[2], &table(small()));
    assert_eq!(trial::trial(&text), "source ended 7 0 5 2");
    let lines = answer_lines(&case_of(&[2], &[1, 2, 3], small()));
    assert_eq!(lines, "source ended 7 1 5 2\nkernel ended 1 5\n");
    let writes = |items| written_lines(&text::write(&[2], &table(items)));
    assert_eq!(writes(small()), "variables 1\narrays\ndeclared 0\n");
    // A place that names a declared number is the declared word.
    let hidden = || vec![declare(0, constant(5)), expression(assign(variable(0), constant(1)))];
    assert_eq!(writes(hidden()), "variables\narrays\ndeclared 0\n");
    let both = vec![block(hidden()), expression(assign(variable(0), constant(1)))];
    assert_eq!(writes(both), "variables 0\narrays\ndeclared 0\n");
    // A run's writes are those to the first S words.
    let lines = write_lines(Source, &case_of(&[2], &[], small()));
    assert_eq!(lines, "1 5\n");
    let rule = String::from_utf8(text).unwrap();
    assert_eq!(
        day::day(format!("{rule}\n0\t3\t4\n1\t9\n").as_bytes()),
        "3\t1\t0\t3\t5\n4\t1\t0\t4\t5\n"
    );
    // S of 1,024 is well, with declared words behind it.
    let wide = |size: i32| trial::trial(&text::write(&[2, size], &table(small())));
    assert!(wide(1_022).starts_with("source ended 7 0 5"));
    assert_eq!(wide(1_022).split(' ').count(), 3 + 1_024 + 1);
    assert_eq!(wide(1_023), "refused 1 0");
}
