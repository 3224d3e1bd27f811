//! Functions of the kernel form: check, run, and the flat list that refuses them.

use interpreter::flat::flatten;
use interpreter::generate_kernel;
use interpreter::machine::run_checked;
use interpreter::random::Random;
use interpreter::table::*;
use interpreter::Form::Kernel;
use interpreter::{check, run, Ending, Refusal};

/// `int f0(l0) { return l0; } v0 = f0(3);` in the kernel, with one more statement of the function.
fn kernel(item: &[Row]) -> Vec<Row> {
    let mut rows = vec![
        [BLOCK, 1, 0, 0, 0, 0],
        [DEFINE, 0, 2, 3, 0, 6],
        [DECLARE, 1, 0, 0, 0, 0],
        [BLOCK, 4, 0, 0, 0, 0],
        [RETURN, 5, 0, 0, 0, 0],
        [VARIABLE, 1, 0, 0, 0, 0],
        [EXPRESSION, 7, 0, 0, 0, 0],
        [ASSIGN, 8, 9, 0, 0, 0],
        [VARIABLE, 0, 0, 0, 0, 0],
        [CALL, 0, 10, 0, 0, 0],
        [ARGUMENT, 11, 0, 0, 0, 0],
        [CONSTANT, 3, 0, 0, 0, 0],
    ];
    if !item.is_empty() {
        rows[4][NEXT] = 12;
        rows.extend(item);
    }
    rows
}

fn refused(header: &[i32], rows: &[Row]) -> (u32, u32) {
    match check(Kernel, header, &rows.concat()) {
        Ok(()) => (0, 0),
        Err(Refusal { number, place }) => (number, place),
    }
}

const HEADER: [i32; 3] = [1, 2, 1];

#[test]
fn kernel_calls() {
    let rows = kernel(&[]).concat();
    for (budget, ending, count, words) in [
        (7, Ending::Spent, 7, [0, 3, 9, 9]),
        (5, Ending::Spent, 5, [0, 9, 9, 9]),
        (10, Ending::Ended, 10, [3, 3, 9, 9]),
    ] {
        let mut store = [0, 9, 9, 9];
        let outcome = run(Kernel, &HEADER, &rows, &mut store, budget).unwrap();
        assert_eq!((outcome.ending, outcome.count, store), (ending, count, words));
    }
    assert_eq!(flatten(&rows), Err(Refusal::new(25, 1)));
}

#[test]
fn kernel_refusals() {
    let changed = |at: usize, row: Row| {
        let mut rows = kernel(&[]);
        rows[at] = row;
        rows
    };
    assert_eq!(refused(&HEADER, &kernel(&[])), (0, 0));
    // Parameters name declared words: S to S+D-1.
    for (number, verdict) in [(0, (6, 2)), (1, (0, 0)), (2, (0, 0)), (3, (6, 2)), (-1, (6, 2))] {
        assert_eq!(refused(&HEADER, &changed(2, [DECLARE, number, 0, 0, 0, 0])), verdict);
    }
    assert_eq!(refused(&HEADER, &changed(2, [DECLARE, 1, 5, 0, 0, 0])), (4, 2));
    // Arguments and the value of a return are atoms; a return has one.
    let mut rows = changed(11, [MINUS, 12, 0, 0, 0, 0]);
    rows.push([CONSTANT, 3, 0, 0, 0, 0]);
    assert_eq!(refused(&HEADER, &rows), (12, 6));
    let mut rows = changed(5, [MINUS, 12, 0, 0, 0, 0]);
    rows.push([CONSTANT, 3, 0, 0, 0, 0]);
    assert_eq!(refused(&HEADER, &rows), (12, 4));
    let mut rows = kernel(&[]);
    rows[4] = [RETURN, 0, 0, 0, 0, 12];
    rows[5] = [EMPTY, 0, 0, 0, 0, 0];
    rows.push([EMPTY, 0, 0, 0, 0, 5]);
    assert_eq!(refused(&HEADER, &rows), (4, 12));
    let bare = [RETURN, 0, 0, 0, 0, 0];
    assert_eq!(refused(&HEADER, &kernel(&[bare])), (12, 12));
    // A call is assigned to a variable.
    let mut rows = changed(8, [ELEMENT, 0, 12, 0, 0, 0]);
    rows.push([CONSTANT, 0, 0, 0, 0, 0]);
    assert_eq!(refused(&[1, 1, 1, 2], &rows).0, 6);
    rows[2][1] = 3;
    rows[5][1] = 3;
    assert_eq!(refused(&[1, 1, 1, 2], &rows), (12, 6));
    // A declaration that is no parameter is no kernel statement; a branch of an if is a block.
    let declared = [[DECLARE, 1, 13, 0, 0, 0], [CONSTANT, 3, 0, 0, 0, 0]];
    assert_eq!(refused(&HEADER, &kernel(&declared)), (12, 12));
    let branch = [
        [IF, 13, 14, 15, 0, 0],
        [CONSTANT, 1, 0, 0, 0, 0],
        [DECLARE, 2, 16, 0, 0, 0],
        [BLOCK, 0, 0, 0, 0, 0],
        [CONSTANT, 1, 0, 0, 0, 0],
    ];
    assert_eq!(refused(&HEADER, &kernel(&branch)), (12, 12));
    // A return outside of functions.
    let outside = [[BLOCK, 1, 0, 0, 0, 0], [RETURN, 2, 0, 0, 0, 0], [CONSTANT, 1, 0, 0, 0, 0]];
    assert_eq!(refused(&HEADER, &outside), (7, 1));
    // Two parameters of one word.
    let mut rows = kernel(&[]);
    rows[2][NEXT] = 12;
    rows.push([DECLARE, 1, 0, 0, 0, 0]);
    assert_eq!(refused(&HEADER, &rows), (19, 12));
    rows[12][1] = 2;
    assert_eq!(refused(&HEADER, &rows), (24, 9));
    // Numbers of definitions and calls, both in order of cause.
    assert_eq!(refused(&HEADER, &changed(1, [DEFINE, 1, 2, 3, 0, 6])), (23, 1));
    assert_eq!(refused(&HEADER, &changed(9, [CALL, 1, 10, 0, 0, 0])), (24, 9));
    let own = |number| {
        [
            [EXPRESSION, 13, 0, 0, 0, 0],
            [ASSIGN, 14, 15, 0, 0, 0],
            [VARIABLE, 0, 0, 0, 0, 0],
            [CALL, number, 0, 0, 0, 0],
        ]
    };
    assert_eq!(refused(&HEADER, &kernel(&own(0))), (24, 15));
}

/// A goto's label lies inside its function.
#[test]
fn gotos_stay_inside() {
    let goto = [GOTO, 5, 0, 0, 0, 0];
    let mut rows = kernel(&[goto]);
    assert_eq!(refused(&HEADER, &rows), (13, 12));
    // A label in row 0's list, behind the definition.
    rows[6][NEXT] = 13;
    rows.push([LABEL, 5, 0, 0, 0, 0]);
    assert_eq!(refused(&HEADER, &rows), (13, 12));
    // One in the function's own list.
    rows[6][NEXT] = 0;
    rows[12][NEXT] = 13;
    assert_eq!(refused(&HEADER, &rows), (0, 0));
    // A label stands once in the program, whatever the functions.
    let mut rows = kernel(&[[LABEL, 5, 0, 0, 0, 0]]);
    rows[6][NEXT] = 13;
    rows.push([LABEL, 5, 0, 0, 0, 0]);
    assert_eq!(refused(&HEADER, &rows), (13, 13));
}

/// A return leaves the loops and blocks of its function, and those alone.
#[test]
fn kernel_returns() {
    for number in 0..600 {
        let program = generate_kernel::program(&mut Random::new(61, number));
        let rows = program.rows.concat();
        let words = Kernel.store_words(&program.header, &rows);
        let mut store = vec![1; words];
        let whole = run_checked(Kernel, &program.header, &rows, &mut store, 400);
        for budget in 0..whole.count {
            let mut store = vec![1; words];
            let outcome = run_checked(Kernel, &program.header, &rows, &mut store, budget);
            assert_eq!((outcome.ending, outcome.count), (Ending::Spent, budget));
        }
    }
}

/// Calls as deep as a kernel table can have them, on a stack of the size that the program takes.
#[test]
fn kernel_calls_to_the_limit() {
    let mut rows = vec![[BLOCK, 1, 0, 0, 0, 0]];
    let functions = (MAX_KERNEL_ROWS as i32 - 6) / 6;
    for number in 0..functions {
        let at = rows.len() as i32;
        rows.push([DEFINE, number, 0, at + 1, 0, at + 6]);
        let first = if number == 0 { 0 } else { at + 2 };
        rows.push([BLOCK, first, 0, 0, 0, 0]);
        if number == 0 {
            rows[at as usize][NEXT] = at + 2;
            continue;
        }
        rows.extend([[EXPRESSION, at + 3, 0, 0, 0, 0], [ASSIGN, at + 4, at + 5, 0, 0, 0]]);
        rows.extend([[VARIABLE, 0, 0, 0, 0, 0], [CALL, number - 1, 0, 0, 0, 0]]);
    }
    let at = rows.len() as i32;
    rows.extend([[EXPRESSION, at + 1, 0, 0, 0, 0], [ASSIGN, at + 2, at + 3, 0, 0, 0]]);
    rows.extend([[VARIABLE, 0, 0, 0, 0, 0], [CALL, functions - 1, 0, 0, 0, 0]]);
    let rows = rows.concat();
    let ran =
        interpreter::on_large_stack(move || run(Kernel, &[1, 0, 0], &rows, &mut [7], u32::MAX));
    // Row 0, five rows for each function and the last call, and the innermost block.
    let count = 1 + 5 * functions as u32;
    assert_eq!(ran.map(|outcome| (outcome.ending, outcome.count)), Ok((Ending::Ended, count)));
}

/// Damages on top of each other, of tables that were cut too.
#[test]
fn damaged_kernel_tables() {
    let mut causes = std::collections::BTreeSet::new();
    for number in 0..20_000 {
        let random = &mut Random::new(35, number);
        let program = generate_kernel::program(random);
        let (mut header, mut rows) = (program.header, program.rows.concat());
        generate_kernel::damage(random, &mut header, &mut rows);
        causes.insert(check(Kernel, &header, &rows).map_or_else(|refusal| refusal.number, |()| 0));
    }
    let expected = [0, 1, 2, 3, 4, 5, 6, 7, 12, 13, 19, 23, 24];
    assert!(expected.iter().all(|cause| causes.contains(cause)), "{causes:?}");
}
