//! Each cause with its place, and the order of neighbouring causes.

use interpreter::table::*;
use interpreter::tree::*;
use interpreter::Form::Source;
use interpreter::{check, run, Refusal};

fn refused(header: &[i32], rows: &[i32]) -> (u32, u32) {
    match check(Source, header, rows) {
        Ok(()) => (0, 0),
        Err(Refusal { number, place }) => (number, place),
    }
}

/// Rows of a block with these items.
fn table(items: Vec<Tree>) -> Vec<i32> {
    rows_in_order(&block(items))
}

fn nest(depth: usize) -> Tree {
    (1..depth).fold(block(vec![]), |inner, _| block(vec![inner]))
}

const LONE: [i32; 6] = [BLOCK, 0, 0, 0, 0, 0];

#[test]
fn headers() {
    for header in [
        vec![],
        vec![-1],
        vec![257],
        vec![0, 0],
        vec![0, 4097],
        vec![0, -1],
        vec![1, 4096, 4096],
        vec![0, i32::MAX, i32::MAX, 2],
        vec![i32::MIN, i32::MAX],
        vec![1; 34],
    ] {
        assert_eq!(refused(&header, &LONE), (1, 0), "{header:?}");
        assert_eq!(refused(&header, &[]), (1, 0), "{header:?}");
    }
    for header in [vec![0], vec![256], vec![0, 4096, 4096], vec![1; 33]] {
        assert_eq!(refused(&header, &LONE), (0, 0), "{header:?}");
    }
}

#[test]
fn sizes() {
    assert_eq!(refused(&[0], &[]), (2, 0));
    assert_eq!(refused(&[0], &LONE[..5]), (2, 0));
    assert_eq!(refused(&[0], &[42, 0, 0, 0, 0, 0, 7]), (2, 0));
    let empties = |rows: usize| table((1..rows).map(|_| plain(EMPTY)).collect());
    assert_eq!(refused(&[0], &empties(2048)), (0, 0));
    assert_eq!(refused(&[0], &empties(2049)), (2, 0));
    let mut rows = empties(2049);
    rows[6] = 99;
    assert_eq!(refused(&[0], &rows), (2, 0));
    rows.truncate(2048 * 6);
    assert_eq!(refused(&[0], &rows), (3, 1));
}

#[test]
fn kinds_and_unused_fields() {
    for kind in (-3..70).chain([i32::MIN, i32::MAX]) {
        let statement =
            (40..=51).contains(&kind) || (54..=56).contains(&kind) || (58..=60).contains(&kind);
        let known = (1..=32).contains(&kind) || statement;
        assert_eq!(Source.fields(kind).is_some(), known, "{kind}");
        let rows = [BLOCK, 1, 0, 0, 0, 0, kind, 0, 0, 0, 0, 0];
        assert_eq!(refused(&[1, 1], &rows) == (3, 1), !known, "{kind}");
    }
    // Every field that the kind does not name, and next of an expression.
    for kind in 1..=LAST_KIND {
        let Some(fields) = Source.fields(kind) else { continue };
        for i in 1..WORDS {
            let unused =
                if i == NEXT { is_expression(kind) } else { fields[i - 1] == Field::Unused };
            let mut rows = [BLOCK, 1, 0, 0, 0, 0, kind, 0, 0, 0, 0, 0];
            rows[6 + i] = -1;
            assert_eq!(refused(&[1, 1], &rows) == (3, 1), unused, "{kind} {i}");
        }
    }
    assert_eq!(refused(&[0], &[1, 0, 0, 0, 0, 5]), (3, 0));
    // The lowest row, linked or not.
    let rows = [LONE, [EMPTY, 0, 0, 0, 0, 0], [0; 6], [EMPTY, 1, 0, 0, 0, 0]].concat();
    assert_eq!(refused(&[0], &rows), (3, 2));
}

#[test]
fn links() {
    for link in [-1, 2, 3, i32::MIN, i32::MAX] {
        let rows = [BLOCK, link, 0, 0, 0, 0, EMPTY, 0, 0, 0, 0, 0];
        assert_eq!(refused(&[0], &rows), (4, 0), "{link}");
        let rows = [BLOCK, 1, 0, 0, 0, 0, EMPTY, 0, 0, 0, 0, link];
        assert_eq!(refused(&[0], &rows), (4, 1), "{link}");
    }
    let next = [BLOCK, 1, 0, 0, 0, 0, EMPTY, 0, 0, 0, 0, 1];
    assert_eq!(refused(&[0], &next), (4, 1));
    // A link that is needed and absent.
    for kind in (3..=30).chain([EXPRESSION, IF, WHILE, DO, FOR, SWITCH, ARM, DECLARE]) {
        let rows = [BLOCK, 0, 0, 0, 0, 0, kind, 0, 0, 0, 0, 0];
        assert_eq!(refused(&[1, 1], &rows), (4, 1), "{kind}");
    }
    // Sorts: a statement as an operand, a constant as a place, an expression as a body.
    let of = |row: Row, last: Row| [[BLOCK, 1, 0, 0, 0, 0], row, last].concat();
    let empty = [EMPTY, 0, 0, 0, 0, 0];
    let constant = [CONSTANT, 0, 0, 0, 0, 0];
    assert_eq!(refused(&[1], &of([EXPRESSION, 2, 0, 0, 0, 0], empty)), (4, 1));
    assert_eq!(refused(&[1], &of([FOR, 0, 0, 0, 2, 0], constant)), (4, 1));
    assert_eq!(refused(&[1], &of([FOR, 2, 0, 0, 2, 0], empty)), (4, 1));
    assert_eq!(refused(&[1], &of([BLOCK, 2, 0, 0, 0, 0], constant)), (4, 1));
    assert_eq!(refused(&[1], &of([EMPTY, 0, 0, 0, 0, 2], constant)), (4, 1));
    let rows =
        [of([EXPRESSION, 2, 0, 0, 0, 0], [POST_INCREMENT, 3, 0, 0, 0, 0]), constant.to_vec()];
    assert_eq!(refused(&[1], &rows.concat()), (4, 2));
    // An unlinked row with a bad link is 4.
    assert_eq!(refused(&[1], &[LONE, [MINUS, 0, 0, 0, 0, 0]].concat()), (4, 1));
    // Row 0's next is a link.
    assert_eq!(refused(&[1], &[BLOCK, 0, 0, 0, 0, -5]), (4, 0));
}

#[test]
fn branches_and_bodies_with_next() {
    // Owner row 1, constant row 2, statement row 3 with a next.
    for owner in
        [[IF, 2, 3, 0, 0, 0], [WHILE, 2, 3, 0, 0, 0], [DO, 3, 2, 0, 0, 0], [FOR, 0, 2, 0, 3, 0]]
    {
        for next in [4, -1, 3, 99] {
            let rows = [
                [BLOCK, 1, 0, 0, 0, 0],
                owner,
                [CONSTANT, 0, 0, 0, 0, 0],
                [EMPTY, 0, 0, 0, 0, next],
                [EMPTY, 0, 0, 0, 0, 0],
            ];
            assert_eq!(refused(&[0], &rows.concat()), (4, 1), "{owner:?} {next}");
        }
    }
    let rows = [
        [BLOCK, 1, 0, 0, 0, 0],
        [IF, 2, 3, 4, 0, 0],
        [CONSTANT, 0, 0, 0, 0, 0],
        [EMPTY, 0, 0, 0, 0, 0],
        [EMPTY, 0, 0, 0, 0, 5],
        [EMPTY, 0, 0, 0, 0, 0],
    ];
    assert_eq!(refused(&[0], &rows.concat()), (4, 1));
}

#[test]
fn linked_exactly_once() {
    let empty = [EMPTY, 0, 0, 0, 0, 0];
    assert_eq!(refused(&[0], &empty), (5, 0));
    assert_eq!(refused(&[0], &[CONSTANT, 7, 0, 0, 0, 0]), (5, 0));
    assert_eq!(refused(&[0], &[[BLOCK, 0, 0, 0, 0, 1], empty].concat()), (5, 0));
    assert_eq!(refused(&[0], &[LONE, empty].concat()), (5, 1));
    // One operand twice; row 4 is not linked, row 3 is the lower one.
    let rows = [
        [BLOCK, 1, 0, 0, 0, 0],
        [EXPRESSION, 2, 0, 0, 0, 0],
        [ADD, 3, 3, 0, 0, 0],
        [CONSTANT, 1, 0, 0, 0, 0],
        [CONSTANT, 1, 0, 0, 0, 0],
    ];
    assert_eq!(refused(&[0], &rows.concat()), (5, 3));
    // Links of unlinked rows count.
    let rows = [LONE, [EXPRESSION, 2, 0, 0, 0, 0], [CONSTANT, 1, 0, 0, 0, 0]];
    assert_eq!(refused(&[0], &rows.concat()), (5, 1));
    // Two lists that meet.
    let rows = [[BLOCK, 1, 0, 0, 0, 0], [BLOCK, 2, 0, 0, 0, 2], [EMPTY, 0, 0, 0, 0, 0]];
    assert_eq!(refused(&[0], &rows.concat()), (5, 2));
}

#[test]
fn numbers() {
    let read = |number| table(vec![expression(variable(number))]);
    let index = |array| table(vec![expression(element(array, constant(0)))]);
    for (number, place) in [(0, (0, 0)), (1, (0, 0)), (2, (6, 2)), (-1, (6, 2)), (i32::MAX, (6, 2))]
    {
        assert_eq!(refused(&[2, 3], &read(number)), place);
        assert_eq!(refused(&[9, 3, 3], &index(number)), place);
    }
    assert_eq!(refused(&[0, 3], &read(0)), (6, 2));
    assert_eq!(refused(&[3], &index(0)), (6, 2));
}

#[test]
fn jumps_and_marks() {
    let jump = |kind| table(vec![plain(kind)]);
    for kind in [BREAK, CONTINUE, DEFAULT] {
        assert_eq!(refused(&[0], &jump(kind)), (7, 1));
        // As a body of a loop: the jumps are in place, the mark is not.
        let rows = table(vec![while_loop(constant(0), plain(kind))]);
        assert_eq!(refused(&[0], &rows), if kind == DEFAULT { (7, 3) } else { (0, 0) });
        // As an item of a switch: before its marks too.
        let rows = table(vec![switch(constant(0), vec![plain(kind), case(1)])]);
        assert_eq!(refused(&[0], &rows), if kind == CONTINUE { (7, 3) } else { (0, 0) });
        // In an if in a block in a switch in a loop.
        let deep = choice(constant(1), plain(kind), None);
        let inner = switch(constant(1), vec![block(vec![deep])]);
        let rows = table(vec![do_loop(inner, constant(0))]);
        assert_eq!(refused(&[0], &rows), if kind == DEFAULT { (7, 7) } else { (0, 0) });
    }
    // After the loop is outside again.
    let items = vec![while_loop(constant(0), plain(BREAK)), plain(BREAK)];
    assert_eq!(refused(&[0], &table(items)), (7, 4));
    // An item of a block in a switch is no item of the switch's own list.
    let rows = table(vec![switch(constant(0), vec![case(1), block(vec![case(2)])])]);
    assert_eq!(refused(&[0], &rows), (7, 5));
}

#[test]
fn repeated_marks() {
    let marks = |marks: Vec<Tree>| table(vec![switch(constant(0), marks)]);
    assert_eq!(refused(&[0], &marks(vec![case(1), case(2), plain(DEFAULT)])), (0, 0));
    assert_eq!(refused(&[0], &marks(vec![case(1), plain(EMPTY), case(1)])), (8, 5));
    assert_eq!(refused(&[0], &marks(vec![plain(DEFAULT), case(1), plain(DEFAULT)])), (8, 5));
    // The second pair stands lower than the third of the first.
    let row = vec![case(1), case(2), case(2), case(1)];
    assert_eq!(refused(&[0], &marks(row)), (8, 5));
    // Nested switches have marks of their own; the lowest row of all counts.
    let inner = |second| switch(constant(0), vec![case(1), case(second)]);
    assert_eq!(refused(&[0], &marks(vec![case(1), inner(2), case(2)])), (0, 0));
    assert_eq!(refused(&[0], &marks(vec![case(1), inner(1), case(1)])), (8, 7));
}

#[test]
fn depth() {
    assert_eq!(refused(&[0], &table(vec![nest(63)])), (0, 0));
    assert_eq!(refused(&[0], &table(vec![nest(64)])), (9, 64));
    assert_eq!(refused(&[0], &table(vec![nest(63), nest(64)])), (9, 127));
    let items = (0..500).map(|_| plain(EMPTY)).collect();
    assert_eq!(refused(&[0], &table(items)), (0, 0));
    // Arms are one list: each has the guarded statement's depth and 1, guard and block 2.
    let arms = |depth| {
        let last = arm(constant(0), vec![nest(depth)]);
        table(vec![guarded(GUARDED_IF, vec![arm(constant(1), vec![]), last])])
    };
    assert_eq!(refused(&[0], &arms(60)), (0, 0));
    assert_eq!(refused(&[0], &arms(61)), (9, 68));
}

#[test]
fn neighbouring_causes() {
    let twice = || switch(constant(0), vec![case(1), case(1)]);
    // 8 at a low row, 7 at a high one.
    let rows = table(vec![twice(), plain(EMPTY), plain(CONTINUE)]);
    assert_eq!(refused(&[0], &rows), (7, 6));
    // 9 at a low row, 8 at a high one.
    assert_eq!(refused(&[0], &table(vec![nest(70), twice()])), (8, 74));
    // 7 at a low row, 6 at a high one.
    let rows = table(vec![plain(BREAK), expression(variable(0))]);
    assert_eq!(refused(&[0], &rows), (6, 3));
    // 6 at a low row, 5 at a high one.
    let mut rows = table(vec![expression(variable(0))]);
    rows.extend([EMPTY, 0, 0, 0, 0, 0]);
    assert_eq!(refused(&[0], &rows), (5, 3));
    // 5 at row 0, 4 at the last row.
    rows[0] = EMPTY;
    rows[1] = 0;
    rows[23] = 1;
    assert_eq!(refused(&[0], &rows), (4, 3));
    // 4 at row 1, 3 at the last row.
    rows[7] = 0;
    assert_eq!(refused(&[0], &rows), (4, 1));
    rows[19] = 1;
    assert_eq!(refused(&[0], &rows), (3, 3));
}

#[test]
fn the_store_comes_last() {
    assert_eq!(run(Source, &[1], &LONE, &mut [], 5).unwrap_err(), Refusal::new(11, 0));
    assert_eq!(run(Source, &[1], &LONE, &mut [1, 2], 5).unwrap_err(), Refusal::new(11, 0));
    assert!(run(Source, &[1], &LONE, &mut [1], 5).is_ok());
    let mut store = [7, 8];
    let rows = table(vec![plain(BREAK)]);
    assert_eq!(run(Source, &[1], &rows, &mut store, 5).unwrap_err(), Refusal::new(7, 1));
    assert_eq!(store, [7, 8]);
}
