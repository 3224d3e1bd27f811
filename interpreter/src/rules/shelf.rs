//! The rules on the shelf, the worked example, the limit of depth, and the
//! rewritings that lose parcels.

use super::*;

pub fn add(r: &mut Vec<Rule>) {
    shelf(r);
    worked_example(r);
    depth(r);
    lost_values(r);
    lost_turns(r);
}

fn shelf(r: &mut Vec<Rule>) {
    let or = binary(OR, n(0), n(7));
    value_rule(r, "0 || 7 is 1", &[1], &[], set(v(0), or), "ended 7 1");
    let and = binary(AND, n(0), set(v(0), n(1)));
    value_rule(r, "0 && (v0 = 1) is 0", &[2], &[5, 9], set(v(1), and), "ended 6 5 0");
    let sum = binary(ADD, set(v(0), n(5)), v(0));
    value_rule(r, "(v0 = 5) + v0 is 9", &[2], &[4, 0], set(v(1), sum), "ended 9 5 9");
    let compound = binary(ADD_ASSIGN, v(0), set(v(0), n(3)));
    value_rule(r, "v0 += (v0 = 3) leaves 6", &[1], &[1], compound, "ended 7 6");
    let quotient = |kind, left| set(v(0), binary(kind, left, n(2)));
    value_rule(r, "-7 / 2", &[1], &[], quotient(DIVIDE, n(-7)), "ended 7 -3");
    value_rule(r, "-7 % 2", &[1], &[], quotient(REMAINDER, n(-7)), "ended 7 -1");
    let minus = || unary(MINUS, n(7));
    value_rule(r, "-(7) / 2", &[1], &[], quotient(DIVIDE, minus()), "ended 8 -3");
    value_rule(r, "-(7) % 2", &[1], &[], quotient(REMAINDER, minus()), "ended 8 -1");
    let sum = |left| set(v(0), binary(ADD, left, n(1)));
    value_rule(r, "2147483646 + 1", &[1], &[], sum(n(i32::MAX - 1)), "ended 7 2147483647");
    value_rule(r, "2147483647 + 1", &[1], &[], sum(n(i32::MAX)), "overflow 6 0");
    let read = |index| set(v(0), a(n(index)));
    let words = [0, 7, 8, 9];
    value_rule(r, "index 2 of 3", &[1, 3], &words, read(2), "ended 6 9 7 8 9");
    value_rule(r, "index 3 of 3", &[1, 3], &words, read(3), "index 5 0 7 8 9");
    value_rule(r, "index -1", &[1, 3], &words, read(-1), "index 5 0 7 8 9");
    let items = vec![case(1), store(0, 1), case(2), store(1, 1), plain(DEFAULT), store(2, 1)];
    rule(r, "fall through", &[3], &[], vec![switch(n(1), items)], "ended 18 1 1 1");
    let items = || vec![plain(DEFAULT), store(0, 1), case(2), store(1, 1)];
    rule(r, "default first, 9", &[2], &[], vec![switch(n(9), items())], "ended 13 1 1");
    rule(r, "default first, 2", &[2], &[], vec![switch(n(2), items())], "ended 8 0 1");
    let body = block(vec![expression(post(v(0))), plain(CONTINUE)]);
    let test = binary(LESS, v(0), n(3));
    rule(r, "continue in do", &[1], &[], vec![do_loop(body, test)], "ended 26 3");
}

/// The program of document 01's text part.
pub const EXAMPLE: &str = "1\t3\n\
    42\t1\t0\t0\t0\t0\n\
    41\t2\t0\t0\t0\t5\n\
    21\t3\t4\t0\t0\t0\n\
    2\t0\t0\t0\t0\t0\n\
    1\t2\t0\t0\t0\t0\n\
    41\t6\t0\t0\t0\t0\n\
    21\t7\t11\t0\t0\t0\n\
    3\t0\t8\t0\t0\t0\n\
    23\t9\t10\t0\t0\t0\n\
    2\t0\t0\t0\t0\t0\n\
    1\t1\t0\t0\t0\t0\n\
    29\t12\t0\t0\t0\t0\n\
    2\t0\t0\t0\t0\t0\n";

fn worked_example(r: &mut Vec<Rule>) {
    for budget in 0..=14 {
        let answer = match budget {
            0..=4 => format!("spent {budget} 0 0 0 0"),
            5..=8 => format!("spent {budget} 2 0 0 0"),
            9..=12 => format!("spent {budget} 3 0 0 0"),
            _ => "ended 13 2 0 0 2".to_string(),
        };
        let text = EXAMPLE.as_bytes().to_vec();
        let case = Case { budget, words: Vec::new(), text };
        r.push(Rule { name: "worked example", case, answer });
    }
}

fn depth(r: &mut Vec<Rule>) {
    // The block has depth 1 and the expression statement 2.
    let minuses = |depth: i32| (3..depth).fold(n(1), |inner, _| unary(MINUS, inner));
    let blocks = |depth: i32| (2..depth).fold(block(vec![]), |inner, _| block(vec![inner]));
    value_rule(r, "minus to depth 64", &[0], &[], minuses(64), "ended 64");
    value_rule(r, "minus to depth 65", &[0], &[], minuses(65), "refused 9 64");
    rule(r, "blocks to depth 64", &[0], &[], vec![blocks(64)], "ended 64");
    rule(r, "blocks to depth 65", &[0], &[], vec![blocks(65)], "refused 9 64");
    let items = (0..100).map(|_| plain(EMPTY)).collect();
    rule(r, "items share their depth", &[0], &[], items, "ended 101");
    let both = vec![blocks(65), blocks(66)];
    rule(r, "the lowest row too deep", &[0], &[], both, "refused 9 64");
}

/// v0 = left || right
fn or(left: Tree, right: Tree) -> Tree {
    set(v(0), binary(OR, left, right))
}

/// The rewritings that give a wrong value.
fn lost_values(r: &mut Vec<Rule>) {
    // Logic1: e || e' as e ? 1 : e'.
    value_rule(r, "7 || 0", &[1], &[], or(n(7), n(0)), "ended 6 1");
    value_rule(r, "0 || -7", &[1], &[], or(n(0), n(-7)), "ended 7 1");
    value_rule(r, "0 || 0", &[1], &[], or(n(0), n(0)), "ended 7 0");
    value_rule(r, "(v0 = 0) || v0", &[1], &[3], or(set(v(0), n(0)), v(0)), "ended 9 0");
    // Ops: the right-hand variable left in the expression.
    let tail = binary(SUBTRACT, post(v(0)), v(0));
    value_rule(r, "v0++ - v0", &[2], &[4, 0], set(v(1), tail), "ended 8 5 0");
    let both = binary(SUBTRACT, set(v(0), n(5)), set(v(0), n(3)));
    value_rule(r, "(v0 = 5) - (v0 = 3)", &[2], &[], set(v(1), both), "ended 11 5 2");
    let chain = binary(ADD, binary(ADD, v(0), post(v(0))), post(v(0)));
    // Right: 1, v0 2; then the inner right: 2, v0 3; then v0: 3.
    value_rule(r, "v0 + v0++ + v0++", &[2], &[1, 0], set(v(1), chain), "ended 11 3 6");
}

/// The rewritings that go where the program does not.
fn lost_turns(r: &mut Vec<Rule>) {
    // LSE1: each case guarded by its own value.
    let items = || {
        vec![
            case(1),
            expression(set(v(0), n(2))),
            case(2),
            store(1, 1),
            plain(BREAK),
            case(3),
            store(2, 1),
        ]
    };
    rule(
        r,
        "the selector changes in a case",
        &[3],
        &[1, 0, 0],
        vec![switch(v(0), items())],
        "ended 14 2 1 0",
    );
    let over = vec![case(1), case(2), case(3), store(0, 1)];
    rule(r, "marks in a row", &[1], &[], vec![switch(n(1), over)], "ended 10 1");
    // The right side of && ahead of the left.
    let and = |left, right| set(v(0), binary(AND, left, right));
    let zero = || binary(DIVIDE, n(1), n(0));
    value_rule(r, "0 && 1/0", &[1], &[5], and(n(0), zero()), "ended 6 0");
    value_rule(r, "1 && 1/0", &[1], &[5], and(n(1), zero()), "zero 8 5");
    value_rule(r, "1 || 1/0", &[1], &[5], or(n(1), zero()), "ended 6 1");
    let guard = binary(AND, binary(LESS, v(0), n(3)), a(v(0)));
    value_rule(r, "v0 < 3 && a[v0]", &[1, 3], &[3, 1, 1, 1], guard, "ended 6 3 1 1 1");
}
