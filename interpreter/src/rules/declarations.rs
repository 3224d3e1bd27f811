//! Names inside a block: scope, steps and words of declarations, and their refusals.
//! Declared words stand behind the first S in the answers.

use super::*;

pub fn add(r: &mut Vec<Rule>) {
    scopes(r);
    loops_and_jumps(r);
    steps(r);
    words(r);
    places(r);
    names(r);
    numbers_of_them(r);
}

/// The statement `v = other;`
fn copy(number: i32, other: i32) -> Tree {
    expression(set(v(number), v(other)))
}

fn scopes(r: &mut Vec<Rule>) {
    let innermost = block(vec![declare(0, n(4)), store(0, 5)]);
    let inner = block(vec![declare(0, n(3)), innermost, copy(1, 0)]);
    let outer = block(vec![declare(0, n(2)), inner, copy(2, 0)]);
    let items = vec![store(0, 1), outer, copy(3, 0)];
    rule(r, "three names of one number", &[4], &[], items, "ended 30 1 3 2 1 2 3 5");
    let items = vec![block(vec![store(0, 1), declare(0, v(1)), store(0, 2)]), copy(2, 0)];
    rule(r, "the outer name before and after", &[3], &[0, 7, 0, 9], items, "ended 16 1 7 1 2");
    let items = vec![block(vec![store(0, 3), declare(0, n(7))]), copy(1, 0)];
    rule(r, "a declaration as the last item", &[2], &[], items, "ended 12 3 3 7");
    rule(r, "a declaration alone", &[1], &[], vec![declare(0, n(7))], "ended 3 0 7");
    let items = vec![declare(0, n(1)), block(vec![declare(1, v(0))])];
    rule(r, "a first value from a declared word", &[2], &[], items, "ended 6 0 0 1 1");
    let items = vec![
        block(vec![declare(0, n(5)), declare(1, v(0)), expression(post(v(0)))]),
        block(vec![declare(1, v(0)), expression(post(v(1)))]),
    ];
    rule(r, "one block's names are not another's", &[2], &[], items, "ended 15 0 0 6 5 1");
    let case_block = block(vec![declare(0, n(6)), copy(1, 0)]);
    let items = vec![switch(v(0), vec![case(1), case_block, case(2), copy(2, 0)])];
    rule(r, "a block in a switch", &[3], &[1, 0, 0, 0], items, "ended 16 1 6 1 6");
    let marks = vec![case(1), store(1, 1), plain(BREAK), case(2), copy(1, 0)];
    let items = vec![declare(0, n(2)), switch(v(0), marks)];
    rule(r, "a switch in the scope of a name", &[2], &[], items, "ended 10 0 2 2");
    let arms = vec![arm(n(1), vec![declare(0, n(4)), copy(1, 0)])];
    let items = vec![guarded(GUARDED_IF, arms), copy(2, 0)];
    rule(r, "an arm's block", &[3], &[8, 0, 0, 0], items, "ended 15 8 4 8 4");
    let index = expression(set(a(v(0)), v(0)));
    let items = vec![block(vec![declare(0, n(2)), index]), expression(set(a(v(0)), n(9)))];
    rule(r, "a declared index", &[1, 3], &[], items, "ended 14 0 9 0 2 2");
}

fn loops_and_jumps(r: &mut Vec<Rule>) {
    let count_up = |count, body| {
        let test = Some(binary(LESS, v(0), n(count)));
        for_loop(Some(set(v(0), n(0))), test, Some(post(v(0))), body)
    };
    let more = |number, value| expression(binary(ADD_ASSIGN, v(number), value));
    let body = block(vec![declare(1, v(0)), more(1, n(10)), more(2, v(1))]);
    rule(r, "declared anew each round", &[3], &[], vec![count_up(3, body)], "ended 56 3 0 33 12");
    let body = block(vec![declare(0, n(9)), store(0, 8), more(1, v(0))]);
    rule(
        r,
        "test and step see the outer name",
        &[2],
        &[],
        vec![count_up(2, body)],
        "ended 40 2 16 8",
    );
    let body = block(vec![declare(0, n(0)), store(0, 5)]);
    let loops = vec![do_loop(body, binary(LESS, post(v(0)), n(1)))];
    rule(r, "so does the test of a do", &[1], &[], loops, "ended 24 2 5");
    let body = block(vec![declare(0, n(5)), plain(BREAK)]);
    let items = vec![while_loop(n(1), body), copy(1, 0)];
    rule(r, "break out of a scope", &[2], &[3, 0, 0], items, "ended 11 3 3 5");
    let body = block(vec![declare(0, n(7)), plain(CONTINUE)]);
    rule(r, "continue out of a scope", &[1], &[], vec![count_up(2, body)], "ended 26 2 7");
    let inner = block(vec![declare(0, n(1)), block(vec![declare(0, n(2)), plain(BREAK)])]);
    let items = vec![while_loop(n(1), inner), store(0, 4)];
    rule(r, "break out of two scopes", &[1], &[], items, "ended 14 4 1 2");
}

fn steps(r: &mut Vec<Rule>) {
    let alone = || vec![declare(0, n(7))];
    for (budget, answer) in [
        (0, "spent 0 5 6"),
        (1, "spent 1 5 6"),
        (2, "spent 2 5 6"),
        (3, "ended 3 5 7"),
        (u32::MAX, "ended 3 5 7"),
    ] {
        budget_rule(r, "a declaration and its budget", budget, &[1], &[5, 6], alone(), answer);
    }
    let writes = vec![declare(0, set(v(1), n(4)))];
    rule(r, "a first value with a store", &[2], &[], writes, "ended 5 0 4 4");
    let fault = vec![declare(0, binary(DIVIDE, n(1), n(0)))];
    rule(r, "a fault in a first value", &[1], &[5, 6], fault, "zero 5 5 6");
    let fault = vec![declare(0, n(i32::MAX)), expression(post(v(0)))];
    rule(r, "a declared word overflows", &[1], &[], fault, "overflow 6 0 2147483647");
}

/// Their order is that of the rows, and the store has one for each declaration.
fn words(r: &mut Vec<Rule>) {
    let rows = [
        [BLOCK, 1, 0, 0, 0, 0],
        [BLOCK, 5, 0, 0, 0, 2],
        [BLOCK, 3, 0, 0, 0, 0],
        [DECLARE, 0, 4, 0, 0, 0],
        [CONSTANT, 20, 0, 0, 0, 0],
        [DECLARE, 0, 6, 0, 0, 0],
        [CONSTANT, 10, 0, 0, 0, 0],
    ];
    table_rule(r, "words in row order, not in that of the lists", &[1], &rows, "ended 7 0 20 10");
    // An inner declaration whose row comes before that of an outer one.
    let rows = [
        [BLOCK, 1, 0, 0, 0, 0],
        [BLOCK, 2, 0, 0, 0, 4],
        [DECLARE, 0, 3, 0, 0, 0],
        [CONSTANT, 1, 0, 0, 0, 0],
        [DECLARE, 0, 5, 0, 0, 0],
        [CONSTANT, 2, 0, 0, 0, 0],
    ];
    table_rule(r, "an inner word before an outer one", &[1], &rows, "ended 6 0 1 2");
    for words in [&[5][..], &[5, 6, 7]] {
        rule(r, "store not of S+D words", &[1], words, vec![declare(0, n(1))], "refused 11 0");
    }
}

/// Causes 3 to 7.
fn places(r: &mut Vec<Rule>) {
    let table = |row: Row| [[BLOCK, 1, 0, 0, 0, 0], row, [CONSTANT, 1, 0, 0, 0, 0]];
    table_rule(r, "a declaration's c", &[1], &table([DECLARE, 0, 2, 1, 0, 0]), "refused 3 1");
    let rows = [[BLOCK, 1, 0, 0, 0, 0], [DECLARE, 0, 0, 0, 0, 0]];
    table_rule(r, "no first value", &[1], &rows, "refused 4 1");
    let rows = [[BLOCK, 1, 0, 0, 0, 0], [DECLARE, 0, 2, 0, 0, 0], [EMPTY, 0, 0, 0, 0, 0]];
    table_rule(r, "a statement as first value", &[1], &rows, "refused 4 1");
    let rows = [[DECLARE, 0, 1, 0, 0, 0], [CONSTANT, 1, 0, 0, 0, 0]];
    table_rule(r, "row 0 a declaration", &[1], &rows, "refused 5 0");
    for number in [1, 4, -1, i32::MAX] {
        rule(
            r,
            "a declared number outside",
            &[1, 3],
            &[],
            vec![declare(number, n(1))],
            "refused 6 1",
        );
    }
    let one = || declare(0, n(1));
    let items = vec![switch(n(1), vec![case(1), one()])];
    rule(r, "a declaration in a switch", &[1], &[], items, "refused 7 4");
    rule(r, "a declaration as a branch", &[1], &[], vec![choice(n(1), one(), None)], "refused 7 3");
    rule(r, "a declaration as a body", &[1], &[], vec![while_loop(n(0), one())], "refused 7 3");
    rule(r, "a do's body", &[1], &[], vec![do_loop(one(), n(0))], "refused 7 2");
    let nest = (0..64).fold(one(), |inner, _| block(vec![inner]));
    rule(r, "7 before 9", &[1], &[], vec![plain(BREAK), nest], "refused 7 1");
}

/// Causes 18 and 19.
fn names(r: &mut Vec<Rule>) {
    for value in [
        v(0),
        binary(ADD, n(1), v(0)),
        set(v(0), n(1)),
        post(v(0)),
        a(v(0)),
        set(a(binary(AND, n(0), v(0))), n(1)),
        conditional(n(1), n(2), unary(MINUS, v(0))),
    ] {
        rule(
            r,
            "a first value that names its number",
            &[2, 3],
            &[],
            vec![declare(0, value)],
            "refused 18 1",
        );
    }
    let items = vec![declare(0, n(1)), block(vec![declare(0, v(0))])];
    rule(r, "also where that is a declared one", &[1], &[], items, "refused 18 4");
    let deep = (0..63).fold(declare(0, v(0)), |inner, _| block(vec![inner]));
    rule(r, "9 before 18", &[1], &[], vec![deep], "refused 9 64");
    let twice = || vec![declare(0, n(1)), declare(0, n(2))];
    rule(r, "a number declared twice", &[2], &[], twice(), "refused 19 3");
    let items = [twice(), vec![declare(1, v(1))]].concat();
    rule(r, "18 before 19", &[2], &[], items, "refused 18 5");
    let items = vec![declare(0, n(1)), block(twice()), declare(1, n(2)), declare(0, n(3))];
    rule(r, "the inner block first", &[2], &[], items, "refused 19 6");
    let items = vec![declare(0, n(1)), block(vec![declare(0, n(2))]), declare(1, n(3))];
    rule(r, "declared again in a block", &[2], &[], items, "ended 8 0 0 1 2 3");
}

/// Cause 20, and as many as can be.
fn numbers_of_them(r: &mut Vec<Rule>) {
    let blocks = |count| (0..count).map(|_| block(vec![declare(0, n(1))])).collect::<Vec<Tree>>();
    let answer = format!("ended 193 0{}", " 1".repeat(64));
    rule(r, "64 declarations", &[1], &[], blocks(64), &answer);
    rule(r, "65 declarations", &[1], &[], blocks(65), "refused 20 194");
    let twice = block(vec![declare(0, n(1)), declare(0, n(1))]);
    rule(r, "19 before 20", &[1], &[], [blocks(65), vec![twice]].concat(), "refused 19 199");
    let all: Vec<Tree> = (0..64).map(|i| declare(i, n(i))).collect();
    let own: String = (0..64).map(|i| format!(" {i}")).collect();
    let answer = format!("ended 129{}{own}", " 0".repeat(64));
    rule(r, "64 in one block", &[64], &[], all, &answer);
}
