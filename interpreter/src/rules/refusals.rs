//! Refusals: each cause, the order of neighbouring ones, and malformed texts.

use super::*;

pub fn add(r: &mut Vec<Rule>) {
    headers_and_row_counts(r);
    tables(r);
    arms(r);
    programs(r);
    malformed(r);
}

/// A block without items.
const LONE: [Row; 1] = [[BLOCK, 0, 0, 0, 0, 0]];

/// Causes 1 and 2.
fn headers_and_row_counts(r: &mut Vec<Rule>) {
    table_rule(r, "V over 256", &[257], &LONE, "refused 1 0");
    table_rule(r, "V of -1", &[-1], &LONE, "refused 1 0");
    table_rule(r, "a length of 0", &[1, 0], &LONE, "refused 1 0");
    table_rule(r, "a length of 4097", &[1, 4097], &LONE, "refused 1 0");
    table_rule(r, "S of 8193", &[1, 4096, 4096], &LONE, "refused 1 0");
    table_rule(r, "1 before 2", &[257], &[], "refused 1 0");
    table_rule(r, "no rows", &[1], &[], "refused 2 0");
    let many = |rows| block((1..rows).map(|_| plain(EMPTY)).collect());
    let table = |rows| text::write(&[0], &rows_in_order(&many(rows)));
    text_rule(r, "2048 rows", &table(2048), "ended 2048");
    text_rule(r, "2049 rows", &table(2049), "refused 2 0");
}

/// Causes 3, 4 and 5.
fn tables(r: &mut Vec<Rule>) {
    let with = |kind| [[BLOCK, 1, 0, 0, 0, 0], [kind, 0, 0, 0, 0, 0]];
    for kind in [0, 33, 39, 52, 53, 57, 61, -1, i32::MAX] {
        table_rule(r, "a kind not in the language", &[1], &with(kind), "refused 3 1");
    }
    let rows = [[BLOCK, 1, 0, 0, 0, 0], [EXPRESSION, 2, 0, 0, 0, 0], [CONSTANT, 1, 0, 0, 0, 9]];
    table_rule(r, "next of an expression", &[1], &rows, "refused 3 2");
    let rows = [[BLOCK, -1, 0, 0, 0, 0], [EMPTY, 0, 0, 0, 1, 0]];
    table_rule(r, "3 before 4", &[1], &rows, "refused 3 1");
    let rows = [[BLOCK, 1, 0, 0, 0, 0], [CONSTANT, 1, 0, 0, 0, 0]];
    table_rule(r, "an expression as an item", &[1], &rows, "refused 4 0");
    let rows = [[BLOCK, 1, 0, 0, 0, 0], [EMPTY, 0, 0, 0, 0, 1]];
    table_rule(r, "next to its own row", &[1], &rows, "refused 4 1");
    let rows = [
        [BLOCK, 1, 0, 0, 0, 0],
        [WHILE, 2, 3, 0, 0, 0],
        [CONSTANT, 0, 0, 0, 0, 0],
        [EMPTY, 0, 0, 0, 0, 4],
        [EMPTY, 0, 0, 0, 0, 0],
    ];
    table_rule(r, "a body with next", &[1], &rows, "refused 4 1");
    let rows = [[BLOCK, 1, 0, 0, 0, 2], [EMPTY, 0, 0, 0, 0, 0], [EMPTY, 0, 0, 0, 0, 0]];
    table_rule(r, "row 0 with next", &[1], &rows, "refused 5 0");
    table_rule(r, "row 0 no block", &[1], &[[EMPTY, 0, 0, 0, 0, 0]], "refused 5 0");
    let rows = [[BLOCK, 0, 0, 0, 0, 0], [EXPRESSION, 2, 0, 0, 0, 0], [VARIABLE, 9, 0, 0, 0, 0]];
    table_rule(r, "5 before 6", &[1], &rows, "refused 5 1");
}

/// Causes 3, 4 and 5 where there are arms. Rows 3 to 5 are a guard, a block and an empty statement.
fn arms(r: &mut Vec<Rule>) {
    let table = |statement: Row, arm: Row, block: Row| {
        [
            [BLOCK, 1, 0, 0, 0, 0],
            statement,
            arm,
            [CONSTANT, 1, 0, 0, 0, 0],
            block,
            [EMPTY, 0, 0, 0, 0, 0],
        ]
    };
    let mut refused = |name, statement, arm, block, answer| {
        table_rule(r, name, &[1], &table(statement, arm, block), answer);
    };
    let statement = [GUARDED_IF, 2, 0, 0, 0, 0];
    let arm = [ARM, 3, 4, 0, 0, 0];
    let block = [BLOCK, 5, 0, 0, 0, 0];
    refused("an arm", statement, arm, block, "ended 6 0");
    refused("an arm as an item", [EMPTY, 0, 0, 0, 0, 2], arm, block, "refused 4 1");
    refused("an arm as a first item", [BLOCK, 2, 0, 0, 0, 0], arm, block, "refused 4 1");
    refused("an arm as a body", [WHILE, 3, 2, 0, 0, 0], arm, block, "refused 4 1");
    refused("a while among arms", statement, [WHILE, 3, 4, 0, 0, 0], block, "refused 4 1");
    refused("a statement behind an arm", statement, [ARM, 3, 4, 0, 0, 5], block, "refused 4 2");
    refused("an arm without a guard", statement, [ARM, 0, 4, 0, 0, 0], block, "refused 4 2");
    refused("an arm without a block", statement, [ARM, 3, 0, 0, 0, 0], block, "refused 4 2");
    refused("an arm's body no block", statement, [ARM, 3, 5, 0, 0, 0], block, "refused 4 2");
    refused("an arm's block with next", statement, arm, [BLOCK, 0, 0, 0, 0, 5], "refused 4 2");
    refused("c of an arm", statement, [ARM, 3, 4, 1, 0, 0], block, "refused 3 2");
    refused("b of a guarded if", [GUARDED_IF, 2, 5, 0, 0, 0], arm, block, "refused 3 1");
    refused("an abort before 4", [ABORT, 0, 0, 0, 0, 2], arm, block, "refused 3 1");
    refused("an arm not linked", [GUARDED_DO, 0, 0, 0, 0, 0], arm, block, "refused 5 2");
    let lone = [[ARM, 1, 2, 0, 0, 0], [CONSTANT, 1, 0, 0, 0, 0], LONE[0]];
    table_rule(r, "row 0 an arm", &[1], &lone, "refused 5 0");
    let inside = |item| vec![guarded(GUARDED_DO, vec![super::arm(n(1), vec![item])])];
    rule(r, "break in a guarded do alone", &[1], &[], inside(plain(BREAK)), "refused 7 5");
    rule(r, "continue in a guarded do alone", &[1], &[], inside(plain(CONTINUE)), "refused 7 5");
    let marked = vec![switch(n(1), vec![case(1), inside(case(2)).remove(0)])];
    rule(r, "case in an arm's block", &[1], &[], marked, "refused 7 8");
}

/// Causes 6, 7, 8 and 11.
fn programs(r: &mut Vec<Rule>) {
    let jumps = vec![plain(CONTINUE), expression(v(1))];
    rule(r, "6 before 7", &[1], &[], jumps, "refused 6 3");
    rule(
        r,
        "a variable number among the arrays",
        &[1, 3],
        &[],
        vec![expression(v(1))],
        "refused 6 2",
    );
    let element = vec![expression(element(1, n(0)))];
    rule(r, "no such array", &[1, 3], &[], element, "refused 6 2");
    rule(r, "break at the top", &[1], &[], vec![plain(BREAK)], "refused 7 1");
    let inner = vec![switch(n(1), vec![case(1), plain(CONTINUE)])];
    rule(r, "continue in a switch alone", &[1], &[], inner, "refused 7 4");
    rule(r, "case in a block", &[1], &[], vec![case(1)], "refused 7 1");
    let inner = vec![switch(n(1), vec![block(vec![plain(DEFAULT)])])];
    rule(r, "default in a block in a switch", &[1], &[], inner, "refused 7 4");
    let body = vec![switch(n(1), vec![case(1), while_loop(n(0), case(2))])];
    rule(r, "case as a body", &[1], &[], body, "refused 7 6");
    let twice = switch(n(1), vec![case(1), case(2), case(1)]);
    rule(r, "7 before 8", &[1], &[], vec![twice.clone(), plain(BREAK)], "refused 7 6");
    rule(r, "a case twice", &[1], &[], vec![twice], "refused 8 5");
    let twice = switch(n(1), vec![plain(DEFAULT), case(1), plain(DEFAULT)]);
    rule(r, "default twice", &[1], &[], vec![twice.clone()], "refused 8 5");
    let outer = switch(n(1), vec![case(1), twice, case(1)]);
    rule(r, "the inner switch first", &[1], &[], vec![outer], "refused 8 8");
    let mut words = Rule {
        name: "store not of S words",
        case: Case { budget: 9, words: vec![1, 2], text: text::write(&[1], &LONE.concat()) },
        answer: "refused 11 0".to_string(),
    };
    words.case.words.push(3);
    r.push(words);
}

/// What is no field of a text, nor several.
const MALFORMED: [&str; 21] = [
    "-",
    "--1",
    "-01",
    "00",
    "01",
    "-0",
    "+0",
    "+1",
    " 1",
    "1 ",
    "1\r",
    "a",
    "\u{2212}1",
    "\u{feff}1",
    "1\0",
    "2147483648",
    "-2147483649",
    "1\t",
    "\t1",
    "1\t\t1",
    "99999999999999999999",
];

fn malformed(r: &mut Vec<Rule>) {
    let line = "42\t0\t0\t0\t0\t0\n";
    let first = |first: &str| format!("{first}\n{line}");
    text_rule(r, "empty text", b"", "refused 14 1");
    text_rule(r, "empty line", b"\n", "refused 14 1");
    text_rule(r, "a header alone", b"1\n", "refused 2 0");
    text_rule(r, "a header without newline", b"1", "refused 14 1");
    text_rule(r, "a row without newline", b"1\n42\t0\t0\t0\t0\t0", "refused 14 2");
    text_rule(r, "an empty line at the end", b"1\n42\t0\t0\t0\t0\t0\n\n", "refused 14 3");
    for bad in MALFORMED {
        text_rule(r, "malformed header", first(bad).as_bytes(), "refused 14 1");
        let row = format!("1\n{line}42\t{bad}\t0\t0\t0\t0\n");
        text_rule(r, "malformed row", row.as_bytes(), "refused 14 3");
    }
    text_rule(r, "the least number in line 1", first("-2147483648").as_bytes(), "refused 1 0");
    text_rule(r, "the greatest number in line 1", first("2147483647").as_bytes(), "refused 1 0");
    let ones = |count: usize| first(&vec!["1"; count].join("\t"));
    let words = " 0".repeat(33);
    text_rule(r, "33 numbers in line 1", ones(33).as_bytes(), &format!("ended 1{words}"));
    text_rule(r, "34 numbers in line 1", ones(34).as_bytes(), "refused 14 1");
    text_rule(r, "five numbers", b"1\n42\t0\t0\t0\t0\n", "refused 14 2");
    text_rule(r, "seven numbers", b"1\n42\t0\t0\t0\t0\t0\t0\n", "refused 14 2");
    text_rule(r, "14 before 1", b"257\n42\n", "refused 14 2");
    text_rule(r, "the first malformed line", b"1\n\n00\n", "refused 14 2");
}
