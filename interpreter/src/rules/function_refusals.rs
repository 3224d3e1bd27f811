//! The refusals of functions: causes 3 to 7, 9, 18 to 20, 23 and 24, their places and
//! their order.

use super::*;

pub fn add(r: &mut Vec<Rule>) {
    fields(r);
    links(r);
    places(r);
    declarations(r);
    definitions(r);
    calls(r);
}

fn empty_function() -> Tree {
    define(0, &[], vec![])
}

/// Row 0 with this row as its first item, and a constant behind it.
fn beginning(row: Row) -> [Row; 3] {
    [[BLOCK, 1, 0, 0, 0, 0], row, [CONSTANT, 1, 0, 0, 0, 0]]
}

/// Cause 3: the fields that are not used.
fn fields(r: &mut Vec<Rule>) {
    for row in [
        [CALL, 0, 0, 1, 0, 0],
        [CALL, 0, 0, 0, 1, 0],
        [CALL, 0, 0, 0, 0, 2],
        [ARGUMENT, 2, 1, 0, 0, 0],
        [ARGUMENT, 2, 0, 0, 1, 0],
        [DEFINE, 0, 0, 2, 1, 0],
        [RETURN, 0, 1, 0, 0, 0],
        [RETURN, 2, 0, 0, 1, 0],
    ] {
        table_rule(r, "an unused field of a function's row", &[1], &beginning(row), "refused 3 1");
    }
}

fn links(r: &mut Vec<Rule>) {
    let item = |row| table_of(&[row, [CONSTANT, 1, 0, 0, 0, 0]]);
    table_rule(r, "an argument as an item", &[1], &item([ARGUMENT, 2, 0, 0, 0, 0]), "refused 4 0");
    table_rule(r, "a call as an item", &[1], &item([CALL, 0, 0, 0, 0, 0]), "refused 4 0");
    let rows = table_of(&[[EXPRESSION, 2, 0, 0, 0, 0], [ARGUMENT, 3, 0, 0, 0, 0], constant_row()]);
    table_rule(r, "an argument as an expression", &[1], &rows, "refused 4 1");
    let called = |argument: Row, last: Row| {
        table_of(&[[EXPRESSION, 2, 0, 0, 0, 0], [CALL, 0, 3, 0, 0, 0], argument, last])
    };
    let rows = called(constant_row(), constant_row());
    table_rule(r, "an expression among the arguments", &[1], &rows, "refused 4 2");
    let rows = called([ARGUMENT, 4, 0, 0, 0, 4], constant_row());
    table_rule(r, "an expression behind an argument", &[1], &rows, "refused 4 3");
    let rows = called([ARGUMENT, 0, 0, 0, 0, 0], constant_row());
    table_rule(r, "an argument without its expression", &[1], &rows, "refused 4 3");
    let rows = called([ARGUMENT, 4, 0, 0, 0, 3], constant_row());
    table_rule(r, "an argument that leads to itself", &[1], &rows, "refused 4 3");
    let defined = |rows: &[Row]| table_of(&[&[[DEFINE, 0, 2, 3, 0, 0]], rows].concat());
    let block_row = [BLOCK, 0, 0, 0, 0, 0];
    let rows = defined(&[block_row, block_row]);
    table_rule(r, "a block as a parameter", &[1], &rows, "refused 4 1");
    let rows = defined(&[[DECLARE, 0, 0, 0, 0, 0], [EMPTY, 0, 0, 0, 0, 0]]);
    table_rule(r, "a body that is no block", &[1], &rows, "refused 4 1");
    let rows = defined(&[[DECLARE, 0, 0, 0, 0, 0], [BLOCK, 0, 0, 0, 0, 4], [EMPTY, 0, 0, 0, 0, 0]]);
    table_rule(r, "a body with a next", &[1], &rows, "refused 4 1");
    table_rule(r, "no body", &[1], &item([DEFINE, 0, 0, 0, 0, 0]), "refused 4 1");
    let rows = defined(&[[DECLARE, 0, 4, 0, 0, 0], block_row, constant_row()]);
    table_rule(r, "a parameter with a first value", &[1], &rows, "refused 4 2");
    let rows = defined(&[[DECLARE, 0, -1, 0, 0, 0], block_row]);
    table_rule(r, "a parameter whose b is no row", &[1], &rows, "refused 4 2");
    let rows = defined(&[[DECLARE, 0, 0, 0, 0, 4], block_row, [EMPTY, 0, 0, 0, 0, 0]]);
    table_rule(r, "another kind among the parameters", &[1], &rows, "refused 4 2");
    let second = [[DECLARE, 0, 0, 0, 0, 4], block_row, [DECLARE, 0, 5, 0, 0, 0], constant_row()];
    table_rule(r, "a second parameter with a value", &[1], &defined(&second), "refused 4 4");
    let rows = [[BLOCK, 1, 0, 0, 0, 0], [RETURN, 2, 0, 0, 0, 0], [EMPTY, 0, 0, 0, 0, 0]];
    table_rule(r, "a return of a statement", &[1], &rows, "refused 4 1");
    // A definition whose b is no later row makes no parameter.
    let rows = [
        [BLOCK, 1, 0, 0, 0, 0],
        [DECLARE, 0, 2, 0, 0, 3],
        constant_row(),
        [DEFINE, 0, 1, 4, 0, 0],
        block_row,
    ];
    table_rule(r, "a parameter before its definition", &[1], &rows, "refused 4 3");
    // A row that is both is a parameter, and linked twice.
    let rows =
        [[BLOCK, 1, 0, 0, 0, 0], [DEFINE, 0, 2, 3, 0, 2], [DECLARE, 0, 0, 0, 0, 0], block_row];
    table_rule(r, "a parameter that is an item, too", &[1], &rows, "refused 5 2");
    for row in [[CALL, 0, 0, 0, 0, 0], [RETURN, 0, 0, 0, 0, 0]] {
        table_rule(r, "row 0 of a function's kinds", &[1], &[row], "refused 5 0");
    }
    let rows = [[BLOCK, 0, 0, 0, 0, 0], [ARGUMENT, 2, 0, 0, 0, 0], constant_row()];
    table_rule(r, "an argument that nothing links", &[1], &rows, "refused 5 1");
}

fn constant_row() -> Row {
    [CONSTANT, 1, 0, 0, 0, 0]
}

/// Row 0 and these rows, the first of which is its item.
fn table_of(rows: &[Row]) -> Vec<Row> {
    [&[[BLOCK, 1, 0, 0, 0, 0]], rows].concat()
}

/// Causes 6 and 7.
fn places(r: &mut Vec<Rule>) {
    for number in [1, 4, -1, i32::MAX] {
        let items = vec![define(0, &[number], vec![])];
        rule(r, "a parameter's number outside", &[1, 3], &[], items, "refused 6 2");
    }
    rule(r, "a return outside a function", &[0], &[], vec![give_back(None)], "refused 7 1");
    let items = vec![empty_function(), while_loop(n(1), give_back(Some(n(1))))];
    rule(r, "a return in a loop", &[0], &[], items, "refused 7 5");
    let items = vec![define(0, &[], vec![plain(BREAK)])];
    rule(r, "a break in a function", &[0], &[], items, "refused 7 3");
    // By the text the break is inside a loop, and the definition out of its place.
    let items = vec![while_loop(n(1), block(vec![define(0, &[], vec![plain(BREAK)])]))];
    rule(r, "a definition in a loop", &[0], &[], items, "refused 23 4");
    let items = vec![define(0, &[], vec![choice(n(1), declare(0, n(1)), None)])];
    rule(r, "a declaration as a branch in a function", &[1], &[], items, "refused 7 5");
}

/// Causes 18, 19 and 20.
fn declarations(r: &mut Vec<Rule>) {
    let function = || define(0, &[0, 1], vec![]);
    let items = |value| vec![function(), declare(0, value)];
    let first = items(call(0, vec![v(0), n(1)]));
    rule(r, "a first argument that names the number", &[2], &[], first, "refused 18 5");
    let second = items(call(0, vec![n(1), v(0)]));
    rule(r, "a second argument that does", &[2], &[], second, "refused 18 5");
    let reads = define(0, &[], vec![give_back(Some(v(0)))]);
    let items = vec![reads, declare(0, call(0, vec![]))];
    rule(r, "a function that does is no 18", &[1], &[4, 0], items, "ended 6 4 4");
    let twice = vec![define(0, &[0, 1, 0], vec![])];
    rule(r, "a parameter twice", &[2], &[], twice, "refused 19 4");
    let items = vec![define(0, &[0], vec![declare(0, n(1))])];
    rule(r, "a parameter's number declared in the body", &[1], &[], items, "refused 19 4");
    let items = vec![define(0, &[0], vec![block(vec![declare(0, n(1))])])];
    rule(r, "and in a block of the body", &[1], &[], items, "ended 1 0 0 0");
    let rows = [
        [BLOCK, 1, 0, 0, 0, 0],
        [DEFINE, 0, 5, 2, 0, 0],
        [BLOCK, 3, 0, 0, 0, 0],
        [DECLARE, 0, 4, 0, 0, 0],
        [CONSTANT, 1, 0, 0, 0, 0],
        [DECLARE, 0, 0, 0, 0, 0],
    ];
    table_rule(r, "19 at the later one, with the lower row", &[1], &rows, "refused 19 3");
    let blocks = |count| (0..count).map(|_| block(vec![declare(0, n(1))])).collect::<Vec<Tree>>();
    let many = |count| [vec![define(0, &[0], vec![])], blocks(count)].concat();
    let answer = format!("ended 190 0 0{}", " 1".repeat(63));
    rule(r, "a parameter and 63 declarations", &[1], &[], many(63), &answer);
    rule(r, "a parameter and 64 declarations", &[1], &[], many(64), "refused 20 194");
    let late = [many(64), vec![empty_function()]].concat();
    rule(r, "20 before 23", &[1], &[], late, "refused 20 194");
}

/// Cause 23.
fn definitions(r: &mut Vec<Rule>) {
    let numbered = |number| define(number, &[], vec![]);
    for number in [1, -1, i32::MIN, i32::MAX] {
        rule(r, "the first number not 0", &[0], &[], vec![numbered(number)], "refused 23 1");
    }
    let cases = [
        ("a number twice", vec![numbered(0), numbered(0)], "refused 23 3"),
        ("numbers out of order", vec![numbered(1), numbered(0)], "refused 23 1"),
        ("a number left out", vec![numbered(0), numbered(2)], "refused 23 3"),
        ("a definition behind a statement", vec![plain(EMPTY), numbered(0)], "refused 23 2"),
        ("a run that is broken", vec![numbered(0), plain(EMPTY), numbered(1)], "refused 23 4"),
        ("a definition in a block", vec![block(vec![numbered(0)])], "refused 23 2"),
        ("a definition as a branch", vec![choice(n(1), numbered(0), None)], "refused 23 3"),
        (
            "a definition in a switch",
            vec![switch(n(1), vec![case(1), numbered(0)])],
            "refused 23 4",
        ),
        ("a definition in a function", vec![define(0, &[], vec![numbered(1)])], "refused 23 3"),
        ("a definition in an arm", vec![guarded_definition()], "refused 23 5"),
    ];
    for (name, items, answer) in cases {
        rule(r, name, &[0], &[], items, answer);
    }
    let items = vec![empty_function(), expression(call(5, vec![])), numbered(1)];
    rule(r, "23 before 24", &[0], &[], items, "refused 23 5");
}

fn guarded_definition() -> Tree {
    guarded(GUARDED_IF, vec![arm(n(1), vec![empty_function()])])
}

/// Cause 24.
fn calls(r: &mut Vec<Rule>) {
    let alone = |number| vec![expression(call(number, vec![]))];
    rule(r, "a call without functions", &[0], &[], alone(0), "refused 24 2");
    for number in [1, -1, i32::MIN, i32::MAX] {
        let items = [vec![empty_function()], alone(number)].concat();
        rule(r, "a call to no function", &[0], &[], items, "refused 24 4");
    }
    let items = vec![define(0, &[], alone(0))];
    rule(r, "a function that calls itself", &[0], &[], items, "refused 24 4");
    let items = vec![define(0, &[], alone(1)), define(1, &[], alone(0))];
    rule(r, "two that call each other", &[0], &[], items, "refused 24 4");
    let inner = call(1, vec![call(1, vec![n(1)])]);
    let items = vec![empty_function(), define(1, &[0], vec![give_back(Some(inner))])];
    rule(r, "a call of its own inside another", &[1], &[], items, "refused 24 7");
    let two =
        |arguments: Vec<Tree>| vec![define(0, &[0, 1], vec![]), expression(call(0, arguments))];
    for count in [0, 1, 3, 65] {
        let arguments = (0..count).map(|_| n(1)).collect();
        rule(r, "arguments too few or too many", &[2], &[], two(arguments), "refused 24 6");
    }
    let items = vec![empty_function(), expression(call(0, vec![n(1)]))];
    rule(r, "an argument to a function without parameters", &[0], &[], items, "refused 24 4");
    // The lowest row, and calls that are never made.
    let never = choice(n(0), expression(call(3, vec![])), None);
    let items = vec![empty_function(), never, expression(call(2, vec![]))];
    rule(r, "a call that is never made", &[0], &[], items, "refused 24 6");
}
