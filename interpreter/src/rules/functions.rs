//! Functions: what a call does, in which order and in how many steps, and what a
//! function sees. Parameters stand with the declared words, behind the first S.

use super::*;

pub fn add(r: &mut Vec<Rule>) {
    calls(r);
    arguments(r);
    operands(r);
    returns(r);
    names(r);
    budgets(r);
    faults(r);
    limits(r);
    order_of_rows(r);
}

/// The statement `v = value;`
fn keep(number: i32, value: Tree) -> Tree {
    expression(set(v(number), value))
}

/// `int f0() { v0 = 5; return 2; }`
fn writer() -> Tree {
    define(0, &[], vec![store(0, 5), give_back(Some(n(2)))])
}

/// `int f0(v0, v1) { return v0 * 10 + v1; }`
fn two_digits() -> Tree {
    let sum = binary(ADD, binary(MULTIPLY, v(0), n(10)), v(1));
    define(0, &[0, 1], vec![give_back(Some(sum))])
}

fn calls(r: &mut Vec<Rule>) {
    let never = define(0, &[0], vec![store(0, 1), store(1, 1)]);
    rule(r, "definitions alone", &[2], &[3, 4, 5], vec![never], "ended 1 3 4 5");
    let items = vec![define(0, &[], vec![]), expression(call(0, vec![]))];
    rule(r, "a call of an empty function", &[1], &[9], items, "ended 4 9");
    let items = vec![define(0, &[], vec![]), keep(0, call(0, vec![]))];
    rule(r, "the end gives 0", &[1], &[9], items, "ended 6 0");
    let items = vec![define(0, &[], vec![give_back(None), store(0, 3)]), keep(0, call(0, vec![]))];
    rule(r, "a return without a value gives 0", &[1], &[9], items, "ended 7 0");
    let items = vec![define(0, &[], vec![give_back(Some(n(7)))]), keep(0, call(0, vec![]))];
    rule(r, "a return with a value", &[1], &[9], items, "ended 8 7");
    let identity = define(0, &[0], vec![give_back(Some(v(0)))]);
    let items = vec![identity, keep(1, call(0, vec![n(5)]))];
    rule(r, "a call with an argument", &[2], &[], items, "ended 10 0 5 5");
    let once = define(0, &[], vec![expression(post(v(0)))]);
    let twice = define(1, &[], vec![expression(call(0, vec![])), expression(call(0, vec![]))]);
    let items = vec![once, twice, expression(call(1, vec![])), expression(call(0, vec![]))];
    rule(r, "a function called by another", &[1], &[], items, "ended 22 3");
}

fn arguments(r: &mut Vec<Rule>) {
    let inner = call(0, vec![n(1), n(0)]);
    let items = vec![two_digits(), keep(2, call(0, vec![inner, n(2)]))];
    rule(r, "a call as an argument of its function", &[3], &[], items, "ended 27 0 0 102 10 2");
    let items = vec![two_digits(), keep(2, call(0, vec![v(0), set(v(0), n(3))]))];
    rule(r, "f(v0, v0 = 3)", &[3], &[8, 0, 0, 0, 0], items, "ended 18 3 0 33 3 3");
    let items = vec![two_digits(), keep(2, call(0, vec![set(v(0), n(3)), v(0)]))];
    rule(r, "f(v0 = 3, v0)", &[3], &[8, 0, 0, 0, 0], items, "ended 18 3 0 38 3 8");
    // What a parameter is given does not change with the argument's variable, nor that with it.
    let body = vec![store(1, 4), give_back(Some(binary(ADD, v(0), v(1))))];
    let items = vec![define(0, &[1], body), keep(0, call(0, vec![v(1)]))];
    rule(r, "a parameter is an object of its own", &[2], &[6, 2, 0], items, "ended 16 10 2 4");
}

/// What is held across a call, and what is read after it.
fn operands(r: &mut Vec<Rule>) {
    let called = || call(0, vec![]);
    let more = || binary(ADD, v(0), n(1));
    let mut held = |name, value, answer| {
        rule(r, name, &[2], &[3, 0], vec![writer(), keep(1, value)], answer);
    };
    held("f() * (v0 + 1)", binary(MULTIPLY, called(), more()), "ended 16 5 8");
    held("(v0 + 1) * f()", binary(MULTIPLY, more(), called()), "ended 16 5 12");
    held("f() - v0", binary(SUBTRACT, called(), v(0)), "ended 14 5 -1");
    held("v0 - f()", binary(SUBTRACT, v(0), called()), "ended 14 5 3");
    held("f() && v0", binary(AND, called(), v(0)), "ended 14 5 1");
    held("v0 ? f() : 0", conditional(v(0), called(), n(0)), "ended 14 5 2");
    let items = vec![writer(), expression(set(a(call(0, vec![])), v(0)))];
    rule(r, "a call as an index", &[1, 3], &[3, 0, 0, 0], items, "ended 13 5 0 0 3");
    let items = vec![writer(), expression(binary(ADD_ASSIGN, v(0), call(0, vec![])))];
    rule(r, "v0 += f()", &[1], &[3], items, "ended 12 7");
    let items = vec![writer(), switch(call(0, vec![]), vec![case(5), case(2), store(1, 1)])];
    rule(r, "a call as a selector", &[2], &[], items, "ended 15 5 1");
    let arms = vec![arm(binary(LESS, call(0, vec![]), n(0)), vec![]), arm(v(0), vec![store(0, 1)])];
    let items = vec![writer(), guarded(GUARDED_IF, arms)];
    rule(r, "a call in a guard", &[1], &[], items, "ended 20 1");
}

fn returns(r: &mut Vec<Rule>) {
    let marks = vec![case(1), give_back(Some(n(4)))];
    let inner = do_loop(switch(n(1), marks), n(1));
    let nest = while_loop(n(1), for_loop(None, None, None, inner));
    let items = vec![define(0, &[], vec![nest, store(0, 9)]), keep(1, call(0, vec![]))];
    rule(r, "a return out of three loops and a switch", &[2], &[], items, "ended 15 0 4");
    let inner = guarded(GUARDED_IF, vec![arm(n(1), vec![give_back(Some(n(6)))])]);
    let nest = guarded(GUARDED_DO, vec![arm(n(1), vec![inner])]);
    let items = vec![define(0, &[], vec![nest, store(0, 9)]), keep(1, call(0, vec![]))];
    rule(r, "a return out of guarded statements", &[2], &[], items, "ended 16 0 6");
    let chosen = choice(v(0), give_back(Some(n(1))), Some(give_back(Some(n(2)))));
    let items = vec![define(0, &[0], vec![chosen]), keep(0, call(0, vec![v(0)]))];
    rule(r, "returns as branches", &[1], &[], items, "ended 12 2 0");
    // The caller's loop goes on.
    let body = vec![while_loop(n(1), give_back(Some(v(0))))];
    let step = binary(LESS, post(v(1)), n(2));
    let up = expression(binary(ADD_ASSIGN, v(0), call(0, vec![n(10)])));
    let items = vec![define(0, &[0], body), while_loop(step, up)];
    rule(r, "a return leaves its own loops alone", &[2], &[], items, "ended 36 20 3 10");
}

fn names(r: &mut Vec<Rule>) {
    let reads = define(0, &[], vec![give_back(Some(v(0)))]);
    let items = vec![reads, block(vec![declare(0, n(7)), keep(1, call(0, vec![]))])];
    rule(
        r,
        "a function sees none of its caller's names",
        &[2],
        &[3, 0, 0],
        items,
        "ended 11 3 3 7",
    );
    let sets = define(0, &[0], vec![store(0, 1)]);
    let inner = vec![declare(0, n(7)), expression(call(0, vec![n(2)])), keep(1, v(0))];
    let items = vec![sets, block(inner)];
    rule(r, "nor does it change them", &[2], &[3, 0, 0, 0], items, "ended 17 3 7 1 7");
    // Behind the parameter's own block the function sees the parameter again.
    let inner = block(vec![declare(0, n(9)), store(0, 8)]);
    let items =
        vec![define(0, &[0], vec![inner, give_back(Some(v(0)))]), keep(1, call(0, vec![n(5)]))];
    rule(r, "a name that hides a parameter", &[2], &[], items, "ended 17 0 5 5 8");
    // The called function's parameter has the caller's number.
    let inner = define(0, &[0], vec![give_back(Some(binary(MULTIPLY, v(0), n(2))))]);
    let sum = binary(ADD, call(0, vec![n(3)]), v(0));
    let outer = define(1, &[0], vec![give_back(Some(sum))]);
    let items = vec![inner, outer, keep(1, call(1, vec![n(5)]))];
    rule(r, "parameters of one number", &[2], &[], items, "ended 19 0 11 3 5");
}

/// A call of `int f0(v0, v1) { return v0; }` as `f0(v2 = 1, v2 = 2)`.
fn budgets(r: &mut Vec<Rule>) {
    let items = || {
        let arguments = vec![set(v(2), n(1)), set(v(2), n(2))];
        vec![define(0, &[0, 1], vec![give_back(Some(v(0)))]), expression(call(0, arguments))]
    };
    for (budget, answer) in [
        (0, "spent 0 0 0 0 0 0"),
        (1, "spent 1 0 0 0 0 0"),
        (2, "spent 2 0 0 0 0 0"),
        (3, "spent 3 0 0 0 0 0"),
        (4, "spent 4 0 0 0 0 0"),
        (5, "spent 5 0 0 0 0 0"),
        (6, "spent 6 0 0 0 0 0"),
        (7, "spent 7 0 0 2 0 0"),
        (8, "spent 8 0 0 2 0 0"),
        (9, "spent 9 0 0 2 0 0"),
        (10, "spent 10 0 0 2 0 0"),
        // The last argument is worked out, so the parameters are stored before the body's row.
        (11, "spent 11 0 0 1 1 2"),
        (12, "spent 12 0 0 1 1 2"),
        (13, "spent 13 0 0 1 1 2"),
        (14, "ended 14 0 0 1 1 2"),
        (u32::MAX, "ended 14 0 0 1 1 2"),
    ] {
        budget_rule(r, "a call and its budget", budget, &[3], &[], items(), answer);
    }
}

fn faults(r: &mut Vec<Rule>) {
    let zero = || binary(DIVIDE, n(1), n(0));
    let start = &[0, 0, 0, 8, 9];
    let called = |arguments| vec![two_digits(), expression(call(0, arguments))];
    let items = called(vec![set(v(2), n(1)), zero()]);
    rule(r, "a fault in the second argument", &[3], start, items, "zero 7 0 0 0 8 9");
    let items = called(vec![zero(), set(v(2), n(1))]);
    rule(r, "a fault in the first argument", &[3], start, items, "zero 11 0 0 1 8 9");
    let items = called(vec![n(i32::MAX), n(1)]);
    rule(r, "a fault in a body", &[3], start, items, "overflow 14 0 0 0 2147483647 1");
    let fails = define(0, &[], vec![guarded(GUARDED_IF, vec![])]);
    let items = vec![fails, keep(0, call(0, vec![]))];
    rule(r, "a guarded if without an arm in a body", &[1], &[2], items, "guard 6 2");
}

fn limits(r: &mut Vec<Rule>) {
    let all: Vec<i32> = (0..64).collect();
    let last = binary(SUBTRACT, v(63), v(0));
    let arguments = (0..64).map(n).collect();
    let items = vec![define(0, &all, vec![give_back(Some(last))]), keep(0, call(0, arguments))];
    let own: String = all.iter().map(|value| format!(" {value}")).collect();
    let answer = format!("ended 138 63{}{own}", " 0".repeat(63));
    rule(r, "64 parameters", &[64], &[], items, &answer);
    let mut items = vec![define(0, &[], vec![])];
    items.extend((1..=510).map(|i| define(i, &[], vec![give_back(Some(call(i - 1, vec![])))])));
    items.push(expression(call(510, vec![])));
    rule(r, "511 calls deep", &[0], &[], items, "ended 1534");
    let minus = |count| (0..count).fold(call(0, vec![n(1)]), |inner, _| unary(MINUS, inner));
    let deep = |count| vec![define(0, &[0], vec![]), expression(minus(count))];
    rule(r, "an argument's expression at depth 64", &[1], &[], deep(59), "ended 65 0 1");
    rule(r, "and at 65", &[1], &[], deep(60), "refused 9 67");
    let nest = |depth| (1..depth).fold(block(vec![]), |inner, _| block(vec![inner]));
    let body = |depth| vec![define(0, &[], vec![nest(depth)])];
    rule(r, "a body to depth 64", &[0], &[], body(61), "ended 1");
    rule(r, "a body to depth 65", &[0], &[], body(62), "refused 9 64");
}

/// Words go by the rows, whatever the order of the lists.
fn order_of_rows(r: &mut Vec<Rule>) {
    let rows = [
        [BLOCK, 1, 0, 0, 0, 0],
        [DEFINE, 0, 7, 5, 0, 2],
        [EXPRESSION, 3, 0, 0, 0, 0],
        [CALL, 0, 4, 0, 0, 0],
        [ARGUMENT, 6, 0, 0, 0, 0],
        [BLOCK, 8, 0, 0, 0, 0],
        [CONSTANT, 5, 0, 0, 0, 0],
        [DECLARE, 0, 0, 0, 0, 0],
        [RETURN, 9, 0, 0, 0, 0],
        [VARIABLE, 0, 0, 0, 0, 0],
    ];
    let name = "a body before its parameter and behind its call";
    table_rule(r, name, &[1], &rows, "ended 8 0 5");
    // A declared word between those of the parameters.
    let rows = [
        [BLOCK, 1, 0, 0, 0, 0],
        [DEFINE, 0, 2, 3, 0, 10],
        [DECLARE, 1, 0, 0, 0, 6],
        [BLOCK, 4, 0, 0, 0, 0],
        [DECLARE, 2, 5, 0, 0, 7],
        [VARIABLE, 1, 0, 0, 0, 0],
        [DECLARE, 0, 0, 0, 0, 0],
        [RETURN, 8, 0, 0, 0, 0],
        [SUBTRACT, 9, 11, 0, 0, 0],
        [VARIABLE, 2, 0, 0, 0, 0],
        [EXPRESSION, 12, 0, 0, 0, 0],
        [VARIABLE, 0, 0, 0, 0, 0],
        [ASSIGN, 13, 14, 0, 0, 0],
        [VARIABLE, 0, 0, 0, 0, 0],
        [CALL, 0, 15, 0, 0, 0],
        [ARGUMENT, 16, 0, 0, 0, 17],
        [CONSTANT, 3, 0, 0, 0, 0],
        [ARGUMENT, 18, 0, 0, 0, 0],
        [CONSTANT, 7, 0, 0, 0, 0],
    ];
    let name = "a declared word between those of parameters";
    table_rule(r, name, &[3], &rows, "ended 16 -4 0 0 3 3 7");
}
