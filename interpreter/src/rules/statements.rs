//! Statements: jumps, switches, loops and branches, and what is counted as a step.

use super::*;

pub fn add(r: &mut Vec<Rule>) {
    jumps(r);
    switches(r);
    loops_and_branches(r);
    steps(r);
}

/// for (v0 = 0; v0 < count; v0++) body
fn count_up(count: i32, body: Tree) -> Tree {
    let start = Some(set(v(0), n(0)));
    let test = Some(binary(LESS, v(0), n(count)));
    for_loop(start, test, Some(post(v(0))), body)
}

fn jumps(r: &mut Vec<Rule>) {
    let body = block(vec![plain(CONTINUE), store(1, 1)]);
    rule(r, "continue goes to the step", &[2], &[], vec![count_up(3, body)], "ended 29 3 0");
    let items = vec![case(0), plain(CONTINUE), case(1), store(1, 7), plain(BREAK)];
    let body = switch(post(v(0)), items);
    let test = binary(LESS, v(0), n(2));
    rule(r, "continue through a switch", &[2], &[], vec![while_loop(test, body)], "ended 25 2 7");
    let inner = switch(post(v(0)), vec![case(0), plain(CONTINUE)]);
    let body = block(vec![inner, expression(binary(ADD_ASSIGN, v(1), n(1)))]);
    let test = binary(LESS, v(0), n(2));
    let loops = vec![while_loop(test, body)];
    rule(r, "continue passes over what follows the switch", &[2], &[], loops, "ended 25 2 1");
    let leave = switch(n(0), vec![plain(DEFAULT), plain(BREAK)]);
    let body = block(vec![leave, expression(post(v(1)))]);
    // Each round: test 3, block 1, switch 4, v1++ 3, step 2.
    rule(r, "break leaves the switch alone", &[2], &[], vec![count_up(2, body)], "ended 34 2 2");
    let inner = while_loop(n(1), plain(BREAK));
    let items = vec![case(1), inner, store(0, 1), plain(BREAK), store(0, 2)];
    rule(
        r,
        "break leaves the loop in a switch",
        &[1],
        &[],
        vec![switch(n(1), items)],
        "ended 12 1",
    );
}

fn switches(r: &mut Vec<Rule>) {
    let items = vec![store(0, 9), case(1), store(1, 1)];
    rule(r, "items before the first mark", &[2], &[], vec![switch(n(1), items)], "ended 8 0 1");
    let items = vec![plain(BREAK), case(1), store(0, 1)];
    rule(r, "break before the first mark", &[1], &[], vec![switch(n(1), items)], "ended 8 1");
    let items = vec![store(0, 9), case(1), store(0, 1)];
    rule(r, "no mark fits", &[1], &[], vec![switch(n(5), items)], "ended 3 0");
    rule(r, "items without a mark", &[1], &[], vec![switch(n(5), vec![store(0, 9)])], "ended 3 0");
    rule(r, "an empty switch", &[1], &[], vec![switch(post(v(0)), vec![])], "ended 4 1");
    let items = vec![case(1), store(1, 1), plain(DEFAULT), store(2, 1), case(2), store(1, 2)];
    let middle = vec![switch(post(v(0)), items)];
    rule(r, "default in the middle, no case", &[3], &[7, 0, 0], middle, "ended 14 8 2 1");
    let inner = switch(n(1), vec![case(1), plain(BREAK), plain(DEFAULT), store(0, 5)]);
    let items = vec![case(1), inner, store(1, 1), plain(DEFAULT), store(2, 1)];
    let outer = vec![switch(n(1), items)];
    rule(r, "equal marks in nested switches", &[3], &[], outer, "ended 17 0 1 1");
    let items = vec![case(i32::MIN), store(0, 1), plain(BREAK), case(0), store(0, 2)];
    let ends = vec![switch(n(i32::MIN), items)];
    rule(r, "a case at the bottom", &[1], &[], ends, "ended 9 1");
}

fn loops_and_branches(r: &mut Vec<Rule>) {
    rule(
        r,
        "for without parts",
        &[0],
        &[],
        vec![for_loop(None, None, None, plain(BREAK))],
        "ended 3",
    );
    let loops = while_loop(n(1), do_loop(block(vec![plain(BREAK)]), n(1)));
    budget_rule(r, "endless", 12, &[0], &[], vec![loops], "spent 12");
    rule(r, "while 0", &[1], &[], vec![while_loop(n(0), store(0, 1))], "ended 3 0");
    rule(r, "do once", &[1], &[], vec![do_loop(store(0, 1), n(0))], "ended 7 1");
    let test = unary(POST_DECREMENT, v(0));
    rule(r, "while (v0--)", &[1], &[2], vec![while_loop(test, plain(EMPTY))], "ended 10 -1");
    let choose = |test| choice(n(test), store(0, 1), Some(store(0, 2)));
    rule(r, "if, yes", &[1], &[], vec![choose(-1)], "ended 7 1");
    rule(r, "if, no", &[1], &[], vec![choose(0)], "ended 7 2");
    rule(r, "if without else", &[1], &[], vec![choice(n(0), store(0, 1), None)], "ended 3 0");
    let body = block(vec![choice(binary(EQUAL, v(0), n(1)), plain(BREAK), None), store(1, 4)]);
    // Two rounds: 12 steps and 9 steps after for and start.
    rule(r, "break in an if in a for", &[2], &[], vec![count_up(9, body)], "ended 28 1 4");
    rule(r, "nothing to do", &[0], &[], vec![], "ended 1");
    rule(r, "a store without variables", &[0, 2], &[3, 4], vec![], "ended 1 3 4");
    let fault = vec![store(0, 1), expression(a(n(1))), store(0, 2)];
    rule(r, "a fault stops the run", &[1, 1], &[], fault, "index 8 1 0");
}

fn steps(r: &mut Vec<Rule>) {
    for (budget, answer) in [
        (0, "spent 0 0"),
        (1, "spent 1 0"),
        (4, "spent 4 0"),
        (5, "ended 5 1"),
        (6, "ended 5 1"),
        (u32::MAX, "ended 5 1"),
    ] {
        budget_rule(r, "v0 = 1 and its budget", budget, &[1], &[], vec![store(0, 1)], answer);
    }
    let fault = || vec![expression(binary(DIVIDE, n(1), n(0)))];
    budget_rule(r, "a fault at the last step", 5, &[0], &[], fault(), "zero 5");
    budget_rule(r, "spent before the fault", 4, &[0], &[], fault(), "spent 4");
    // The bounds test needs no step of its own, the place does.
    let put = || vec![expression(set(a(n(3)), n(1)))];
    budget_rule(r, "index at the last step", 6, &[0, 3], &[], put(), "index 6 0 0 0");
    budget_rule(r, "spent before the index", 5, &[0, 3], &[], put(), "spent 5 0 0 0");
    let items = || vec![switch(n(1), vec![store(0, 9), case(1), case(2)])];
    budget_rule(r, "spent at the mark gone to", 3, &[1], &[], items(), "spent 3 0");
    budget_rule(r, "spent at the mark fallen into", 4, &[1], &[], items(), "spent 4 0");
    budget_rule(r, "marks count", 5, &[1], &[], items(), "ended 5 0");
    let twice = || vec![expression(set(v(0), set(v(1), n(4))))];
    budget_rule(r, "between two stores", 6, &[2], &[], twice(), "spent 6 0 4");
    budget_rule(r, "after two stores", 7, &[2], &[], twice(), "ended 7 4 4");
}
