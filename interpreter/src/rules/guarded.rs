//! Guarded statements: which guards are worked out, the fault, the rounds of a
//! guarded do, jumps through both forms, and what is counted as a step.

use super::*;

pub fn add(r: &mut Vec<Rule>) {
    choices(r);
    rounds(r);
    jumps(r);
    faults(r);
    steps(r);
}

fn if_arms(arms: Vec<Tree>) -> Tree {
    guarded(GUARDED_IF, arms)
}

fn do_arms(arms: Vec<Tree>) -> Tree {
    guarded(GUARDED_DO, arms)
}

fn choices(r: &mut Vec<Rule>) {
    let arms = vec![arm(n(1), vec![store(0, 1)]), arm(set(v(1), n(1)), vec![store(0, 2)])];
    rule(r, "the first of two true guards", &[2], &[], vec![if_arms(arms)], "ended 9 1 0");
    let arms = vec![arm(set(v(0), n(0)), vec![store(1, 1)]), arm(n(-1), vec![store(1, 2)])];
    rule(r, "what a false guard stored stays", &[2], &[5, 0], vec![if_arms(arms)], "ended 13 0 2");
    let arms = vec![arm(set(v(0), n(0)), vec![store(1, 2)]), arm(n(0), vec![])];
    let items = vec![store(1, 1), if_arms(arms), store(1, 3)];
    rule(r, "no guard true", &[2], &[5, 0], items, "guard 12 0 1");
    let items = vec![if_arms(vec![]), store(0, 1)];
    rule(r, "a guarded if without arms", &[1], &[], items, "guard 2 0");
    let inner = if_arms(vec![arm(v(0), vec![]), arm(n(1), vec![store(1, 4)])]);
    let outer = if_arms(vec![arm(n(0), vec![]), arm(n(1), vec![inner]), arm(n(1), vec![])]);
    // Rows: 0, if, arm, 0, arm, 1, block, if, arm, v0, arm, 1, block, v1 = 4 (4).
    rule(r, "a guarded if in another", &[2], &[], vec![outer], "ended 17 0 4");
}

fn rounds(r: &mut Vec<Rule>) {
    let items = vec![do_arms(vec![]), store(0, 1)];
    rule(r, "a guarded do without arms", &[1], &[], items, "ended 6 1");
    let never = do_arms(vec![arm(v(0), vec![store(1, 1)]), arm(n(0), vec![])]);
    rule(r, "a guarded do without a true guard", &[2], &[], vec![never], "ended 6 0 0");
    let less = |x, y| {
        arm(binary(GREATER, v(x), v(y)), vec![expression(binary(SUBTRACT_ASSIGN, v(x), v(y)))])
    };
    let divisor = do_arms(vec![less(0, 1), less(1, 0)]);
    rule(r, "greatest common divisor", &[2], &[6, 4], vec![divisor], "ended 32 2 2");
    let down = expression(unary(POST_DECREMENT, v(1)));
    let again = do_arms(vec![arm(set(v(0), n(0)), vec![]), arm(v(1), vec![down])]);
    rule(r, "each round from the first arm", &[2], &[5, 1], vec![again], "ended 18 0 0");
    // In each round the guard counts, too: arm, <, 2, v0++, v0; the block; at last the guard alone.
    let count = do_arms(vec![arm(binary(LESS, post(v(0)), n(2)), vec![])]);
    rule(r, "a guard that counts", &[1], &[], vec![count], "ended 19 3");
}

fn jumps(r: &mut Vec<Rule>) {
    for kind in [GUARDED_IF, GUARDED_DO] {
        let leave = guarded(kind, vec![arm(n(1), vec![plain(BREAK), store(0, 1)])]);
        let items = vec![while_loop(n(1), block(vec![leave, store(0, 2)])), store(1, 1)];
        rule(r, "break through a guarded statement", &[2], &[], items, "ended 13 0 1");
    }
    let down = || expression(unary(POST_DECREMENT, v(0)));
    let on = if_arms(vec![arm(n(1), vec![plain(CONTINUE)])]);
    let body = block(vec![down(), on, store(1, 1)]);
    let items = vec![while_loop(v(0), body)];
    rule(r, "continue through a guarded if", &[2], &[2, 0], items, "ended 23 0 0");
    let on = do_arms(vec![arm(n(1), vec![down(), plain(CONTINUE)])]);
    let items = vec![while_loop(v(0), block(vec![on, store(1, 1)]))];
    rule(r, "continue through a guarded do", &[2], &[2, 0], items, "ended 23 0 0");
    let inner = if_arms(vec![arm(n(1), vec![plain(BREAK)])]);
    let outer = do_arms(vec![arm(n(1), vec![inner])]);
    let items = vec![switch(n(1), vec![case(1), outer, store(0, 1)]), store(1, 1)];
    rule(r, "break leaves the switch around", &[2], &[], items, "ended 17 0 1");
    let inner = while_loop(n(1), plain(BREAK));
    let once = do_arms(vec![arm(binary(LESS, v(0), n(1)), vec![inner, expression(post(v(0)))])]);
    // A round: arm, guard 3, block, while, 1, break, v0++ 3; then arm and guard.
    rule(r, "break leaves the loop in a block", &[1], &[], vec![once], "ended 17 1");
}

fn faults(r: &mut Vec<Rule>) {
    let divide = || binary(DIVIDE, n(1), v(0));
    let arms = vec![arm(divide(), vec![store(0, 1)]), arm(n(1), vec![store(0, 2)])];
    rule(r, "a fault in a guard", &[1], &[], vec![if_arms(arms)], "zero 6 0");
    let arms = vec![arm(n(1), vec![]), arm(divide(), vec![])];
    rule(r, "a true guard before a fault", &[1], &[], vec![if_arms(arms)], "ended 5 0");
    let down = || expression(unary(POST_DECREMENT, v(0)));
    let later = do_arms(vec![arm(divide(), vec![down()])]);
    rule(r, "a fault in a later round", &[1], &[1], vec![later], "zero 14 0");
    let inner = if_arms(vec![arm(v(0), vec![down()])]);
    let outer = do_arms(vec![arm(n(1), vec![inner])]);
    rule(r, "no guard true in a later round", &[1], &[1], vec![outer], "guard 18 0");
}

fn steps(r: &mut Vec<Rule>) {
    // Rows: 0, if, arm, v0, arm, 0; the fault needs no step.
    let none = || vec![if_arms(vec![arm(v(0), vec![]), arm(n(0), vec![])])];
    budget_rule(r, "the fault at the last step", 6, &[1], &[], none(), "guard 6 0");
    budget_rule(r, "spent before the last guard", 5, &[1], &[], none(), "spent 5 0");
    budget_rule(r, "spent before an arm", 4, &[1], &[], none(), "spent 4 0");
    budget_rule(r, "no arms, spent", 1, &[1], &[], vec![if_arms(vec![])], "spent 1 0");
    budget_rule(r, "no arms, at its step", 2, &[1], &[], vec![if_arms(vec![])], "guard 2 0");
    let endless = || vec![do_arms(vec![arm(v(0), vec![]), arm(n(1), vec![store(1, 1)])])];
    // A round: arm, v0, arm, 1, block, v1 = 1 (4).
    budget_rule(r, "spent in a second round", 12, &[2], &[], endless(), "spent 12 0 1");
    budget_rule(r, "spent before the store", 9, &[2], &[], endless(), "spent 9 0 0");
}
