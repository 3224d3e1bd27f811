//! Values and places: what expressions give, what they change, and where they fault.

use super::*;

pub fn add(r: &mut Vec<Rule>) {
    arithmetic(r);
    truth_values(r);
    parts_left_out(r);
    first_faults(r);
    faults_at_places(r);
    effects(r);
    places(r);
}

fn arithmetic(r: &mut Vec<Rule>) {
    let least = || n(i32::MIN);
    value_rule(r, "least / -1", &[0], &[], binary(DIVIDE, least(), n(-1)), "overflow 5");
    let rest = binary(REMAINDER, least(), n(-1));
    value_rule(r, "least % -1", &[1], &[3], set(v(0), rest), "overflow 6 3");
    let rest = binary(REMAINDER, n(i32::MIN + 1), n(-1));
    value_rule(r, "least + 1, % -1", &[1], &[3], set(v(0), rest), "ended 7 0");
    let rest = binary(REMAINDER, least(), n(1));
    value_rule(r, "least % 1", &[1], &[3], set(v(0), rest), "ended 7 0");
    value_rule(r, "least % 0", &[0], &[], binary(REMAINDER, least(), n(0)), "zero 5");
    value_rule(r, "0 / 0", &[0], &[], binary(DIVIDE, n(0), n(0)), "zero 5");
    value_rule(r, "-(least)", &[0], &[], unary(MINUS, least()), "overflow 4");
    value_rule(r, "least - 1", &[0], &[], binary(SUBTRACT, least(), n(1)), "overflow 5");
    let square = binary(MULTIPLY, n(46_341), n(46_341));
    value_rule(r, "46341 * 46341", &[0], &[], square, "overflow 5");
    let square = binary(MULTIPLY, n(-65_536), n(32_768));
    value_rule(r, "-65536 * 32768", &[1], &[], set(v(0), square), "ended 7 -2147483648");
    let quotient = |kind, left, right| set(v(0), binary(kind, n(left), n(right)));
    value_rule(r, "7 / -2", &[1], &[], quotient(DIVIDE, 7, -2), "ended 7 -3");
    value_rule(r, "7 % -2", &[1], &[], quotient(REMAINDER, 7, -2), "ended 7 1");
    value_rule(r, "-7 % -2", &[1], &[], quotient(REMAINDER, -7, -2), "ended 7 -1");
}

fn truth_values(r: &mut Vec<Rule>) {
    value_rule(r, "not -5", &[1], &[9], set(v(0), unary(NOT, n(-5))), "ended 6 0");
    value_rule(r, "not 0", &[1], &[9], set(v(0), unary(NOT, n(0))), "ended 6 1");
    value_rule(r, "5 && -7", &[1], &[9], set(v(0), binary(AND, n(5), n(-7))), "ended 7 1");
    let compare = |kind, left, right| set(v(0), binary(kind, n(left), n(right)));
    value_rule(r, "1 < 1", &[1], &[9], compare(LESS, 1, 1), "ended 7 0");
    value_rule(r, "2 > 1", &[1], &[9], compare(GREATER, 2, 1), "ended 7 1");
    value_rule(r, "1 <= 1", &[1], &[9], compare(LESS_EQUAL, 1, 1), "ended 7 1");
    value_rule(r, "0 >= 1", &[1], &[9], compare(GREATER_EQUAL, 0, 1), "ended 7 0");
    value_rule(r, "1 == 1", &[1], &[9], compare(EQUAL, 1, 1), "ended 7 1");
    value_rule(r, "1 != 1", &[1], &[9], compare(UNEQUAL, 1, 1), "ended 7 0");
}

fn parts_left_out(r: &mut Vec<Rule>) {
    value_rule(r, "a discarded value faults", &[0], &[], binary(DIVIDE, n(1), n(0)), "zero 5");
    let one = conditional(n(1), n(2), binary(DIVIDE, n(1), n(0)));
    value_rule(r, "1 ? 2 : 1/0", &[1], &[], set(v(0), one), "ended 7 2");
    let other = conditional(n(0), n(2), n(3));
    value_rule(r, "0 ? 2 : 3", &[1], &[], set(v(0), other), "ended 7 3");
    let comma = binary(COMMA, set(v(1), n(1)), binary(ADD, v(1), n(1)));
    value_rule(r, "(v1 = 1, v1 + 1)", &[2], &[], set(v(0), comma), "ended 11 2 1");
    let comma = binary(COMMA, binary(DIVIDE, n(1), n(0)), n(1));
    value_rule(r, "(1/0, 1)", &[1], &[], set(v(0), comma), "zero 7 0");
}

/// The right operand comes first, so its fault does.
fn first_faults(r: &mut Vec<Rule>) {
    let zero = || binary(DIVIDE, n(1), n(0));
    value_rule(r, "a[9] + 1/0", &[0, 3], &[], binary(ADD, a(n(9)), zero()), "zero 6 0 0 0");
    value_rule(r, "1/0 + a[9]", &[0, 3], &[], binary(ADD, zero(), a(n(9))), "index 5 0 0 0");
    let sum = binary(ADD, set(v(0), n(1)), zero());
    value_rule(r, "(v0 = 1) + 1/0", &[1], &[], sum, "zero 6 0");
    let sum = binary(ADD, zero(), set(v(0), n(1)));
    value_rule(r, "1/0 + (v0 = 1)", &[1], &[], sum, "zero 9 1");
}

fn faults_at_places(r: &mut Vec<Rule>) {
    let zero = || binary(DIVIDE, n(1), n(0));
    value_rule(r, "a[9] /= 0", &[0, 3], &[], binary(DIVIDE_ASSIGN, a(n(9)), n(0)), "index 6 0 0 0");
    value_rule(r, "a[9] = 1/0", &[0, 3], &[], set(a(n(9)), zero()), "zero 6 0 0 0");
    let both = set(a(set(v(0), n(2))), zero());
    value_rule(r, "a[v0 = 2] = 1/0", &[1, 3], &[], both, "zero 6 0 0 0 0");
    let kept = set(a(n(3)), set(v(0), n(1)));
    value_rule(r, "a[3] = (v0 = 1)", &[1, 3], &[], kept, "index 8 1 0 0 0");
    let divide = binary(DIVIDE_ASSIGN, a(set(v(0), n(2))), set(v(0), n(0)));
    value_rule(r, "a[v0 = 2] /= (v0 = 0)", &[1, 3], &[5, 1, 1, 1], divide, "zero 10 2 1 1 1");
}

fn effects(r: &mut Vec<Rule>) {
    let words = [1, 10, 20, 30];
    let add = binary(ADD_ASSIGN, a(post(v(0))), v(0));
    value_rule(r, "a[v0++] += v0", &[1, 3], &words, add, "ended 7 2 10 21 30");
    let put = set(a(v(0)), post(v(0)));
    value_rule(r, "a[v0] = v0++", &[1, 3], &words, put, "ended 7 2 10 20 1");
    let put = set(a(post(v(0))), v(0));
    value_rule(r, "a[v0++] = v0", &[1, 3], &words, put, "ended 7 2 10 1 30");
    value_rule(r, "v0 = v0++", &[1], &[5], set(v(0), post(v(0))), "ended 6 5");
    let add = binary(ADD_ASSIGN, v(0), post(v(0)));
    value_rule(r, "v0 += v0++", &[1], &[5], add, "ended 6 11");
    let subtract = binary(SUBTRACT_ASSIGN, v(0), set(v(0), n(8)));
    value_rule(r, "v0 -= (v0 = 8)", &[1], &[5], subtract, "ended 7 0");
    let rest = binary(REMAINDER_ASSIGN, v(0), unary(PRE_INCREMENT, v(0)));
    value_rule(r, "v0 %= ++v0", &[1], &[5], rest, "ended 6 0");
    let rest = binary(REMAINDER_ASSIGN, v(0), n(-1));
    value_rule(r, "v0 %= -1 at the bottom", &[1], &[i32::MIN], rest, "overflow 5 -2147483648");
    let rest = binary(REMAINDER_ASSIGN, a(post(v(0))), n(-1));
    let least = [0, i32::MIN, 5, 6];
    value_rule(r, "a[v0++] %= -1", &[1, 3], &least, rest, "overflow 7 1 -2147483648 5 6");
    let put = set(a(a(n(0))), set(a(n(0)), n(2)));
    value_rule(r, "a[a[0]] = (a[0] = 2)", &[0, 3], &[1, 0, 0], put, "ended 10 2 0 2");
    let step = unary(PRE_INCREMENT, a(post(v(0))));
    value_rule(r, "++a[v0++]", &[2, 3], &[1, 0, 5, 6, 7], set(v(1), step), "ended 8 2 7 5 7 7");
    let step = unary(POST_DECREMENT, a(v(0)));
    value_rule(r, "v0 = a[v0]--", &[1, 3], &[1, 5, 6, 7], set(v(0), step), "ended 7 6 5 5 7");
    value_rule(r, "v0++ at the top", &[1], &[i32::MAX], post(v(0)), "overflow 4 2147483647");
    let down = unary(PRE_DECREMENT, v(0));
    value_rule(r, "--v0 at the bottom", &[1], &[i32::MIN], down, "overflow 4 -2147483648");
    let add = binary(ADD_ASSIGN, v(0), n(1));
    value_rule(r, "v0 += 1 at the top", &[1], &[i32::MAX], add, "overflow 5 2147483647");
}

fn places(r: &mut Vec<Rule>) {
    let chain = set(v(0), set(v(1), set(v(2), n(4))));
    value_rule(r, "v0 = v1 = v2 = 4", &[3], &[], chain, "ended 9 4 4 4");
    let second = set(element(1, n(0)), n(9));
    value_rule(r, "the second array", &[1, 3, 2], &[], second, "ended 6 0 0 0 0 9 0");
    value_rule(
        r,
        "no reach into the second array",
        &[1, 3, 2],
        &[],
        a(n(3)),
        "index 4 0 0 0 0 0 0",
    );
}
