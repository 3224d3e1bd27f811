//! What programs can write: the variables at the ends of each 64-bit word, the
//! last array, no variables at all, and writes in rows that no run enters. The
//! last field of their lines is what they are here for.

use super::*;

pub fn add(r: &mut Vec<Rule>) {
    ends_of_words(r);
    arrays(r);
    never_entered(r);
    endings(r);
}

/// Words that are 0 but for some places.
fn words(size: usize, places: &[usize]) -> String {
    (0..size).map(|place| if places.contains(&place) { " 1" } else { " 0" }).collect()
}

fn ends_of_words(r: &mut Vec<Rule>) {
    let ends = [0, 63, 64, 127, 128, 191, 192, 255];
    let items = ends.iter().map(|&i| store(i as i32, 1)).collect();
    let answer = format!("ended 33{}", words(256, &ends));
    rule(r, "writes at the ends of the words", &[256], &[], items, &answer);
    for (name, i) in [("63 alone", 63), ("64 alone", 64), ("255 alone", 255)] {
        let answer = format!("ended 5{}", words(256, &[i]));
        rule(r, name, &[256], &[], vec![store(i as i32, 1)], &answer);
    }
    let all = (0..256).map(|i| store(i, 1)).collect();
    let answer = format!("ended 1025{}", " 1".repeat(256));
    rule(r, "writes to all of 256", &[256], &[], all, &answer);
    let read = expression(binary(ADD, v(63), v(64)));
    let answer = format!("ended 5{}", words(256, &[]));
    rule(r, "reads are no writes", &[256], &[], vec![read], &answer);
    let twice = vec![store(7, 1), expression(post(v(7))), store(7, 1)];
    rule(r, "a variable written thrice", &[8], &[], twice, "ended 12 0 0 0 0 0 0 0 1");
}

fn arrays(r: &mut Vec<Rule>) {
    let header: Vec<i32> = std::iter::once(0).chain([1; 32]).collect();
    let last = expression(set(element(31, n(0)), n(1)));
    let answer = format!("ended 6{}", words(32, &[31]));
    rule(r, "array 31, and V of 0", &header, &[], vec![last], &answer);
    rule(r, "V of 0 and no arrays", &[0], &[], vec![plain(EMPTY)], "ended 2");
    let index = expression(set(element(1, set(v(0), n(0))), n(1)));
    rule(r, "a write in an index", &[2, 1, 1], &[], vec![index], "ended 8 0 0 0 1");
    let read = expression(element(0, set(v(1), n(0))));
    rule(r, "a write in the index of a read", &[2, 1], &[], vec![read], "ended 6 0 0 0");
}

fn never_entered(r: &mut Vec<Rule>) {
    let never = choice(n(0), block(vec![store(0, 1), store(1, 1)]), None);
    rule(r, "writes in a branch not taken", &[2], &[], vec![never], "ended 3 0 0");
    let right = expression(binary(AND, n(0), set(v(2), n(1))));
    rule(r, "a write behind 0 &&", &[3], &[], vec![right], "ended 4 0 0 0");
    let items = vec![expression(binary(DIVIDE, n(1), n(0))), store(0, 1)];
    rule(r, "a write behind a fault", &[1], &[], items, "zero 5 0");
}

fn endings(r: &mut Vec<Rule>) {
    let index = vec![store(0, 1), expression(set(a(n(1)), n(1))), store(1, 1)];
    rule(r, "the field of a run with index fault", &[2, 1], &[], index, "index 10 1 0 0");
    let over = vec![expression(unary(PRE_INCREMENT, v(0)))];
    rule(r, "the field of an overflow", &[1], &[i32::MAX], over, "overflow 4 2147483647");
    let items = vec![store(0, 1), store(1, 1)];
    budget_rule(r, "the field of a spent run", 2, &[2], &[], items, "spent 2 0 0");
}
