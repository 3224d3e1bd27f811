//! Document 01's rules on the shelf as programs, the rewritings that lose
//! parcels, and further orders that surprise, each with its expected answer.
//! The answers are worked out by hand from documents 01 and 02.

mod declarations;
mod expressions;
mod function_refusals;
mod functions;
mod guarded;
mod refusals;
mod shelf;
mod statements;
mod written;

pub use shelf::EXAMPLE;

use crate::cases::Case;
use crate::table::*;
use crate::text;
use crate::tree::*;

pub struct Rule {
    pub name: &'static str,
    pub case: Case,
    pub answer: String,
}

/// All rules, in groups.
pub fn rules() -> Vec<Rule> {
    let mut rules = Vec::new();
    shelf::add(&mut rules);
    expressions::add(&mut rules);
    statements::add(&mut rules);
    guarded::add(&mut rules);
    declarations::add(&mut rules);
    functions::add(&mut rules);
    function_refusals::add(&mut rules);
    written::add(&mut rules);
    refusals::add(&mut rules);
    rules
}

// Short names for the parts of programs.

fn n(value: i32) -> Tree {
    constant(value)
}

fn v(number: i32) -> Tree {
    variable(number)
}

/// An element of array 0.
fn a(index: Tree) -> Tree {
    element(0, index)
}

fn set(place: Tree, value: Tree) -> Tree {
    assign(place, value)
}

/// The statement `v = value;`
fn store(number: i32, value: i32) -> Tree {
    expression(set(v(number), n(value)))
}

fn post(place: Tree) -> Tree {
    unary(POST_INCREMENT, place)
}

const LARGE: u32 = 100_000;

/// A program of items, run with a large budget.
fn rule(
    rules: &mut Vec<Rule>,
    name: &'static str,
    header: &[i32],
    words: &[i32],
    items: Vec<Tree>,
    answer: &str,
) {
    budget_rule(rules, name, LARGE, header, words, items, answer);
}

fn budget_rule(
    rules: &mut Vec<Rule>,
    name: &'static str,
    budget: u32,
    header: &[i32],
    words: &[i32],
    items: Vec<Tree>,
    answer: &str,
) {
    let rows = rows_in_order(&block(items));
    let case = Case { budget, words: words.to_vec(), text: text::write(header, &rows) };
    rules.push(Rule { name, case, answer: answer.to_string() });
}

/// An expression statement alone.
fn value_rule(
    rules: &mut Vec<Rule>,
    name: &'static str,
    header: &[i32],
    words: &[i32],
    value: Tree,
    answer: &str,
) {
    rule(rules, name, header, words, vec![expression(value)], answer);
}

fn text_rule(rules: &mut Vec<Rule>, name: &'static str, bytes: &[u8], answer: &str) {
    let case = Case { budget: LARGE, words: Vec::new(), text: bytes.to_vec() };
    rules.push(Rule { name, case, answer: answer.to_string() });
}

/// Rows as written, for programs that no tree gives.
fn table_rule(
    rules: &mut Vec<Rule>,
    name: &'static str,
    header: &[i32],
    rows: &[Row],
    answer: &str,
) {
    text_rule(rules, name, &text::write(header, &rows.concat()), answer);
}
