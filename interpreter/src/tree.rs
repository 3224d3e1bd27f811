//! Programs as trees, and their numbering into rows.

use crate::form::Form::Source;
use crate::random::Random;
use crate::table::*;

#[derive(Clone, Debug)]
pub struct Tree {
    pub kind: i32,
    pub parts: [Part; 4],
}

/// One of the fields a to d.
#[derive(Clone, Debug, Default)]
pub enum Part {
    #[default]
    Absent,
    Number(i32),
    One(Box<Tree>),
    List(Vec<Tree>),
}

use Part::{Absent, List, Number};

fn one(tree: Tree) -> Part {
    Part::One(Box::new(tree))
}

fn maybe(tree: Option<Tree>) -> Part {
    tree.map_or(Absent, one)
}

fn node(kind: i32, a: Part, b: Part) -> Tree {
    Tree { kind, parts: [a, b, Absent, Absent] }
}

pub fn constant(value: i32) -> Tree {
    node(CONSTANT, Number(value), Absent)
}

pub fn variable(number: i32) -> Tree {
    node(VARIABLE, Number(number), Absent)
}

pub fn element(array: i32, index: Tree) -> Tree {
    node(ELEMENT, Number(array), one(index))
}

/// A kind with one expression or place: 4, 5, 27 to 30.
pub fn unary(kind: i32, operand: Tree) -> Tree {
    node(kind, one(operand), Absent)
}

/// A kind with two: 6 to 18, comma, and the assignments (place, value).
pub fn binary(kind: i32, left: Tree, right: Tree) -> Tree {
    node(kind, one(left), one(right))
}

pub fn assign(place: Tree, value: Tree) -> Tree {
    binary(ASSIGN, place, value)
}

pub fn conditional(test: Tree, yes: Tree, no: Tree) -> Tree {
    Tree { kind: CONDITIONAL, parts: [one(test), one(yes), one(no), Absent] }
}

/// A kind without fields: empty, default, break, continue.
pub fn plain(kind: i32) -> Tree {
    node(kind, Absent, Absent)
}

pub fn expression(value: Tree) -> Tree {
    node(EXPRESSION, one(value), Absent)
}

pub fn block(items: Vec<Tree>) -> Tree {
    node(BLOCK, List(items), Absent)
}

pub fn choice(test: Tree, yes: Tree, no: Option<Tree>) -> Tree {
    Tree { kind: IF, parts: [one(test), one(yes), maybe(no), Absent] }
}

pub fn while_loop(test: Tree, body: Tree) -> Tree {
    node(WHILE, one(test), one(body))
}

pub fn do_loop(body: Tree, test: Tree) -> Tree {
    node(DO, one(body), one(test))
}

pub fn for_loop(start: Option<Tree>, test: Option<Tree>, step: Option<Tree>, body: Tree) -> Tree {
    Tree { kind: FOR, parts: [maybe(start), maybe(test), maybe(step), one(body)] }
}

pub fn switch(selector: Tree, items: Vec<Tree>) -> Tree {
    node(SWITCH, one(selector), List(items))
}

/// A guarded if or a guarded do.
pub fn guarded(kind: i32, arms: Vec<Tree>) -> Tree {
    node(kind, List(arms), Absent)
}

pub fn arm(guard: Tree, items: Vec<Tree>) -> Tree {
    binary(ARM, guard, block(items))
}

/// A declaration: the number, and the new object's first value.
pub fn declare(number: i32, value: Tree) -> Tree {
    node(DECLARE, Number(number), one(value))
}

/// A parameter: a declaration without a first value.
pub fn parameter(number: i32) -> Tree {
    node(DECLARE, Number(number), Absent)
}

/// The definition of the function with this number: the numbers of its parameters, its items.
pub fn define(function: i32, parameters: &[i32], items: Vec<Tree>) -> Tree {
    let parameters = parameters.iter().map(|&number| parameter(number)).collect();
    let parts = [Number(function), List(parameters), one(block(items)), Absent];
    Tree { kind: DEFINE, parts }
}

pub fn call(function: i32, arguments: Vec<Tree>) -> Tree {
    let arguments = arguments.into_iter().map(|value| node(ARGUMENT, one(value), Absent));
    node(CALL, Number(function), List(arguments.collect()))
}

/// A return with this value, or with 0.
pub fn give_back(value: Option<Tree>) -> Tree {
    node(RETURN, maybe(value), Absent)
}

pub fn case(value: i32) -> Tree {
    node(CASE, Number(value), Absent)
}

impl Tree {
    /// The trees directly below.
    pub fn below(&self) -> impl Iterator<Item = &Tree> {
        self.parts.iter().flat_map(|part| match part {
            Part::One(tree) => std::slice::from_ref(&**tree),
            List(items) => items,
            _ => &[],
        })
    }

    pub fn depth(&self) -> usize {
        1 + self.below().map(Tree::depth).max().unwrap_or(0)
    }

    pub fn size(&self) -> usize {
        1 + self.below().map(Tree::size).sum::<usize>()
    }

    /// Whether the number stands in this tree: as operand, place or index.
    pub fn names(&self, number: i32) -> bool {
        let own = self.kind == VARIABLE && matches!(self.parts[0], Number(own) if own == number);
        own || self.below().any(|tree| tree.names(number))
    }

    /// Calls the function on this tree and all below.
    pub fn each(&mut self, act: &mut dyn FnMut(&mut Tree)) {
        act(self);
        for part in &mut self.parts {
            match part {
                Part::One(tree) => tree.each(act),
                List(items) => items.iter_mut().for_each(|item| item.each(act)),
                _ => {}
            }
        }
    }
}

/// The order in which the rows are numbered. All go from owner to part and
/// from item to next item.
#[derive(Clone, Copy, Debug, PartialEq, Eq)]
pub enum Order {
    /// Owner, parts in order, then the next item.
    Pre,
    /// Nearest to row 0 first.
    Breadth,
    /// The last link first.
    Last,
    /// All statements before all expressions.
    StatementsFirst,
    /// Any order that the links allow.
    Random,
}

/// The rows of a tree, with the tree's root as row 0.
pub fn number(root: &Tree, order: Order, random: &mut Random) -> Vec<i32> {
    let mut rows = Vec::new();
    lay(root, &mut rows);
    if order != Order::Pre {
        rows = renumber(&rows, order, random);
    }
    rows.concat()
}

/// The rows in the order Pre.
pub fn rows_in_order(root: &Tree) -> Vec<i32> {
    let mut rows = Vec::new();
    lay(root, &mut rows);
    rows.concat()
}

/// Adds the tree's rows in the order Pre and gives its row.
fn lay(tree: &Tree, rows: &mut Vec<Row>) -> usize {
    let at = rows.len();
    rows.push([tree.kind, 0, 0, 0, 0, 0]);
    for (i, part) in tree.parts.iter().enumerate() {
        match part {
            Absent => {}
            Number(value) => rows[at][1 + i] = *value,
            Part::One(tree) => rows[at][1 + i] = lay(tree, rows) as i32,
            List(items) => {
                let (mut owner, mut field) = (at, 1 + i);
                for item in items {
                    let row = lay(item, rows);
                    rows[owner][field] = row as i32;
                    (owner, field) = (row, NEXT);
                }
            }
        }
    }
    at
}

/// The positions in a row that hold links, the next field included.
pub fn link_fields(row: &Row) -> Vec<usize> {
    let fields = Source.fields_or_unused(row[0]);
    let mut links: Vec<usize> = (1..NEXT).filter(|&i| fields[i - 1].is_link()).collect();
    if Source.fields(row[0]).is_some() && !is_expression(row[0]) {
        links.push(NEXT);
    }
    links
}

/// Numbers the rows anew. Each row but row 0 is linked once, so a row is ready
/// as soon as the row that links to it has its number.
pub fn renumber(rows: &[Row], order: Order, random: &mut Random) -> Vec<Row> {
    let mut ready = vec![0];
    let mut sequence = Vec::with_capacity(rows.len());
    let mut numbers = vec![0; rows.len()];
    while !ready.is_empty() {
        let position = match order {
            Order::Pre | Order::Last => ready.len() - 1,
            Order::Breadth => 0,
            Order::StatementsFirst => {
                ready.iter().position(|&at: &usize| !is_expression(rows[at][0])).unwrap_or(0)
            }
            Order::Random => random.below(ready.len()),
        };
        let at = ready.remove(position);
        numbers[at] = sequence.len();
        sequence.push(at);
        let links = link_fields(&rows[at]).into_iter();
        let mut targets: Vec<usize> =
            links.map(|i| rows[at][i] as usize).filter(|&target| target != 0).collect();
        if order == Order::Pre {
            targets.reverse();
        }
        ready.extend(targets);
    }
    let renumbered = sequence.iter().map(|&at| {
        let mut row = rows[at];
        for i in link_fields(&row) {
            row[i] = numbers[row[i] as usize] as i32;
        }
        row
    });
    renumbered.collect()
}
