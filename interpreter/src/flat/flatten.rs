//! The flat list of a legal kernel program, as docs/FLAT.md has it: sizes
//! first, then the lines, then the jumps to labels.

use super::{Line, JUMP_OTHER, JUMP_ZERO, LEFT, RIGHT};
use crate::table::*;
use std::collections::HashMap;

/// An atom: whether it is a constant, and its word.
type Atom = (bool, i32);

/// A line, or a goto whose label may stand further on.
enum Made {
    Line(Line),
    Goto(i32),
}

struct Flattener<'a> {
    rows: &'a [Row],
    /// How many lines each row has, all that it links to counted.
    lines: Vec<usize>,
    made: Vec<Made>,
    addresses: HashMap<i32, usize>,
}

/// The list of a program that the kernel check accepts; 25 where it has functions, with the row of
/// the first.
pub fn flatten(rows: &[i32]) -> Result<Vec<i32>, Refusal> {
    let rows = rows_of(rows);
    match rows.iter().position(|row| row[0] == DEFINE) {
        Some(at) => Err(Refusal::new(25, at)),
        None => Ok(flattened(rows)),
    }
}

fn flattened(rows: &[Row]) -> Vec<i32> {
    let lines = vec![0; rows.len()];
    let mut flat = Flattener { rows, lines, made: Vec::new(), addresses: HashMap::new() };
    for at in (0..rows.len()).rev() {
        flat.lines[at] = flat.size(at);
    }
    flat.statement(0);
    let mut words = Vec::new();
    for (at, made) in flat.made.iter().enumerate() {
        match made {
            Made::Line(line) => words.extend(line),
            Made::Goto(label) => words.extend([52, 0, 0, 0, distance(at, flat.addresses[label])]),
        }
    }
    words
}

fn distance(from: usize, to: usize) -> i32 {
    to as i32 - (from as i32 + 1)
}

fn operation(kind: i32, left: Atom, right: Atom) -> i32 {
    kind + if left.0 { LEFT } else { 0 } + if right.0 { RIGHT } else { 0 }
}

const UNUSED: Atom = (false, 0);

impl Flattener<'_> {
    /// The lines of a row; links go to later rows, whose lines are known.
    fn size(&self, at: usize) -> usize {
        let [kind, a, b, c, ..] = self.rows[at];
        match kind {
            EXPRESSION | GOTO | ABORT => 1,
            BLOCK => self.items(a).iter().map(|&item| self.lines[item as usize]).sum(),
            IF => match (self.lines[b as usize], self.lines[c as usize]) {
                (0, 0) => 0,
                (first, 0) => 1 + first,
                (0, second) => 1 + second,
                (first, second) => 2 + first + second,
            },
            WHILE => self.lines[b as usize] + if self.always(a) { 1 } else { 2 },
            _ => 0,
        }
    }

    fn items(&self, first: i32) -> Vec<i32> {
        list(self.rows, first).map(|at| at as i32).collect()
    }

    fn atom(&self, at: i32) -> Atom {
        let [kind, word, ..] = self.rows[at as usize];
        (kind == CONSTANT, word)
    }

    /// A test that is a constant other than 0 has no line.
    fn always(&self, test: i32) -> bool {
        let (constant, word) = self.atom(test);
        constant && word != 0
    }

    fn line(&mut self, line: Line) {
        self.made.push(Made::Line(line));
    }

    fn jump(&mut self, kind: i32, test: Atom, target: usize) {
        let distance = distance(self.made.len(), target);
        self.line([operation(kind, test, UNUSED), 0, test.1, 0, distance]);
    }

    fn statement(&mut self, at: i32) {
        let [kind, a, b, c, ..] = self.rows[at as usize];
        let start = self.made.len();
        match kind {
            EXPRESSION => self.assignment(a),
            BLOCK => self.items(a).into_iter().for_each(|item| self.statement(item)),
            IF => {
                let (first, second) = (self.lines[b as usize], self.lines[c as usize]);
                let test = self.atom(a);
                match (first, second) {
                    (0, 0) => {}
                    (0, _) => self.jump(JUMP_OTHER, test, start + 1 + second),
                    (_, 0) => self.jump(JUMP_ZERO, test, start + 1 + first),
                    _ => self.jump(JUMP_ZERO, test, start + 2 + first),
                }
                // A branch without lines stands, with its labels, where the if ends.
                if first == 0 {
                    self.statement(c);
                    return self.statement(b);
                }
                self.statement(b);
                if second > 0 {
                    self.jump(GOTO, UNUSED, start + 2 + first + second);
                }
                self.statement(c);
            }
            WHILE => {
                if !self.always(a) {
                    let test = self.atom(a);
                    self.jump(JUMP_ZERO, test, start + self.lines[b as usize] + 2);
                }
                self.statement(b);
                self.jump(GOTO, UNUSED, start);
            }
            GOTO => self.made.push(Made::Goto(a)),
            LABEL => drop(self.addresses.insert(a, start)),
            ABORT => self.line([ABORT, 0, 0, 0, 0]),
            _ => {}
        }
    }

    fn assignment(&mut self, at: i32) {
        let [_, place, value, ..] = self.rows[at as usize];
        let [place_kind, target, index, ..] = self.rows[place as usize];
        let [kind, a, b, ..] = self.rows[value as usize];
        if place_kind == ELEMENT {
            let (index, value) = (self.atom(index), self.atom(value));
            return self.line([operation(ASSIGN, index, value), target, index.1, value.1, 0]);
        }
        let line = match kind {
            CONSTANT | VARIABLE => {
                let value = self.atom(value);
                [operation(1, value, UNUSED), target, value.1, 0, 0]
            }
            ELEMENT => {
                let index = self.atom(b);
                [operation(ELEMENT, UNUSED, index), target, a, index.1, 0]
            }
            MINUS => {
                let value = self.atom(a);
                [operation(MINUS, value, UNUSED), target, value.1, 0, 0]
            }
            _ => {
                let (left, right) = (self.atom(a), self.atom(b));
                [operation(kind, left, right), target, left.1, right.1, 0]
            }
        };
        self.line(line);
    }
}
