//! Generated kernel programs: every statement of the kernel form, gotos out of
//! nests and past items, functions, and damaged tables of them.

mod functions;

use crate::cases::Case;
use crate::damage::{damage_text, damage_words, start};
use crate::form::Form::Kernel;
use crate::random::Random;
use crate::table::*;
use crate::text;

/// A legal kernel program.
pub struct Program {
    pub header: Vec<i32>,
    pub rows: Vec<Row>,
}

/// The case of this number.
pub fn case(seed: u64, number: u64) -> Case {
    let random = &mut Random::new(seed, number);
    let Program { header, rows } = program(random);
    let rows = rows.concat();
    let (words, budget) = start(Kernel, random, &header, &rows);
    Case { budget, words, text: text::write(&header, &rows) }
}

/// The damaged case of this number: its table, at times its start words or its bytes too.
pub fn damaged_case(seed: u64, number: u64) -> Case {
    let random = &mut Random::new(!seed, number);
    let Program { mut header, rows } = program(random);
    let mut rows = rows.concat();
    if random.chance(80) {
        damage(random, &mut header, &mut rows);
    }
    let (mut words, budget) = start(Kernel, random, &header, &rows);
    if header.len() >= Kernel.leading_words() && random.chance(10) {
        damage_words(random, Kernel.size(&header) + Kernel.behind(&header), &mut words);
    }
    let mut bytes = text::write(&header, &rows);
    if random.chance(15) {
        damage_text(Kernel, random, &mut bytes);
    }
    Case { budget, words, text: bytes }
}

/// V, D, T and up to two array lengths: a few of each, now and then as many declared words as can be.
pub fn kernel_header(random: &mut Random) -> Vec<i32> {
    let declared = random.weighted(&[(35, 0), (25, 1), (20, 2), (15, 3), (5, MAX_DECLARED)]);
    let mut header = vec![random.between(0, 4), declared, random.between(0, 4)];
    for _ in 0..random.below(3) {
        header.push(random.between(1, 5));
    }
    header
}

pub fn program(random: &mut Random) -> Program {
    let header = kernel_header(random);
    let arrays = Kernel.lengths(&header).len();
    let numbers = variable_numbers(&header);
    let size = random.pick(&[3, 10, 10, 40, 200]);
    let declared = declared_words(&header);
    let mut writer = Writer {
        random,
        arrays,
        numbers,
        declared,
        rows: Vec::new(),
        labels: 0,
        left: size,
        functions: Vec::new(),
        in_function: false,
    };
    writer.row(BLOCK);
    let last = writer.definitions();
    writer.items(0, last, 0, &mut Vec::new());
    Program { rows: writer.rows, header }
}

fn declared_words(header: &[i32]) -> Vec<i32> {
    let size = Kernel.size(header) as i32;
    (size..size + Kernel.declared_by_header(header)).collect()
}

/// The numbers that name a variable, a declared word or a temporary.
fn variable_numbers(header: &[i32]) -> Vec<i32> {
    (0..header[0]).chain(Kernel.numbers_behind(header)).collect()
}

struct Writer<'a> {
    random: &'a mut Random,
    arrays: usize,
    numbers: Vec<i32>,
    /// The numbers of the declared words, which parameters name.
    declared: Vec<i32>,
    rows: Vec<Row>,
    labels: i32,
    /// How many statements may still be begun.
    left: usize,
    /// How many parameters each function has that may be called.
    functions: Vec<usize>,
    in_function: bool,
}

impl Writer<'_> {
    fn row(&mut self, kind: i32) -> usize {
        self.rows.push([kind, 0, 0, 0, 0, 0]);
        self.rows.len() - 1
    }

    /// The row that is written next, as a link.
    fn free(&self) -> i32 {
        self.rows.len() as i32
    }

    fn block(&mut self, depth: usize, ahead: &mut Vec<i32>) {
        let own = self.row(BLOCK);
        self.items(own, None, depth, ahead);
    }

    /// The items of a block, behind the last that it has; `ahead` holds the labels that a goto in it
    /// may have.
    fn items(&mut self, own: usize, mut last: Option<i32>, depth: usize, ahead: &mut Vec<i32>) {
        let items = if depth == 0 { 6 } else { self.random.below(6) };
        // Whether a label stands at each position; those labels are known from the start.
        let places: Vec<Option<i32>> = (0..items).map(|_| self.maybe_label()).collect();
        let outer = ahead.len();
        ahead.extend(places.iter().rev().flatten());
        for place in places {
            if place.is_none() && self.left == 0 {
                continue;
            }
            let at = self.link_item(own, last);
            match place {
                Some(label) => {
                    let at = self.row(LABEL);
                    self.rows[at][1] = label;
                    ahead.pop();
                }
                None => self.statement(depth, ahead),
            }
            last = Some(at);
        }
        ahead.truncate(outer);
    }

    /// Links the row that is written next as an item, and gives it.
    fn link_item(&mut self, own: usize, last: Option<i32>) -> i32 {
        let at = self.free();
        match last {
            None => self.rows[own][1] = at,
            Some(before) => self.rows[before as usize][NEXT] = at,
        }
        at
    }

    fn maybe_label(&mut self) -> Option<i32> {
        if !self.random.chance(20) {
            return None;
        }
        self.labels += self.random.between(1, 3);
        Some(self.labels)
    }

    fn statement(&mut self, depth: usize, ahead: &mut Vec<i32>) {
        self.left = self.left.saturating_sub(1);
        match self.random.below(if depth > 8 { 7 } else { 12 }) {
            0 => {
                let kind = if self.random.chance(30) { ABORT } else { EMPTY };
                self.row(kind);
            }
            1 if !ahead.is_empty() => {
                let at = self.row(GOTO);
                self.rows[at][1] = self.random.pick(ahead);
            }
            2 | 3 if self.in_function => self.give_back(),
            7 => self.block(depth + 1, ahead),
            8 | 9 => {
                let at = self.row(IF);
                self.rows[at][1] = self.atom();
                self.rows[at][2] = self.free();
                self.block(depth + 1, ahead);
                self.rows[at][3] = self.free();
                self.block(depth + 1, ahead);
            }
            10 | 11 => {
                let at = self.row(WHILE);
                self.rows[at][1] = self.atom();
                self.rows[at][2] = self.free();
                self.block(depth + 1, ahead);
            }
            _ => self.assignment(),
        }
    }

    fn assignment(&mut self) {
        if self.numbers.is_empty() && self.arrays == 0 {
            self.row(EMPTY);
            return;
        }
        let at = self.row(EXPRESSION);
        let assign = self.row(ASSIGN);
        self.rows[at][1] = assign as i32;
        self.rows[assign][1] = self.free();
        if self.numbers.is_empty() || (self.arrays > 0 && self.random.chance(40)) {
            self.element();
            self.rows[assign][2] = self.atom();
        } else {
            self.variable();
            self.rows[assign][2] = self.free();
            self.value();
        }
    }

    /// What may be assigned to a variable.
    fn value(&mut self) {
        match self.random.below(10) {
            0 => {
                let at = self.row(MINUS);
                self.rows[at][1] = self.atom();
            }
            1..=5 => {
                let kind = self.random.between(ADD, UNEQUAL);
                let at = self.row(kind);
                self.rows[at][1] = self.atom();
                self.rows[at][2] = self.atom();
            }
            6 | 7 if self.arrays > 0 => self.element(),
            8 | 9 if !self.functions.is_empty() => self.call(),
            _ => {
                self.atom();
            }
        }
    }

    fn element(&mut self) {
        let at = self.row(ELEMENT);
        self.rows[at][1] = self.random.below(self.arrays) as i32;
        self.rows[at][2] = self.atom();
    }

    fn variable(&mut self) {
        let at = self.row(VARIABLE);
        self.rows[at][1] = self.random.pick(&self.numbers);
    }

    /// Writes a constant or a variable and gives its row.
    fn atom(&mut self) -> i32 {
        let at = self.free();
        if self.numbers.is_empty() || self.random.chance(40) {
            let at = self.row(CONSTANT);
            let end = self.random.pick(&[i32::MIN, i32::MAX]);
            let small = self.random.between(-2, 4);
            self.rows[at][1] = if self.random.chance(10) { end } else { small };
        } else {
            self.variable();
        }
        at
    }
}

/// Changes some words of a table, or its length, or its header.
pub fn damage(random: &mut Random, header: &mut Vec<i32>, rows: &mut Vec<i32>) {
    for _ in 0..random.between(1, 2) {
        let choice = match functions::has_functions(rows) && random.chance(60) {
            true => 10,
            false => random.below(24),
        };
        match choice {
            0 => {
                let at = random.below(header.len());
                header[at] = random.pick(&[-1, 0, 1, 64, 65, 257, 4097, 8193, i32::MIN]);
            }
            1 => header.truncate(random.below(header.len() + 1)),
            2 => rows.truncate(random.below(rows.len() + 1)),
            3 => rows.extend([EMPTY, 0, 0, 0, 0, 0]),
            4..=9 => change_form(random, rows),
            10 => functions::damage(random, rows),
            _ => change_word(random, rows),
        }
        if header.is_empty() || rows.is_empty() {
            return;
        }
    }
}

/// Changes a word to one near it, to another row's word, or to a number of interest.
fn change_word(random: &mut Random, rows: &mut [i32]) {
    let at = random.below(rows.len());
    rows[at] = match random.below(6) {
        0 => rows[at].wrapping_add(random.between(-2, 2)),
        1 => rows[random.below(rows.len())],
        2 => random.between(0, rows.len() as i32 / WORDS as i32),
        3 => random.pick(&[-1, 0, 40_979, 40_980, i32::MIN, i32::MAX]),
        4 => random.pick(&[
            CONSTANT, VARIABLE, ELEMENT, NOT, ASSIGN, CALL, ARGUMENT, EMPTY, BLOCK, GOTO, LABEL,
            GUARDED_IF, GUARDED_DO, ARM, ABORT, DECLARE, DEFINE, RETURN,
        ]),
        _ => 0,
    };
}

/// Changes a kind to one with the same fields, or the number of a goto or label: mostly the table
/// stays well and the form or the labels do not.
fn change_form(random: &mut Random, rows: &mut [i32]) {
    let may_change = |&at: &usize| match rows[at..] {
        [ASSIGN | ADD..=UNEQUAL | GOTO | LABEL, _, ..] => true,
        [BLOCK, first, ..] => first == 0 && at > 0,
        _ => false,
    };
    let candidates: Vec<usize> = (0..rows.len()).step_by(WORDS).filter(may_change).collect();
    if candidates.is_empty() {
        return;
    }
    let at = random.pick(&candidates);
    match rows[at] {
        ASSIGN => rows[at] = random.between(ADD, UNEQUAL),
        ADD..=UNEQUAL => rows[at] = ASSIGN,
        BLOCK => rows[at] = EMPTY,
        GOTO if random.chance(50) => rows[at] = LABEL,
        LABEL if random.chance(50) => rows[at] = GOTO,
        _ => rows[at + 1] = rows[at + 1].wrapping_add(random.pick(&[-1, 1])),
    }
}
