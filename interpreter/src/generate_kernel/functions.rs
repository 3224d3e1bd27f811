//! Functions of generated kernel programs, and damages to them: causes 4, 6, 7, 12, 13,
//! 19, 23 and 24.

use super::Writer;
use crate::random::Random;
use crate::table::*;

impl Writer<'_> {
    /// The definitions at the head of row 0's list; gives the last, if there is one.
    pub fn definitions(&mut self) -> Option<i32> {
        let count = self.random.weighted(&[(65, 0), (14, 1), (11, 2), (7, 3), (3, 7)]);
        let size = self.left;
        let mut last = None;
        for _ in 0..count {
            last = Some(self.link_item(0, last));
            self.left = self.random.pick(&[0, 2, 4, 8, 16]);
            self.definition();
        }
        self.left = size;
        last
    }

    fn definition(&mut self) {
        let parameters = self.parameters();
        let own = self.row(DEFINE);
        self.rows[own][1] = self.functions.len() as i32;
        let mut field = (own, 2);
        for &word in &parameters {
            self.rows[field.0][field.1] = self.free();
            let at = self.row(DECLARE);
            self.rows[at][1] = word;
            field = (at, NEXT);
        }
        self.rows[own][3] = self.free();
        self.in_function = true;
        self.block(1, &mut Vec::new());
        self.in_function = false;
        self.functions.push(parameters.len());
    }

    /// Different declared words.
    fn parameters(&mut self) -> Vec<i32> {
        let mut words = self.declared.clone();
        let wanted = self.random.weighted(&[(25, 0), (35, 1), (25, 2), (13, 3), (2, 64)]);
        let mut parameters = Vec::new();
        while parameters.len() < wanted && !words.is_empty() {
            parameters.push(words.swap_remove(self.random.below(words.len())));
        }
        parameters
    }

    pub fn give_back(&mut self) {
        let at = self.row(RETURN);
        self.rows[at][1] = self.atom();
    }

    /// A call with atoms as arguments.
    pub fn call(&mut self) {
        let number = self.random.below(self.functions.len());
        let at = self.row(CALL);
        self.rows[at][1] = number as i32;
        let mut field = (at, 2);
        for _ in 0..self.functions[number] {
            self.rows[field.0][field.1] = self.free();
            let at = self.row(ARGUMENT);
            self.rows[at][1] = self.atom();
            field = (at, NEXT);
        }
    }
}

pub fn has_functions(rows: &[i32]) -> bool {
    rows.iter().step_by(WORDS).any(|&kind| kind == DEFINE)
}

/// The word that the next parameter names; the own one of the last.
fn word_of_next(rows: &[i32], at: usize) -> i32 {
    let next = WORDS * rows[at + NEXT].max(0) as usize;
    *rows.get(next + 1).filter(|_| next != 0).unwrap_or(&rows[at + 1])
}

/// Changes a row of a function's kinds, or makes one such of another. The last row may have been cut.
pub fn damage(random: &mut Random, rows: &mut [i32]) {
    let kind =
        random.pick(&[CALL, CALL, ARGUMENT, DECLARE, DECLARE, DEFINE, RETURN, EXPRESSION, GOTO]);
    let whole = rows.len() / WORDS;
    let of_kind: Vec<usize> =
        (0..whole).map(|row| WORDS * row).filter(|&at| rows[at] == kind).collect();
    if of_kind.is_empty() {
        return;
    }
    let at = random.pick(&of_kind);
    let row = (at / WORDS) as i32;
    let near = random.pick(&[-1, 1]);
    let choice = random.below(4);
    match (kind, choice) {
        // The number of a function, or of a declared word; a goto to a label of another list.
        (CALL | DEFINE | DECLARE | GOTO, 0 | 1) => rows[at + 1] = rows[at + 1].wrapping_add(near),
        (GOTO, _) => rows[at + 1] = random.between(1, 40),
        // No arguments or parameters, or other ones.
        (CALL | DEFINE, 2) => rows[at + 2] = 0,
        (CALL, _) => rows[at + 2] = random.pick(&[row + 1, row + 2]),
        (DEFINE, _) => rows[1] = rows[at + NEXT],
        (DECLARE, 2) => rows[at + 1] = word_of_next(rows, at),
        (DECLARE, _) => rows[at + 2] = random.pick(&[1, -1, row + 1]),
        (RETURN, 0 | 1) => rows[at + 1] = 0,
        (RETURN, _) => rows[at] = EXPRESSION,
        // Outside of functions a return is out of place, inside it has no atom.
        (EXPRESSION, _) => rows[at] = RETURN,
        _ => rows[at + NEXT] = random.pick(&[0, 0, row + 1, row + 2]),
    }
}
