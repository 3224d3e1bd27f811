//! The lines of definitions and calls: what opens parentheses, and a line for each
//! parameter or argument inside them.

use super::{below, Ends, Reader};
use crate::table::*;

/// The parentheses of a definition or a call, which are open.
#[derive(Clone, Copy)]
pub struct Parentheses {
    /// The row of kind 59 or 31.
    owner: usize,
    /// The parameter or argument that stands last in them by now, or 0.
    last: usize,
}

impl Reader {
    /// `fN(` of a definition with parameters.
    pub fn define(&mut self, word: &str) -> Option<()> {
        let number = function(word.strip_suffix('(')?)?;
        let owner = self.item([DEFINE, number, 0, 0, 0, 0]);
        self.parentheses = Some(Parentheses { owner, last: 0 });
        Some(())
    }

    /// `fN()` of a definition without any.
    pub fn define_alone(&mut self, word: &str) -> Option<()> {
        let number = function(word.strip_suffix("()")?)?;
        let owner = self.item([DEFINE, number, 0, 0, 0, 0]);
        self.open_body(owner);
        Some(())
    }

    /// `fN(` of a call with arguments, or `fN();`.
    pub fn call(&mut self, word: &str) -> Option<()> {
        let owner = self.rows.len();
        if let Some(name) = word.strip_suffix("();") {
            self.rows.push([CALL, function(name)?, 0, 0, 0, 0]);
        } else {
            self.rows.push([CALL, function(word.strip_suffix('(')?)?, 0, 0, 0, 0]);
            self.parentheses = Some(Parentheses { owner, last: 0 });
        }
        Some(())
    }

    /// A line inside parentheses.
    pub fn inside(&mut self, parentheses: Parentheses, words: &[&str]) -> Option<()> {
        let owner = parentheses.owner;
        if self.rows[owner][0] == CALL {
            let [word] = words else { return None };
            let closing = word.strip_suffix(");");
            self.argument(parentheses, closing.or_else(|| word.strip_suffix(','))?)?;
            if closing.is_some() {
                self.parentheses = None;
            }
            return Some(());
        }
        match words {
            ["int", word] => self.parameter(parentheses, word.strip_suffix(',')?),
            ["int", word, "{"] => {
                self.parameter(parentheses, word.strip_suffix(')')?)?;
                self.parentheses = None;
                self.open_body(owner);
                Some(())
            }
            _ => None,
        }
    }

    fn argument(&mut self, parentheses: Parentheses, word: &str) -> Option<()> {
        let at = self.rows.len() as i32;
        self.add_to(parentheses, [ARGUMENT, at + 1, 0, 0, 0, 0]);
        self.atom(word)
    }

    /// A parameter names a declared word.
    fn parameter(&mut self, parentheses: Parentheses, word: &str) -> Option<()> {
        let word = self.size + below(self.declared, word.strip_prefix('l')?)?;
        self.add_to(parentheses, [DECLARE, word, 0, 0, 0, 0]);
        Some(())
    }

    /// Adds a row behind the last one in the parentheses.
    fn add_to(&mut self, Parentheses { owner, last }: Parentheses, row: Row) {
        let at = self.rows.len();
        match last {
            0 => self.rows[owner][2] = at as i32,
            _ => self.rows[last][NEXT] = at as i32,
        }
        self.rows.push(row);
        self.parentheses = Some(Parentheses { owner, last: at });
    }

    fn open_body(&mut self, definition: usize) {
        self.rows[definition][3] = self.open(Ends::Closing) as i32;
    }
}

/// The number of a function: a program has fewer of them than rows.
fn function(word: &str) -> Option<i32> {
    below(MAX_KERNEL_ROWS as i32, word.strip_prefix('f')?)
}
