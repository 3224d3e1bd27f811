//! What variable numbers name at a moment of a run (document 02, changes 11 and 13).

use crate::form::Form;
use crate::table::declarations;

pub struct Names {
    form: Form,
    /// The declarations' rows, in order.
    rows: Vec<usize>,
    /// The word of the first of them.
    first: usize,
    scope: Scope,
}

/// What a function, or the program outside of functions, has declared.
pub struct Scope {
    /// The word that each number below V names; empty in the kernel form, where a number is a word.
    words: Vec<usize>,
    /// The declarations that are in force: the number of each, and the word that it named before.
    hidden: Vec<(usize, usize)>,
}

impl Scope {
    /// The header's variables, and no declaration.
    fn new(variables: usize) -> Scope {
        Scope { words: (0..variables).collect(), hidden: Vec::new() }
    }
}

impl Names {
    pub fn new(form: Form, header: &[i32], rows: &[i32]) -> Names {
        let (variables, rows) = match form {
            Form::Source => (header[0] as usize, declarations(rows)),
            Form::Kernel => (0, Vec::new()),
        };
        Names { form, rows, first: form.size(header) as usize, scope: Scope::new(variables) }
    }

    pub fn word(&self, number: usize) -> usize {
        self.scope.words.get(number).copied().unwrap_or(number)
    }

    /// The number names the word of this declaration from now on.
    pub fn declare(&mut self, row: usize, number: usize) -> usize {
        if self.form == Form::Kernel {
            return number;
        }
        let word = self.first + self.rows.partition_point(|&other| other < row);
        self.scope.hidden.push((number, self.scope.words[number]));
        self.scope.words[number] = word;
        word
    }

    /// How many declarations are in force.
    pub fn declared(&self) -> usize {
        self.scope.hidden.len()
    }

    /// Only so many declarations stay in force.
    pub fn leave(&mut self, declared: usize) {
        while self.scope.hidden.len() > declared {
            if let Some((number, word)) = self.scope.hidden.pop() {
                self.scope.words[number] = word;
            }
        }
    }

    /// A function sees none of its caller's declarations; those are given back.
    pub fn enter_function(&mut self) -> Scope {
        let variables = self.scope.words.len();
        std::mem::replace(&mut self.scope, Scope::new(variables))
    }

    pub fn leave_function(&mut self, caller: Scope) {
        self.scope = caller;
    }
}
