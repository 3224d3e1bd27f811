//! What a program can write (document 02, changes 7, 11 and 13): the variables, the
//! declared words, and the arrays of the elements, that are places of the kinds 21
//! to 30, in any row; and the words of all declarations and parameters.

use crate::table::*;
use std::collections::BTreeSet;

#[derive(Clone, Debug, Default, PartialEq, Eq)]
pub struct Written {
    pub variables: BTreeSet<i32>,
    /// By number, from 0.
    pub declared: BTreeSet<i32>,
    pub arrays: BTreeSet<i32>,
}

impl Written {
    /// The ones in the words of the write set.
    pub fn ones(&self) -> usize {
        self.variables.len() + self.declared.len()
    }
}

/// Of the rows of an accepted program.
pub fn written(words: &[i32]) -> Written {
    let mut search = Search {
        rows: rows_of(words),
        declared: declarations(words),
        scope: Vec::new(),
        written: Written::default(),
    };
    search.row(0);
    search.written
}

struct Search<'a> {
    rows: &'a [Row],
    declared: Vec<usize>,
    /// The declarations around, innermost last: the number of each, and which one it is.
    scope: Vec<(i32, i32)>,
    written: Written,
}

impl Search<'_> {
    /// A row and all below it.
    fn row(&mut self, at: usize) {
        let row = self.rows[at];
        if row[0] == DEFINE {
            return self.scoped(|search| {
                // The parameters are in scope in the body.
                search.items(row[2]);
                search.items(row[3]);
            });
        }
        if (ASSIGN..=POST_DECREMENT).contains(&row[0]) {
            self.place(self.rows[row[1] as usize]);
        }
        let fields = fields(row[0]).unwrap_or([Field::Unused; 4]);
        for (field, &link) in fields.iter().zip(&row[1..NEXT]) {
            if field.is_link() {
                self.scoped(|search| search.items(link));
            }
        }
        if row[0] == DECLARE {
            let which = self.declared.partition_point(|&other| other < at) as i32;
            self.written.declared.insert(which);
            self.scope.push((row[1], which));
        }
    }

    /// A row, and the items that follow it in its list; 0 is an empty list.
    fn items(&mut self, first: i32) {
        list(self.rows, first).for_each(|item| self.row(item));
    }

    /// What is declared on the way is in scope there alone.
    fn scoped(&mut self, search: impl FnOnce(&mut Self)) {
        let outer = self.scope.len();
        search(self);
        self.scope.truncate(outer);
    }

    fn place(&mut self, place: Row) {
        let number = place[1];
        match self.scope.iter().rev().find(|named| named.0 == number) {
            _ if place[0] == ELEMENT => self.written.arrays.insert(number),
            Some(&(_, which)) => self.written.declared.insert(which),
            None => self.written.variables.insert(number),
        };
    }
}
