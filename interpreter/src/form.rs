//! The two forms of a program, source and kernel, and what sets them apart:
//! the header, the limits and the kinds.

use crate::table::*;
use std::ops::Range;

#[derive(Clone, Copy, Debug, PartialEq, Eq)]
pub enum Form {
    /// C-light. A header has V, then the array lengths.
    Source,
    /// What a translation is written in. A header has V, D, T, then the lengths.
    Kernel,
}

use Form::{Kernel, Source};

impl Form {
    pub fn max_rows(self) -> usize {
        match self {
            Source => MAX_ROWS,
            Kernel => MAX_KERNEL_ROWS,
        }
    }

    pub fn max_depth(self) -> u32 {
        match self {
            Source => MAX_DEPTH,
            Kernel => MAX_KERNEL_DEPTH,
        }
    }

    /// How many words of a header stand ahead of the array lengths.
    pub fn leading_words(self) -> usize {
        match self {
            Source => 1,
            Kernel => 3,
        }
    }

    /// The array lengths of a header that has its leading words.
    pub fn lengths(self, header: &[i32]) -> &[i32] {
        &header[self.leading_words()..]
    }

    /// D, the number of declared words, as a kernel header says it; a source header says none.
    pub fn declared_by_header(self, header: &[i32]) -> i32 {
        match self {
            Source => 0,
            Kernel => header[1],
        }
    }

    /// D: of the source form, the number of declarations.
    pub fn declared(self, header: &[i32], rows: &[i32]) -> usize {
        match self {
            Source => declarations(rows).len(),
            Kernel => header[1] as usize,
        }
    }

    /// T, the number of temporaries.
    pub fn temporaries(self, header: &[i32]) -> i32 {
        match self {
            Source => 0,
            Kernel => header[2],
        }
    }

    /// The words behind the first S that a header gives: declared words, then temporaries.
    pub fn behind(self, header: &[i32]) -> i64 {
        i64::from(self.declared_by_header(header)) + i64::from(self.temporaries(header))
    }

    /// S, the number of words of the variables and the arrays.
    pub fn size(self, header: &[i32]) -> i64 {
        i64::from(header[0]) + self.lengths(header).iter().map(|&n| i64::from(n)).sum::<i64>()
    }

    /// The words that a header gives: S, and in the kernel form the D+T behind them.
    pub fn header_words(self, header: &[i32]) -> usize {
        (self.size(header) + self.behind(header)) as usize
    }

    /// The words of the store: S+D, or S+D+T in the kernel form.
    pub fn store_words(self, header: &[i32], rows: &[i32]) -> usize {
        match self {
            Source => self.size(header) as usize + self.declared(header, rows),
            Kernel => self.header_words(header),
        }
    }

    /// The variable numbers that a header gives from S on, in the kernel form.
    pub fn numbers_behind(self, header: &[i32]) -> Range<i32> {
        self.size(header) as i32..self.header_words(header) as i32
    }

    /// The fields a to d of a kind; none where the kind is not in the language.
    pub fn fields(self, kind: i32) -> Option<[Field; 4]> {
        let known = match (self, kind) {
            (Source, kind) => !matches!(kind, GOTO | LABEL | ABORT),
            (Kernel, CONSTANT..=MINUS | ADD..=UNEQUAL | ASSIGN | CALL | ARGUMENT) => true,
            (Kernel, EMPTY..=WHILE | GOTO | LABEL | ABORT | DECLARE..=RETURN) => true,
            (Kernel, _) => false,
        };
        if known {
            fields(kind)
        } else {
            None
        }
    }

    /// The fields of a kind; all are unused where it is not in the language.
    pub fn fields_or_unused(self, kind: i32) -> [Field; 4] {
        self.fields(kind).unwrap_or([Field::Unused; 4])
    }

    /// Whether the kind is a statement of this form.
    pub fn is_statement(self, kind: i32) -> bool {
        is_statement(kind) && self.fields(kind).is_some()
    }
}
