//! The kernel on paper, from docs/PAGES.md alone: prints a legal kernel
//! program as a page, and reads a page as rows.

mod reader;

pub use reader::read;

use crate::form::Form::Kernel;
use crate::table::*;

/// Columns of a line, without its newline.
pub const COLUMNS: usize = 80;
/// A block has one row and two lines, nothing has more; row 0 has none.
pub const MAX_LINES: usize = 2 * MAX_KERNEL_ROWS - 2;
const OPERATORS: [&str; 11] = ["+", "-", "*", "/", "%", "<", ">", "<=", ">=", "==", "!="];

/// The page of a program that the kernel check accepts.
pub fn print(header: &[i32], words: &[i32]) -> Vec<u8> {
    let declared = Kernel.size(header);
    let temporaries = declared + i64::from(Kernel.declared_by_header(header));
    let rows = rows_of(words);
    let mut printer = Printer { declared, temporaries, rows, lines: 0, page: Vec::new() };
    printer.list(printer.rows[0][1], 0);
    printer.page
}

/// A line with its number, its indent, and blanks to its end.
fn line_text(number: usize, level: usize, statement: &str) -> String {
    let indent = " ".repeat((2 * level).min(36));
    let line = format!("{number:>5} {indent}{statement}");
    format!("{line:<width$}\n", width = COLUMNS)
}

struct Printer<'a> {
    /// Where the declared words begin, and the temporaries.
    declared: i64,
    temporaries: i64,
    rows: &'a [Row],
    lines: usize,
    page: Vec<u8>,
}

impl Printer<'_> {
    fn line(&mut self, level: usize, statement: &str) {
        self.lines += 1;
        self.page.extend(line_text(self.lines, level, statement).into_bytes());
    }

    fn list(&mut self, first: i32, level: usize) {
        let rows = self.rows;
        list(rows, first).for_each(|at| self.item(rows[at], level));
    }

    fn block(&mut self, row: i32, level: usize) {
        self.list(self.rows[row as usize][1], level);
    }

    fn item(&mut self, row: Row, level: usize) {
        let [kind, a, b, c, _, _] = row;
        match kind {
            EMPTY => self.line(level, ";"),
            EXPRESSION => self.assignment(self.rows[a as usize], level),
            DEFINE => {
                let names =
                    list(self.rows, b).map(|at| format!("int {}", self.name(self.rows[at][1])));
                let names = names.collect();
                self.opened(level, &format!("int f{a}("), names, ") {");
                self.block(c, level + 1);
                self.line(level, "}");
            }
            RETURN => self.line(level, &format!("return {};", self.atom(a))),
            BLOCK => {
                self.line(level, "{");
                self.list(a, level + 1);
                self.line(level, "}");
            }
            IF => {
                let test = format!("if ({}) {{", self.atom(a));
                self.line(level, &test);
                self.block(b, level + 1);
                self.line(level, "} else {");
                self.block(c, level + 1);
                self.line(level, "}");
            }
            WHILE => {
                let test = format!("while ({}) {{", self.atom(a));
                self.line(level, &test);
                self.block(b, level + 1);
                self.line(level, "}");
            }
            GOTO => self.line(level, &format!("goto L{a};")),
            LABEL => self.line(level, &format!("L{a}:;")),
            ABORT => self.line(level, "abort();"),
            _ => panic!("kind {kind} is not in the kernel language"),
        }
    }

    fn name(&self, variable: i32) -> String {
        let word = i64::from(variable);
        if word < self.declared {
            format!("v{word}")
        } else if word < self.temporaries {
            format!("l{}", word - self.declared)
        } else {
            format!("t{}", word - self.temporaries)
        }
    }

    fn atom(&self, row: i32) -> String {
        match self.rows[row as usize] {
            [CONSTANT, value, ..] => value.to_string(),
            [VARIABLE, variable, ..] => self.name(variable),
            [kind, ..] => panic!("kind {kind} is no atom"),
        }
    }

    /// A name, or an element.
    fn place(&self, row: i32) -> String {
        match self.rows[row as usize] {
            [ELEMENT, array, index, ..] => format!("a{array}[{}]", self.atom(index)),
            _ => self.atom(row),
        }
    }

    fn assignment(&mut self, row: Row, level: usize) {
        let [_, place, value, ..] = row;
        let place = self.place(place);
        let value = match self.rows[value as usize] {
            [CALL, function, first, ..] => {
                let values = list(self.rows, first).map(|at| self.atom(self.rows[at][1])).collect();
                return self.opened(level, &format!("{place} = f{function}("), values, ");");
            }
            [MINUS, a, ..] => format!("- {}", self.atom(a)),
            [kind @ ADD..=UNEQUAL, a, b, ..] => {
                format!("{} {} {}", self.atom(a), OPERATORS[(kind - ADD) as usize], self.atom(b))
            }
            _ => self.place(value),
        };
        self.line(level, &format!("{place} = {value};"));
    }

    /// A line that opens parentheses, and a line for each of those inside, the last of which closes
    /// them; all on one line where there are none.
    fn opened(&mut self, level: usize, opening: &str, inside: Vec<String>, closing: &str) {
        let Some((last, others)) = inside.split_last() else {
            return self.line(level, &format!("{opening}{closing}"));
        };
        self.line(level, opening);
        others.iter().for_each(|other| self.line(level, &format!("{other},")));
        self.line(level, &format!("{last}{closing}"));
    }
}
