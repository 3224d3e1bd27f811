//! The reader of pages, from docs/PAGES.md alone.

mod functions;

use super::{line_text, COLUMNS, MAX_LINES, OPERATORS};
use crate::check::check_header;
use crate::form::Form::Kernel;
use crate::table::*;
use crate::text::number;
use functions::Parentheses;

/// The rows of the program whose page this is, numbered in the order of the
/// page: 1, then 14 with the first wrong line, then 2.
pub fn read(header: &[i32], page: &[u8]) -> Result<Vec<i32>, Refusal> {
    check_header(Kernel, header)?;
    let mut reader = Reader {
        variables: header[0],
        declared: Kernel.declared_by_header(header),
        temporaries: Kernel.temporaries(header),
        arrays: Kernel.lengths(header).len() as i32,
        size: Kernel.size(header) as i32,
        rows: vec![[BLOCK, 0, 0, 0, 0, 0]],
        around: vec![Around::new(0, Ends::Page)],
        parentheses: None,
    };
    let mut number = 1;
    for line in page.chunks(COLUMNS + 1) {
        reader.numbered(number, line).ok_or(Refusal::new(14, number))?;
        number += 1;
    }
    if reader.around.len() != 1 || reader.parentheses.is_some() {
        return Err(Refusal::new(14, number));
    }
    if reader.rows.len() > Kernel.max_rows() {
        return Err(Refusal::new(2, 0));
    }
    Ok(reader.rows.concat())
}

/// What ends the list that is being read.
#[derive(Clone, Copy, PartialEq)]
enum Ends {
    Page,
    Closing,
    /// `} else {` of the if at this row.
    Turning(usize),
}

/// A list that is being read.
struct Around {
    block: usize,
    last: usize,
    ends: Ends,
}

impl Around {
    fn new(block: usize, ends: Ends) -> Around {
        Around { block, last: 0, ends }
    }
}

struct Reader {
    variables: i32,
    declared: i32,
    temporaries: i32,
    arrays: i32,
    size: i32,
    rows: Vec<Row>,
    around: Vec<Around>,
    /// The parentheses of a definition or a call that are open.
    parentheses: Option<Parentheses>,
}

impl Reader {
    /// These bytes as the line with this number, at its level.
    fn numbered(&mut self, number: usize, bytes: &[u8]) -> Option<()> {
        if number > MAX_LINES {
            return None;
        }
        let text = std::str::from_utf8(bytes).ok()?;
        let statement = text.get(6..COLUMNS)?.trim_matches(' ');
        let words: Vec<&str> = statement.split(' ').collect();
        let depth = self.around.len() - 1;
        let level = if words[0] == "}" { depth.checked_sub(1)? } else { depth };
        (text == line_text(number, level, statement)).then_some(())?;
        match self.parentheses {
            Some(parentheses) => self.inside(parentheses, &words),
            None => self.line(&words),
        }
    }

    fn line(&mut self, words: &[&str]) -> Option<()> {
        match words {
            [";"] => self.item([EMPTY, 0, 0, 0, 0, 0]),
            ["abort();"] => self.item([ABORT, 0, 0, 0, 0, 0]),
            ["{"] => {
                let block = self.item([BLOCK, 0, 0, 0, 0, 0]);
                self.around.push(Around::new(block, Ends::Closing));
                block
            }
            ["while", test, "{"] => {
                let at = self.rows.len() as i32;
                self.item([WHILE, at + 1, at + 2, 0, 0, 0]);
                self.test(test)?;
                self.open(Ends::Closing)
            }
            ["if", test, "{"] => {
                let at = self.rows.len() as i32;
                let row = self.item([IF, at + 1, at + 2, 0, 0, 0]);
                self.test(test)?;
                self.open(Ends::Turning(row))
            }
            ["}", "else", "{"] => {
                let Ends::Turning(row) = self.around.last()?.ends else { return None };
                self.around.pop();
                self.rows[row][3] = self.rows.len() as i32;
                self.open(Ends::Closing)
            }
            ["}"] => {
                let ended = self.around.pop()?;
                if ended.ends != Ends::Closing {
                    return None;
                }
                0
            }
            ["int", function] => return self.define(function),
            ["int", function, "{"] => return self.define_alone(function),
            ["return", value] => {
                let at = self.rows.len() as i32;
                self.item([RETURN, at + 1, 0, 0, 0, 0]);
                self.atom(value.strip_suffix(';')?)?;
                0
            }
            ["goto", label] => {
                let label =
                    below(MAX_KERNEL_ROWS as i32, label.strip_prefix('L')?.strip_suffix(';')?)?;
                self.item([GOTO, label, 0, 0, 0, 0])
            }
            [label] => {
                let label =
                    below(MAX_KERNEL_ROWS as i32, label.strip_prefix('L')?.strip_suffix(":;")?)?;
                self.item([LABEL, label, 0, 0, 0, 0])
            }
            [place, "=", value @ ..] => {
                let at = self.rows.len() as i32;
                self.item([EXPRESSION, at + 1, 0, 0, 0, 0]);
                self.rows.push([ASSIGN, at + 2, 0, 0, 0, 0]);
                let named = self.name(place);
                match named {
                    Some(variable) => self.rows.push([VARIABLE, variable, 0, 0, 0, 0]),
                    None => self.element(place)?,
                }
                self.rows[at as usize + 1][2] = self.rows.len() as i32;
                match value {
                    [x] if named.is_none() => self.atom(x.strip_suffix(';')?)?,
                    _ if named.is_none() => return None,
                    [x] if x.starts_with('f') => self.call(x)?,
                    _ => self.value(value)?,
                }
                0
            }
            _ => return None,
        };
        Some(())
    }

    /// Adds an item to the list that is being read, and gives its row.
    fn item(&mut self, row: Row) -> usize {
        let at = self.rows.len();
        let list = self.around.last_mut().expect("the page's own list is never ended");
        if list.last == 0 {
            self.rows[list.block][1] = at as i32;
        } else {
            self.rows[list.last][NEXT] = at as i32;
        }
        list.last = at;
        self.rows.push(row);
        at
    }

    /// The block of a branch or body.
    fn open(&mut self, ends: Ends) -> usize {
        let block = self.rows.len();
        self.rows.push([BLOCK, 0, 0, 0, 0, 0]);
        self.around.push(Around::new(block, ends));
        block
    }

    fn test(&mut self, word: &str) -> Option<()> {
        self.atom(word.strip_prefix('(')?.strip_suffix(')')?)
    }

    /// The number of a variable that the header gives.
    fn name(&self, word: &str) -> Option<i32> {
        if let Some(digits) = word.strip_prefix('v') {
            return below(self.variables, digits);
        }
        if let Some(digits) = word.strip_prefix('l') {
            return Some(self.size + below(self.declared, digits)?);
        }
        let temporary = below(self.temporaries, word.strip_prefix('t')?)?;
        Some(self.size + self.declared + temporary)
    }

    fn atom(&mut self, word: &str) -> Option<()> {
        let row = match self.name(word) {
            Some(variable) => [VARIABLE, variable, 0, 0, 0, 0],
            None => [CONSTANT, number(word.as_bytes())?, 0, 0, 0, 0],
        };
        self.rows.push(row);
        Some(())
    }

    fn element(&mut self, word: &str) -> Option<()> {
        let (array, index) = word.strip_prefix('a')?.strip_suffix(']')?.split_once('[')?;
        let at = self.rows.len() as i32;
        self.rows.push([ELEMENT, below(self.arrays, array)?, at + 1, 0, 0, 0]);
        self.atom(index)
    }

    fn value(&mut self, words: &[&str]) -> Option<()> {
        let at = self.rows.len();
        match words {
            [x] => {
                let word = x.strip_suffix(';')?;
                if word.starts_with('a') {
                    self.element(word)
                } else {
                    self.atom(word)
                }
            }
            ["-", x] => {
                self.rows.push([MINUS, at as i32 + 1, 0, 0, 0, 0]);
                self.atom(x.strip_suffix(';')?)
            }
            [x, operator, y] => {
                let kind = OPERATORS.iter().position(|known| known == operator)?;
                self.rows.push([ADD + kind as i32, at as i32 + 1, 0, 0, 0, 0]);
                self.atom(x)?;
                self.rows[at][2] = self.rows.len() as i32;
                self.atom(y.strip_suffix(';')?)
            }
            _ => None,
        }
    }
}

/// Decimal digits without a sign, of a number below the bound.
fn below(bound: i32, digits: &str) -> Option<i32> {
    number(digits.as_bytes()).filter(|value| (0..bound).contains(value))
}
