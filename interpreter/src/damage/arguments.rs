//! Damages to the rows of calls, arguments, definitions and parameters: causes 3, 4, 5, 23 and 24.

use super::table::{rows_where, some_row};
use crate::random::Random;
use crate::table::*;

pub fn damage(random: &mut Random, rows: &mut Vec<Row>) {
    let kinds = [CALL, ARGUMENT, ARGUMENT, DEFINE, DEFINE, RETURN];
    let kind = random.pick(&kinds);
    let found = rows_where(rows, |row| row[0] == kind);
    let Some(at) = some_row(random, &found) else {
        return add_rows(random, rows);
    };
    match kind {
        CALL => damage_call(random, rows, at),
        ARGUMENT => damage_argument(random, rows, at),
        DEFINE => damage_definition(random, rows, at),
        // An expression statement has the fields of a return.
        _ => rows[at][0] = random.pick(&[EXPRESSION, EXPRESSION, MINUS, ARGUMENT, DEFINE]),
    }
}

/// A row behind this one that fits, or else any word.
fn later(random: &mut Random, rows: &[Row], at: usize, fits: impl Fn(&Row) -> bool) -> i32 {
    let found: Vec<usize> = rows_where(rows, fits).into_iter().filter(|&row| row > at).collect();
    match some_row(random, &found) {
        Some(row) => row as i32,
        None => random.pick(&[0, -1, at as i32, rows.len() as i32]),
    }
}

fn damage_call(random: &mut Random, rows: &mut [Row], at: usize) {
    match random.below(6) {
        0 => rows[at][1] = random.pick(&[-1, 1, 7, i32::MIN, i32::MAX]),
        1 => rows[at][2] = later(random, rows, at, |row| row[0] == ARGUMENT),
        2 => rows[at][2] = later(random, rows, at, |row| row[0] != ARGUMENT),
        3 => rows[at][2] = 0,
        // Elements have a number and a link, too.
        4 => rows[at][0] = ELEMENT,
        _ => rows[at][random.pick(&[3, 4, NEXT])] = random.pick(&[1, -1]),
    }
}

fn damage_argument(random: &mut Random, rows: &mut [Row], at: usize) {
    match random.below(6) {
        0 | 1 => rows[at][0] = random.pick(&[MINUS, NOT, EXPRESSION, RETURN, ARM]),
        2 => rows[at][NEXT] = later(random, rows, at, |row| row[0] != ARGUMENT),
        3 => rows[at][NEXT] = later(random, rows, at, |row| row[0] == ARGUMENT),
        4 => rows[at][NEXT] = 0,
        _ => {
            // The argument as an item, an operand or a branch.
            let owners = rows_where(&rows[..at], |row| !matches!(row[0], CALL | ARGUMENT));
            if let Some(owner) = some_row(random, &owners) {
                rows[owner][random.pick(&[1, 2, NEXT])] = at as i32;
            }
        }
    }
}

fn damage_definition(random: &mut Random, rows: &mut [Row], at: usize) {
    match random.below(8) {
        0 => rows[at][1] = random.pick(&[-1, 0, 1, 2, 9, i32::MIN]),
        1 => rows[at][2] = later(random, rows, at, |row| row[0] != DECLARE),
        2 => rows[at][2] = later(random, rows, at, |row| row[0] == DECLARE),
        3 => rows[at][3] = later(random, rows, at, |row| row[0] != BLOCK),
        4 => rows[at][3] = later(random, rows, at, |row| row[0] == BLOCK),
        5 => rows[at][4] = random.pick(&[1, -1]),
        6 => {
            let parameter = rows[at][2] as usize;
            if parameter != 0 && parameter < rows.len() {
                let fits = |row: &Row| row[0] != DECLARE && is_statement(row[0]);
                rows[parameter][NEXT] = later(random, rows, parameter, fits);
            }
        }
        _ => {
            let body = rows[at][3] as usize;
            if body < rows.len() {
                rows[body][NEXT] = later(random, rows, body, |row| is_statement(row[0]));
            }
        }
    }
}

/// Rows of a function's kinds behind a program without any, linked and not.
fn add_rows(random: &mut Random, rows: &mut Vec<Row>) {
    let n = rows.len() as i32;
    let owners = rows_where(rows, |row| is_statement(row[0]) && row[NEXT] == 0);
    if let Some(owner) = some_row(random, &owners) {
        rows[owner][NEXT] = n;
    }
    match random.below(5) {
        0 => rows.push([RETURN, 0, 0, 0, 0, 0]),
        1 => rows.extend([[ARGUMENT, n + 1, 0, 0, 0, 0], [CONSTANT, 1, 0, 0, 0, 0]]),
        2 => rows.extend([[EXPRESSION, n + 1, 0, 0, 0, 0], [CALL, 0, 0, 0, 0, 0]]),
        3 => rows.extend([[DEFINE, 0, 0, n + 1, 0, 0], [BLOCK, 0, 0, 0, 0, 0]]),
        _ => rows.push([random.pick(&[CALL, ARGUMENT, DEFINE]), 0, 0, 0, 0, 0]),
    }
}
