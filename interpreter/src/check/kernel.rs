//! What the check adds for the kernel form: the forms of its statements and its
//! labels, causes 12 and 13.

use super::{refuse_row, Standing};
use crate::table::*;

/// Cause 12.
pub fn check_forms(rows: &[Row], standings: &[Standing]) -> Result<(), Refusal> {
    refuse_row(12, (0..rows.len()).find(|&at| !has_kernel_form(rows, standings, at)))
}

/// Whether a statement has kernel form; an expression is judged with its statement. A declaration
/// has it as a parameter alone.
fn has_kernel_form(rows: &[Row], standings: &[Standing], at: usize) -> bool {
    let [kind, a, b, c, ..] = rows[at];
    let is_block = |link: i32| link != 0 && rows[link as usize][0] == BLOCK;
    match kind {
        IF => is_atom(rows, a) && is_block(b) && is_block(c),
        WHILE => is_atom(rows, a) && is_block(b),
        EXPRESSION => {
            let [kind, place, value, ..] = rows[a as usize];
            kind == ASSIGN && is_kernel_assignment(rows, &rows[place as usize], value)
        }
        DECLARE => rows[standings[at].owner][0] == DEFINE,
        RETURN => a != 0 && is_atom(rows, a),
        _ => true,
    }
}

fn is_atom(rows: &[Row], link: i32) -> bool {
    matches!(rows[link as usize][0], CONSTANT | VARIABLE)
}

fn is_kernel_assignment(rows: &[Row], place: &Row, value: i32) -> bool {
    let [kind, a, b, ..] = rows[value as usize];
    if place[0] == ELEMENT {
        return is_atom(rows, place[2]) && is_atom(rows, value);
    }
    match kind {
        CONSTANT | VARIABLE => true,
        MINUS => is_atom(rows, a),
        ADD..=UNEQUAL => is_atom(rows, a) && is_atom(rows, b),
        ELEMENT => is_atom(rows, b),
        CALL => list(rows, b).all(|argument| is_atom(rows, rows[argument][1])),
        _ => false,
    }
}

/// Cause 13. Items of one list follow in order of their rows.
pub fn check_labels(rows: &[Row], standings: &[Standing]) -> Result<(), Refusal> {
    let numbers = rows.iter().filter(|row| matches!(row[0], GOTO | LABEL)).map(|row| row[1]);
    let mut labels: Vec<Vec<usize>> =
        vec![Vec::new(); numbers.max().map_or(0, |most| most as usize + 1)];
    for (at, row) in rows.iter().enumerate() {
        if row[0] == LABEL {
            labels[row[1] as usize].push(at);
        }
    }
    let well = |at: usize| match rows[at] {
        [LABEL, number, ..] => labels[number as usize][0] == at,
        [GOTO, number, ..] => {
            labels[number as usize].iter().any(|&label| is_ahead(rows, standings, at, label))
        }
        _ => true,
    };
    refuse_row(13, (0..rows.len()).find(|&at| !well(at)))
}

/// Whether the label is a later item of a list that holds the goto or a row around it, inside its
/// function.
fn is_ahead(rows: &[Row], standings: &[Standing], goto: usize, label: usize) -> bool {
    let owner = |row: usize| standings[row].owner;
    let list = owner(label);
    let mut item = goto;
    while item != 0 && rows[item][0] != DEFINE {
        if owner(item) == list {
            return item < label;
        }
        item = owner(item);
    }
    false
}
