//! What the check adds for declarations: causes 18, 19 and 20, each over the whole
//! table. Parameters are declarations without a first value.

use super::{known_fields, refuse_row};
use crate::table::*;
use std::collections::BTreeSet;

/// Cause 18.
pub fn check_first_values(rows: &[Row]) -> Result<(), Refusal> {
    let names_itself = |&at: &usize| match rows[at] {
        [DECLARE, number, value, ..] => value != 0 && names(rows, value as usize, number),
        _ => false,
    };
    refuse_row(18, (0..rows.len()).find(names_itself))
}

/// Whether the number stands in the expression: as operand, place or index. An argument goes with
/// those behind it.
fn names(rows: &[Row], at: usize, number: i32) -> bool {
    let row = &rows[at];
    let fields = known_fields(row);
    let links = (1..NEXT).filter(|&field| fields[field - 1].is_link()).chain([NEXT]);
    let mut below = links.map(|field| row[field]).filter(|&link| link != 0);
    *row == [VARIABLE, number, 0, 0, 0, 0] || below.any(|link| names(rows, link as usize, number))
}

/// Cause 19: the lowest row of those that declare a number again in their list. Parameters are the
/// first items of their function's block, whatever their rows.
pub fn check_repeated(rows: &[Row]) -> Result<(), Refusal> {
    let repeated = rows.iter().filter_map(|row| match *row {
        [BLOCK, first, ..] => lowest_repeated(rows, list(rows, first)),
        [DEFINE, _, first, body, ..] => {
            let items = list(rows, rows[body as usize][1]);
            lowest_repeated(rows, list(rows, first).chain(items))
        }
        _ => None,
    });
    refuse_row(19, repeated.min())
}

/// The lowest of the items that declare the number of an item before them.
fn lowest_repeated(rows: &[Row], items: impl Iterator<Item = usize>) -> Option<usize> {
    let mut numbers = BTreeSet::new();
    items.filter(|&at| rows[at][0] == DECLARE && !numbers.insert(rows[at][1])).min()
}

/// Cause 20.
pub fn check_count(rows: &[Row]) -> Result<(), Refusal> {
    let mut declared = (0..rows.len()).filter(|&at| rows[at][0] == DECLARE);
    refuse_row(20, declared.nth(MAX_DECLARED as usize))
}
