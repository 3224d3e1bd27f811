//! What the check adds for functions, of both forms: causes 23 and 24.

use super::{refuse_row, Standing};
use crate::table::*;

/// Cause 23: a definition that does not stand at the head of row 0's list, in the place of its number.
pub fn check_definitions(rows: &[Row]) -> Result<(), Refusal> {
    let head = definitions(rows);
    let in_order = |at: usize| {
        let number = usize::try_from(rows[at][1]).ok();
        number.and_then(|number| head.get(number)) == Some(&at)
    };
    refuse_row(23, (0..rows.len()).find(|&at| rows[at][0] == DEFINE && !in_order(at)))
}

/// Cause 24. By now the number of each definition is its place.
pub fn check_calls(rows: &[Row], standings: &[Standing]) -> Result<(), Refusal> {
    let functions = definitions(rows);
    // How many functions a row may call: all, and inside a function those before it.
    let mut callable = vec![functions.len(); rows.len()];
    for at in 1..rows.len() {
        let owner = standings[at].owner;
        callable[at] = match rows[owner] {
            [DEFINE, number, ..] => number as usize,
            _ => callable[owner],
        };
    }
    let well = |at: usize| {
        let [_, number, first, ..] = rows[at];
        let Ok(number) = usize::try_from(number) else { return false };
        number < callable[at] && {
            let parameters = list(rows, rows[functions[number]][2]);
            parameters.count() == list(rows, first).count()
        }
    };
    refuse_row(24, (0..rows.len()).find(|&at| rows[at][0] == CALL && !well(at)))
}
