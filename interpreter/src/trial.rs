//! The source line of the trial program, or its refusal.

use crate::cases;
use crate::check::{check_header, check_row_count};
use crate::form::Form::Source;
use crate::machine::run;
use crate::table::{Refusal, WORDS};
use crate::text;

pub const MAX_BYTES: usize = 16_384;
/// Of S; declared words are not counted.
pub const MAX_TRIAL_STORE: i64 = 1_024;
pub const MAX_TRIAL_ROWS: usize = 128;
pub const BUDGET: u32 = 100_000;

pub fn trial(bytes: &[u8]) -> String {
    match source_line(bytes) {
        Ok(line) => line,
        Err(refusal) => refusal.to_string(),
    }
}

/// A rule's program, within the trial's limits: 2 for the length, 14, 1, 2.
pub fn read_rule(bytes: &[u8]) -> Result<text::Program, Refusal> {
    if bytes.len() > MAX_BYTES {
        return Err(Refusal::new(2, 0));
    }
    let (header, rows) = text::read_lines(Source, bytes)?;
    check_header(Source, &header)?;
    if Source.size(&header) > MAX_TRIAL_STORE {
        return Err(Refusal::new(1, 0));
    }
    check_row_count(Source, &rows)?;
    if rows.len() > MAX_TRIAL_ROWS * WORDS {
        return Err(Refusal::new(2, 0));
    }
    Ok((header, rows))
}

fn source_line(bytes: &[u8]) -> Result<String, Refusal> {
    let (header, rows) = read_rule(bytes)?;
    let mut store = vec![0; Source.store_words(&header, &rows)];
    let outcome = run(Source, &header, &rows, &mut store, BUDGET)?;
    Ok(cases::source_line(outcome, &header, &rows, &store))
}
