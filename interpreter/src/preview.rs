//! What a run would do, told beforehand (document 02, changes 5 and 11).

use crate::check::check;
use crate::form::Form::Source;
use crate::machine::{run_checked, Outcome};
use crate::table::Refusal;

/// The run's outcome, and how many of the first S store words would differ.
#[derive(Clone, Copy, Debug, PartialEq, Eq)]
pub struct Preview {
    pub outcome: Outcome,
    pub differing: usize,
}

/// Runs a source program on a copy of the store, in the first words of the
/// scratch; what stands behind them stays.
pub fn preview(
    header: &[i32],
    rows: &[i32],
    store: &[i32],
    budget: u32,
    scratch: &mut [i32],
) -> Result<Preview, Refusal> {
    check(Source, header, rows)?;
    let words = Source.store_words(header, rows);
    if store.len() != words {
        return Err(Refusal::new(11, 0));
    }
    let copy = scratch.get_mut(..words).ok_or(Refusal::new(15, 0))?;
    copy.copy_from_slice(store);
    let outcome = run_checked(Source, header, rows, copy, budget);
    let size = Source.size(header) as usize;
    let first = store.iter().zip(copy.iter()).take(size);
    let differing = first.filter(|(word, other)| word != other).count();
    Ok(Preview { outcome, differing })
}
