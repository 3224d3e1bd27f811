//! The writes of a run to the first S words, each as place and value, in order
//! (document 02, change 14); and a program and its translation held to the
//! change's two sentences.

use crate::check::check;
use crate::form::Form::{self, Kernel, Source};
use crate::machine::{run_watched, Ending, Outcome, Write};
use crate::table::{Refusal, WORDS};
use crate::text::Program;

/// The run's outcome and its writes.
pub fn writes(
    form: Form,
    header: &[i32],
    rows: &[i32],
    store: &mut [i32],
    budget: u32,
) -> Result<(Outcome, Vec<Write>), Refusal> {
    check(form, header, rows)?;
    if store.len() != form.store_words(header, rows) {
        return Err(Refusal::new(11, 0));
    }
    let words = form.size(header) as usize;
    Ok(run_watched(form, header, rows, store, budget, words))
}

/// Those of a run's writes that it has made within so many steps.
pub fn within(writes: &[Write], steps: u32) -> &[Write] {
    &writes[..writes.partition_point(|write| write.step <= steps)]
}

/// Whether the writes are the first ones of the others: places and values.
fn are_first(writes: &[Write], others: &[Write]) -> bool {
    let same =
        |(one, other): (&Write, &Write)| one.place == other.place && one.value == other.value;
    writes.len() <= others.len() && writes.iter().zip(others).all(same)
}

/// The numbers of steps at which both sentences are held.
pub fn numbers() -> impl Iterator<Item = u32> {
    (1..=200).chain([500, LARGEST])
}

/// The largest of them.
pub const LARGEST: u32 = 2_000;

/// What was compared of one program.
#[derive(Clone, Copy, Debug, Default, PartialEq, Eq)]
pub struct Compared {
    /// Whether the source's run does not end within the large budget.
    pub endless: bool,
    /// How many writes the source's run makes within the largest number of steps.
    pub writes: usize,
}

/// Holds a translation to both sentences, from this store of the source and, behind its first S
/// words, these of the translation. The error tells the first number of steps at which one does not hold.
pub fn compare(
    source: &Program,
    kernel: &Program,
    store: &[i32],
    behind: &[i32],
) -> Result<Compared, String> {
    let rows = (kernel.1.len() / WORDS) as u32;
    // A round of a loop takes the kernel a step at least, and the source at most its rows.
    let large = (LARGEST + 1) * (source.1.len() / WORDS) as u32;
    let (outcome, of_source) =
        writes(Source, &source.0, &source.1, &mut store.to_vec(), large).map_err(refused)?;
    let mut kernel_store = [&store[..Source.size(&source.0) as usize], behind].concat();
    let (_, of_kernel) =
        writes(Kernel, &kernel.0, &kernel.1, &mut kernel_store, rows * LARGEST).map_err(refused)?;
    for number in numbers() {
        if !are_first(within(&of_source, number), within(&of_kernel, rows * number)) {
            return Err(format!("the source's writes within {number} steps"));
        }
        if !are_first(within(&of_kernel, number), &of_source) {
            return Err(format!("the translation's writes within {number} steps"));
        }
    }
    let endless = outcome.ending == Ending::Spent;
    Ok(Compared { endless, writes: within(&of_source, LARGEST).len() })
}

fn refused(refusal: Refusal) -> String {
    refusal.to_string()
}
