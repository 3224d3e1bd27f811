//! Two programs as one, which runs the first and then the second (document 02,
//! changes 8, 11 and 13); and the run of a join held to the runs of its programs.

use crate::cases::any_words;
use crate::check::check;
use crate::form::Form::Source;
use crate::machine::{run_checked, Ending, Outcome};
use crate::table::*;
use crate::text::{self, Program};

/// The joined rows, under the header of both, or the refusal: the first's own
/// causes, the second's, 16, 17, and 9 and 20 with their joined rows.
pub fn join(first: &Program, second: &Program) -> Result<Vec<i32>, Refusal> {
    check(Source, &first.0, &first.1)?;
    check(Source, &second.0, &second.1)?;
    if first.0 != second.0 {
        return Err(Refusal::new(16, 0));
    }
    let rows = joined(rows_of(&first.1), rows_of(&second.1));
    if rows.len() > MAX_ROWS {
        return Err(Refusal::new(17, 0));
    }
    let rows = rows.concat();
    match check(Source, &first.0, &rows) {
        Err(refusal) if matches!(refusal.number, 9 | 20) => Err(refusal),
        Err(refusal) => panic!("a join is refused otherwise: {refusal}"),
        Ok(()) => Ok(rows),
    }
}

/// The new block, both sets of definitions, the first's other rows, the second's; each in old order.
fn joined(first: &[Row], second: &[Row]) -> Vec<Row> {
    let programs = [Parted::new(first), Parted::new(second)];
    let [one, two] = &programs;
    let order = [
        moving(0, &one.definitions),
        moving(1, &two.definitions),
        moving(0, &one.others),
        moving(1, &two.others),
    ]
    .concat();
    let mut places = [vec![0; first.len()], vec![0; second.len()]];
    for (place, &(which, at)) in order.iter().enumerate() {
        places[which][at] = 1 + place as i32;
    }
    let functions = [0, one.functions.len() as i32];
    let mut rows = vec![[BLOCK, 0, 0, 0, 0, 0]];
    rows.extend(order.iter().map(|&(which, at)| {
        let row = programs[which].row(at);
        moved(&row, &places[which], functions[which])
    }));
    // The new block has the definitions, then the blocks of both programs.
    let of = |which: usize, at: &[usize]| -> Vec<i32> {
        at.iter().map(|&at| places[which][at]).collect()
    };
    let items = [of(0, &one.functions), of(1, &two.functions), of(0, &[0]), of(1, &[0])].concat();
    rows[0][1] = items[0];
    for pair in items.windows(2) {
        rows[pair[0] as usize][NEXT] = pair[1];
    }
    rows
}

/// Rows of one of both programs.
fn moving(which: usize, rows: &[usize]) -> Vec<(usize, usize)> {
    rows.iter().map(|&at| (which, at)).collect()
}

/// A program whose definitions are told from its other rows.
struct Parted<'a> {
    rows: &'a [Row],
    /// The rows of kind 59.
    functions: Vec<usize>,
    /// Those, and all below them.
    definitions: Vec<usize>,
    others: Vec<usize>,
}

impl Parted<'_> {
    fn new(rows: &[Row]) -> Parted<'_> {
        let mut inside = vec![false; rows.len()];
        for (at, row) in rows.iter().enumerate() {
            inside[at] |= row[0] == DEFINE;
            let fields = Source.fields_or_unused(row[0]);
            for (field, &link) in fields.iter().zip(&row[1..NEXT]) {
                if field.is_link() {
                    inside[link as usize] |= inside[at];
                }
            }
            inside[row[NEXT] as usize] |= inside[at] && row[0] != DEFINE;
        }
        // Links that are absent lead to row 0.
        inside[0] = false;
        let (definitions, others) = (0..rows.len()).partition(|&at| inside[at]);
        Parted { rows, functions: crate::table::definitions(rows), definitions, others }
    }

    /// A row; the list of row 0 begins behind the definitions, and the last of these ends their own.
    fn row(&self, at: usize) -> Row {
        let mut row = self.rows[at];
        if let (0, Some(&last)) = (at, self.functions.last()) {
            row[1] = self.rows[last][NEXT];
        }
        if self.functions.last() == Some(&at) {
            row[NEXT] = 0;
        }
        row
    }
}

/// A row whose links lead to the new places of their rows, and whose functions have numbers behind
/// so many others.
fn moved(row: &Row, places: &[i32], functions: i32) -> Row {
    let mut row = *row;
    let fields = Source.fields_or_unused(row[0]);
    for (field, word) in fields.into_iter().chain([Field::First]).zip(&mut row[1..]) {
        match field {
            Field::FunctionNumber => *word += functions,
            field if field.is_link() && *word != 0 => *word = places[*word as usize],
            _ => {}
        }
    }
    row
}

/// The same of two texts: the second is read once the first has no cause left.
pub fn join_texts(first: &[u8], second: &[u8]) -> Result<Vec<u8>, Refusal> {
    let first = text::read(Source, first)?;
    check(Source, &first.0, &first.1)?;
    let second = text::read(Source, second)?;
    Ok(text::write(&first.0, &join(&first, &second)?))
}

/// Holds the runs of a join to those of its programs, from these S words, at many
/// budgets; how many runs were held, or what differs. Declared words start from
/// other words in each program.
pub fn compare(
    first: &Program,
    second: &Program,
    rows: &[i32],
    words: &[i32],
) -> Result<usize, String> {
    let mut held = 0;
    for budget in budgets() {
        let wanted = followed(first, second, words, budget);
        if wanted != ran(0, &first.0, rows, words, budget) {
            return Err(format!("the run of the join with budget {budget}"));
        }
        held += 1;
    }
    Ok(held)
}

/// The budgets at which runs are held.
fn budgets() -> impl Iterator<Item = u32> {
    (0..=60).chain([100, 333, 1_000, 5_000, 20_000])
}

/// One step for the new block, then the first; where it ended plainly the
/// second, on the steps and from the store that are left.
fn followed(first: &Program, second: &Program, words: &[i32], budget: u32) -> (Outcome, Vec<i32>) {
    if budget == 0 {
        return (Outcome { ending: Ending::Spent, count: 0 }, words.to_vec());
    }
    let (one, store) = ran(1, &first.0, &first.1, words, budget - 1);
    if one.ending != Ending::Ended {
        return (Outcome { ending: one.ending, count: one.count + 1 }, store);
    }
    let left = budget - 1 - one.count;
    let (other, store) = ran(2, &second.0, &second.1, &store, left);
    (Outcome { ending: other.ending, count: 1 + one.count + other.count }, store)
}

/// A run from these S words and any declared words, others for another turn: its outcome, and the
/// S words that it leaves.
fn ran(
    turn: usize,
    header: &[i32],
    rows: &[i32],
    words: &[i32],
    budget: u32,
) -> (Outcome, Vec<i32>) {
    let mut store = [words, &any_words(turn, Source.declared(header, rows))].concat();
    let outcome = run_checked(Source, header, rows, &mut store, budget);
    store.truncate(words.len());
    (outcome, store)
}
