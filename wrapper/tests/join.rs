//! Joins: the library's rows and refusals beside those of the interpreter,
//! which joins by itself; and the runs of what was written beside the runs of
//! both programs, at many budgets.

use clight::{Ending, Refusal};
use interpreter::cases::any_words;
use interpreter::Form::Source;
use interpreter::{generate_joins, join, text};
use std::collections::BTreeMap;

const PAIRS: u64 = 20_000;
/// What stands in a table before a call.
const WORD: i32 = 0x5A5A_5A5A;

type Program = (Vec<i32>, Vec<i32>);

/// The number and the place of a refusal.
fn numbers(refusal: Refusal) -> (u32, usize) {
    (refusal.cause as u32, refusal.place)
}

/// The interpreter's answer, with cause 10 for a table of this room.
fn wanted(first: &Program, second: &Program, room: usize) -> Result<Vec<i32>, (u32, usize)> {
    match join::join(first, second) {
        Ok(rows) if rows.len() > room => Err((10, 0)),
        Ok(rows) => Ok(rows),
        Err(refusal) => Err((refusal.number, refusal.place as usize)),
    }
}

/// Joins in a table of this room: the words written, the rest of the table as it was.
fn joined(first: &Program, second: &Program, room: usize) -> Result<Vec<i32>, (u32, usize)> {
    let mut table = vec![WORD; room];
    let answer = clight::join(&first.0, &first.1, &second.0, &second.1, &mut table);
    let words = *answer.as_ref().unwrap_or(&0);
    assert!(table[words..].iter().all(|&word| word == WORD));
    table.truncate(words);
    answer.map(|_| table).map_err(numbers)
}

/// Ending, count and first S words of a run that is not refused, from these S words. The declared
/// words start from others each time.
fn run(header: &[i32], rows: &[i32], words: &[i32], budget: u32) -> (Ending, u32, Vec<i32>) {
    let declared = Source.declared(header, rows);
    let mut store = [words, &any_words(rows.len() + budget as usize, declared)].concat();
    let run = clight::run(header, rows, &mut store, budget).unwrap();
    store.truncate(words.len());
    (run.ending, run.count, store)
}

/// "It ends as the first does where that faults, otherwise as the second does
/// from the store the first left", on the steps left; one step for the new block.
fn hold_run(first: &Program, second: &Program, rows: &[i32], words: &[i32], budget: u32) {
    let join = run(&first.0, rows, words, budget + 1);
    let (ending, count, store) = run(&first.0, &first.1, words, budget);
    if ending != Ending::Ended {
        assert_eq!(join, (ending, count + 1, store));
        return;
    }
    let (ending, more, store) = run(&second.0, &second.1, &store, budget - count);
    assert_eq!(join, (ending, 1 + count + more, store));
}

#[test]
fn joins_are_those_of_the_interpreter() {
    let mut causes: BTreeMap<u32, usize> = BTreeMap::new();
    for number in 0..PAIRS {
        let pair = generate_joins::pair(81, number);
        // A text that is malformed has no words to join.
        let read = |i: usize| text::read_lines(Source, &pair[i].text);
        let (Ok(first), Ok(second)) = (read(0), read(1)) else { continue };
        let size = 6 + first.1.len() + second.1.len();
        for room in [0, 6, size - 1, size, size + 7, 6 * 2048] {
            let answer = joined(&first, &second, room);
            assert_eq!(answer, wanted(&first, &second, room), "pair {number}, room {room}");
            *causes.entry(answer.as_ref().err().map_or(0, |refusal| refusal.0)).or_default() += 1;
            let Ok(rows) = answer else { continue };
            assert_eq!(clight::check(&first.0, &rows), Ok(()));
            if room != size {
                continue;
            }
            let words = match pair[0].words.is_empty() {
                true => vec![0; Source.size(&first.0) as usize],
                false => pair[0].words[..Source.size(&first.0) as usize].to_vec(),
            };
            for budget in (0..20).chain([33, 60, 150, 1_000, 20_000]) {
                hold_run(&first, &second, &rows, &words, budget);
            }
        }
    }
    let met: Vec<u32> = causes.keys().copied().collect();
    println!("{causes:?}");
    assert_eq!(met, [0, 1, 2, 3, 4, 5, 6, 7, 8, 9, 10, 16, 17, 18, 19, 20, 23, 24]);
}
