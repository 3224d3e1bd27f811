//! Damaged programs: every cause of refusal, alone and in company, at low and
//! high rows. Some damages leave a program legal.

mod arguments;
mod arms;
mod bytes;
mod declarations;
mod functions;
mod table;
mod tree;

pub(crate) use bytes::{damage_text, damage_words};

use crate::cases::Case;
use crate::check::check;
use crate::form::Form::{self, Source};
use crate::generate::{any_order, budget, long_run, program, start_words, Program, Size};
use crate::random::Random;
use crate::table::{declarations, rows_of};
use crate::text;
use crate::tree::number as number_rows;

#[derive(Clone, Copy, Debug, PartialEq, Eq)]
enum Damage {
    // Before the rows are numbered.
    Misplaced,
    Repeated,
    Deep,
    Root,
    Full,
    Declared,
    Function,
    // On the header and the rows.
    Header,
    NoRows,
    Kind,
    Unused,
    Link,
    BranchNext,
    Linked,
    Arm,
    Argument,
    Number,
    AnyWord,
    Swap,
    // On the bytes, on the start words.
    Text,
    Words,
}

const WEIGHTS: [(usize, Damage); 21] = [
    (30, Damage::Misplaced),
    (24, Damage::Repeated),
    (18, Damage::Deep),
    (4, Damage::Root),
    (1, Damage::Full),
    (65, Damage::Declared),
    (65, Damage::Function),
    (10, Damage::Header),
    (4, Damage::NoRows),
    (12, Damage::Kind),
    (14, Damage::Unused),
    (22, Damage::Link),
    (9, Damage::BranchNext),
    (22, Damage::Linked),
    (20, Damage::Arm),
    (20, Damage::Argument),
    (22, Damage::Number),
    (12, Damage::AnyWord),
    (9, Damage::Swap),
    (16, Damage::Text),
    (14, Damage::Words),
];

/// The damaged case of this number.
pub fn case(seed: u64, number: u64) -> Case {
    let random = &mut Random::new(!seed, number);
    let picks = picks(random);
    let mut program = small_program(random);
    for &pick in &picks {
        tree::damage_tree(random, &mut program.tree, pick);
    }
    let order = any_order(random);
    let words = number_rows(&program.tree, order, random);
    let mut rows = rows_of(&words).to_vec();
    let mut header = program.header;
    for &pick in &picks {
        table::damage_table(random, &mut header, &mut rows, pick);
    }
    let rows = rows.concat();
    let (mut words, budget) = start(Source, random, &header, &rows);
    let mut bytes = text::write(&header, &rows);
    for &pick in &picks {
        match pick {
            Damage::Text => damage_text(Source, random, &mut bytes),
            Damage::Words => {
                let store = Source.size(&header) + declarations(&rows).len() as i64;
                damage_words(random, store, &mut words);
            }
            _ => {}
        }
    }
    Case { budget, words, text: bytes }
}

/// Start words and a budget that fit a legal program; any few words where it is refused.
pub(crate) fn start(
    form: Form,
    random: &mut Random,
    header: &[i32],
    rows: &[i32],
) -> (Vec<i32>, u32) {
    let accepted = check(form, header, rows).is_ok();
    let words = match accepted {
        true => start_words(form, random, header, rows),
        false => (0..random.below(4)).map(|_| random.between(-3, 9)).collect(),
    };
    let budget = match accepted {
        true => budget(random, long_run(form, header, rows, &words)),
        false => random.below(2_000) as u32,
    };
    (words, budget)
}

/// Up to three damages; the same one twice tests the order of rows.
fn picks(random: &mut Random) -> Vec<Damage> {
    let count = random.weighted(&[(7, 0), (50, 1), (31, 2), (12, 3)]);
    let mut picks: Vec<Damage> = Vec::new();
    for _ in 0..count {
        let pick = match picks.last() {
            Some(&last) if last != Damage::Full && random.chance(25) => last,
            _ => random.weighted(&WEIGHTS),
        };
        picks.push(pick);
    }
    picks
}

fn small_program(random: &mut Random) -> Program {
    loop {
        let program = program(random, Size::Mixed);
        if program.tree.size() <= 90 && program.header.len() < 8 {
            return program;
        }
    }
}
