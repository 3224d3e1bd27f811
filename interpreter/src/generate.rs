//! Generated programs, weighted toward what translators get wrong: one place
//! read and written on both sides, effects in indices, fall-through, jumps
//! through nests and guarded statements, names that hide others, functions that
//! write what their callers read, faults half-way, and budgets next to the count.

mod aliasing;
mod declarations;
mod expressions;
mod functions;
mod guarded;
mod loops;
mod maker;
mod statements;

use crate::cases::Case;
use crate::check::check;
use crate::form::Form::{self, Source};
use crate::machine::{run_checked, run_watched, Ending, Fault, Outcome};
use crate::random::Random;
use crate::table::*;
use crate::text;
use crate::tree::*;
pub use maker::Maker;

/// Runs longer than this count as endless here.
const LONG: u32 = 20_000;

/// Which sizes of program are made.
#[derive(Clone, Copy, Debug, PartialEq, Eq)]
pub enum Size {
    /// Mostly 10 to 80 rows, a few hundred now and then.
    Mixed,
    /// 300 to 2,048 rows.
    Large,
}

/// A legal program: its header and its tree.
pub struct Program {
    pub header: Vec<i32>,
    pub tree: Tree,
}

/// The case of this number.
pub fn case(seed: u64, number: u64, size: Size) -> Case {
    let random = &mut Random::new(seed, number);
    let wanted = random.weighted(&[
        (66, None),
        (11, Some(Fault::Overflow)),
        (10, Some(Fault::Zero)),
        (7, Some(Fault::Index)),
        (6, Some(Fault::Guard)),
    ]);
    let most_tries = if size == Size::Mixed { 25 } else { 1 };
    let mut tries = 0;
    loop {
        let guards = match wanted {
            Some(Fault::Guard) => Guards::Failing,
            _ => any_guards(random),
        };
        let program = legal(random, size, 3, guards);
        let order = any_order(random);
        let rows = crate::tree::number(&program.tree, order, random);
        let words = start_words(Source, random, &program.header, &rows);
        let outcome = long_run(Source, &program.header, &rows, &words);
        // Programs that fault late are rare unless looked for.
        let found = match wanted {
            None => true,
            Some(fault) => outcome.ending == Ending::Fault(fault) && outcome.count > 20,
        };
        tries += 1;
        if found || tries == most_tries {
            let budget = budget(random, outcome);
            return Case { budget, words, text: text::write(&program.header, &rows) };
        }
    }
}

/// The case of this number, of a program that does not end and stores on and on.
pub fn endless_case(seed: u64, number: u64) -> Case {
    let random = &mut Random::new(seed, number);
    loop {
        let guards = any_guards(random);
        let Program { header, tree } = legal(random, Size::Mixed, 40, guards);
        let order = any_order(random);
        let rows = crate::tree::number(&tree, order, random);
        let words = start_words(Source, random, &header, &rows);
        let size = Source.size(&header) as usize;
        let mut store = words.clone();
        store.resize(Source.store_words(&header, &rows), 0);
        let (outcome, writes) = run_watched(Source, &header, &rows, &mut store, LONG, size);
        let late = writes.last().is_some_and(|write| write.step > LONG / 2);
        if outcome.ending == Ending::Spent && late {
            return Case { budget: LONG, words, text: text::write(&header, &rows) };
        }
    }
}

pub fn any_order(random: &mut Random) -> Order {
    random.weighted(&[
        (30, Order::Pre),
        (8, Order::Breadth),
        (8, Order::Last),
        (8, Order::StatementsFirst),
        (46, Order::Random),
    ])
}

/// Start words, as many as the store has, or none, which means zeros.
pub fn start_words(form: Form, random: &mut Random, header: &[i32], rows: &[i32]) -> Vec<i32> {
    let size = form.store_words(header, rows);
    if size > 2_000 || random.chance(25) {
        return Vec::new();
    }
    let extreme = random.pick(&[0, 0, 5, 20, 40]);
    (0..size)
        .map(|_| match random.chance(extreme) {
            true => end_value(random),
            false => random.between(-2, 5),
        })
        .collect()
}

/// The run that the budget is chosen by; no start words mean zeros.
pub fn long_run(form: Form, header: &[i32], rows: &[i32], words: &[i32]) -> Outcome {
    let mut store = words.to_vec();
    store.resize(form.store_words(header, rows), 0);
    run_checked(form, header, rows, &mut store, LONG)
}

/// A budget next to the count of steps, or a small or a large one.
pub fn budget(random: &mut Random, outcome: Outcome) -> u32 {
    if outcome.ending == Ending::Spent {
        return match random.below(8) {
            0 => LONG,
            1 => random.below(LONG as usize) as u32,
            _ => random.below(1_500) as u32,
        };
    }
    let count = outcome.count;
    match random.below(100) {
        0..=11 => count,
        12..=20 => count + 1,
        21..=28 => count.saturating_sub(1),
        29..=36 => random.below(count as usize + 3) as u32,
        37 => 0,
        38 => 1,
        39 => u32::MAX,
        40 => 1 << 31,
        41 => i32::MAX as u32,
        _ => LONG,
    }
}

/// A value at or near the ends of 32 signed bits.
pub fn end_value(random: &mut Random) -> i32 {
    random.pick(&[
        i32::MAX,
        i32::MAX,
        i32::MIN,
        i32::MIN,
        i32::MAX - 1,
        i32::MIN + 1,
        i32::MAX / 2,
        i32::MIN / 2,
        i32::MAX / 2 + 1,
        46_340,
        46_341,
        -46_341,
        65_536,
        -65_536,
    ])
}

/// Which guarded statements a program has.
#[derive(Clone, Copy, Debug, PartialEq, Eq)]
pub enum Guards {
    None,
    /// Most guarded ifs have a true guard.
    Some,
    /// Many have none.
    Failing,
}

/// A third of the programs have guarded statements.
fn any_guards(random: &mut Random) -> Guards {
    match random.chance(34) {
        true => Guards::Some,
        false => Guards::None,
    }
}

/// A legal program, of whose loops few are endless.
pub fn program(random: &mut Random, size: Size) -> Program {
    let guards = any_guards(random);
    legal(random, size, 3, guards)
}

/// A legal program; so many of a hundred loops are endless, unless it is long.
fn legal(random: &mut Random, size: Size, endless: usize, guards: Guards) -> Program {
    loop {
        let program = draft(random, size, endless, guards);
        let rows = number(&program.tree, Order::Pre, random);
        if check(Source, &program.header, &rows).is_ok() {
            return program;
        }
    }
}

fn draft(random: &mut Random, size: Size, endless: usize, guards: Guards) -> Program {
    let mut header = header(random);
    // A third of the programs have functions, a few of them with as many parameters as can be.
    let functions = random.weighted(&[(69, 0), (13, 1), (10, 2), (6, 3), (3, 5), (1, 9)]);
    if functions > 0 && random.chance(1) {
        header[0] = random.pick(&[MAX_DECLARED, MAX_DECLARED + 1, 100]);
    }
    let rows = match size {
        Size::Large => random.pick(&[300, 600, 1_000, 1_500, 2_040, 2_048]),
        Size::Mixed => match random.below(1_000) {
            0 => 2_048,
            1..=8 => random.between(150, 500),
            9..=150 => random.between(3, 14),
            151..=849 => random.between(12, 50),
            _ => random.between(50, 90),
        },
    };
    // How often a choice is kept from faulting, in percent.
    let tame = match rows > 150 {
        true => random.pick(&[100, 100, 99]),
        false => random.pick(&[100, 98, 95, 90, 80, 55]),
    };
    // A third of the programs have declarations, a few of them as many as can be.
    let declarations = random.weighted(&[(63, 0), (10, 2), (16, 6), (9, 12), (2, MAX_DECLARED)]);
    let mut maker = Maker {
        random,
        variables: header[0],
        lengths: header[1..].to_vec(),
        tame,
        endless: if rows > 150 { 0 } else { endless },
        room: rows - 1,
        counters: Vec::new(),
        rounds: 1,
        guards,
        in_loop: false,
        breakable: false,
        declarations,
        declared: 0,
        functions: Vec::new(),
        in_function: false,
        writable: None,
        work: 0,
    };
    let tree = match maker.random.below(100) {
        0..=2 => maker.deep_program(functions),
        3 if functions > 0 => maker.chain_program(),
        _ => maker.whole(rows, functions),
    };
    Program { header, tree }
}

fn header(random: &mut Random) -> Vec<i32> {
    let variables = random.weighted(&[(1, 0), (14, 1), (26, 2), (24, 3), (18, 4), (8, 5), (4, 9)]);
    let arrays = random.weighted(&[(22, 0), (44, 1), (24, 2), (8, 3), (1, 5)]);
    let mut header = vec![variables];
    for _ in 0..arrays {
        header.push(random.weighted(&[(14, 1), (26, 2), (30, 3), (18, 4), (8, 6), (2, 17)]));
    }
    match random.below(1_500) {
        0 => header[0] = MAX_VARIABLES,
        1 => header.resize(1 + MAX_ARRAYS, 1),
        2 => header.push(300),
        _ => {}
    }
    header
}
