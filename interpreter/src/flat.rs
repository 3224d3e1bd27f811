//! Flat lists, from document 02 (a terminal without nesting) and docs/FLAT.md:
//! the list's own check, a machine of their own, the list of a kernel program,
//! and lists made and damaged at random.

pub mod damage;
pub mod flatten;
pub mod generate;

pub use flatten::flatten;

use crate::check::check_header;
use crate::form::Form::Kernel;
use crate::machine::{Array, Ending, Fault, Outcome, Stop};
use crate::table::*;

/// Words of a line: operation, target, two operands, distance.
pub const LINE: usize = 5;
pub type Line = [i32; LINE];

/// What an operation adds where its left operand is a constant, and its right one.
pub const LEFT: i32 = 64;
pub const RIGHT: i32 = 128;

/// Kinds of lines that are named otherwise than the kernel's: a jump where the operand is 0, or is not.
pub const JUMP_ZERO: i32 = 43;
pub const JUMP_OTHER: i32 = 44;

/// What a word of a line holds.
#[derive(Clone, Copy, Debug, PartialEq, Eq)]
pub enum Holds {
    Nothing,
    Atom,
    Variable,
    Array,
}

/// What target, left and right hold, and whether the line jumps; none where no line is of this kind.
pub fn shape(kind: i32) -> Option<([Holds; 3], bool)> {
    use Holds::*;
    let shape = match kind {
        1 | 4 => ([Variable, Atom, Nothing], false),
        3 => ([Variable, Array, Atom], false),
        6..=16 => ([Variable, Atom, Atom], false),
        21 => ([Array, Atom, Atom], false),
        JUMP_ZERO | JUMP_OTHER => ([Nothing, Atom, Nothing], true),
        52 => ([Nothing, Nothing, Nothing], true),
        57 => ([Nothing, Nothing, Nothing], false),
        _ => return None,
    };
    Some(shape)
}

/// The lines of a list of words, without a rest.
pub fn lines_of(list: &[i32]) -> &[Line] {
    list.as_chunks::<LINE>().0
}

/// The kind of an operation, and whether its operands are constants; none where no line has it.
fn parts(operation: i32) -> Option<(i32, bool, bool)> {
    if !(0..256).contains(&operation) {
        return None;
    }
    let (kind, left, right) = (operation % 64, operation & LEFT != 0, operation & RIGHT != 0);
    let ([_, first, second], _) = shape(kind)?;
    let fits = |constant: bool, holds| !constant || holds == Holds::Atom;
    (fits(left, first) && fits(right, second)).then_some((kind, left, right))
}

/// The causes in order of number, then of line.
pub fn check(header: &[i32], list: &[i32]) -> Result<(), Refusal> {
    check_header(Kernel, header)?;
    if list.len() % LINE != 0 {
        return Err(Refusal::new(2, 0));
    }
    let lines = lines_of(list);
    let first =
        |number, broken: &dyn Fn(usize) -> bool| match (0..lines.len()).find(|&at| broken(at)) {
            Some(at) => Err(Refusal::new(number, at)),
            None => Ok(()),
        };
    first(3, &|at| parts(lines[at][0]).is_none())?;
    first(4, &|at| !distance_fits(lines, at))?;
    first(6, &|at| !numbers_fit(header, &lines[at]))
}

/// A jump stays inside the list or goes just past its last line; another line has no distance.
fn distance_fits(lines: &[Line], at: usize) -> bool {
    let [operation, .., distance] = lines[at];
    match shape(operation % 64) {
        Some((_, true)) => {
            (0..=lines.len() as i64).contains(&(at as i64 + 1 + i64::from(distance)))
        }
        _ => distance == 0,
    }
}

fn numbers_fit(header: &[i32], line: &Line) -> bool {
    let behind = Kernel.numbers_behind(header);
    let variable = |n| (0..header[0]).contains(&n) || behind.contains(&n);
    let array = |n| (0..Kernel.lengths(header).len() as i32).contains(&n);
    let Some((kind, left, right)) = parts(line[0]) else { return false };
    let Some((holds, _)) = shape(kind) else { return false };
    let constants = [false, left, right];
    (0..3).all(|field| match holds[field] {
        Holds::Nothing => line[field + 1] == 0,
        Holds::Atom => constants[field] || variable(line[field + 1]),
        Holds::Variable => variable(line[field + 1]),
        Holds::Array => array(line[field + 1]),
    })
}

/// The check, then 11, then the run, whose budget counts lines.
pub fn run(
    header: &[i32],
    list: &[i32],
    store: &mut [i32],
    budget: u32,
) -> Result<Outcome, Refusal> {
    check(header, list)?;
    if store.len() != Kernel.header_words(header) {
        return Err(Refusal::new(11, 0));
    }
    Ok(run_checked(header, list, store, budget))
}

/// Runs a list that the check accepts, on a store of S+D+T words.
pub fn run_checked(header: &[i32], list: &[i32], store: &mut [i32], budget: u32) -> Outcome {
    let arrays = Array::all(header[0], Kernel.lengths(header));
    let lines = lines_of(list);
    let (mut at, mut count) = (0, 0);
    while at < lines.len() {
        if count == budget {
            return Outcome { ending: Ending::Spent, count };
        }
        count += 1;
        match made(&lines[at], &arrays, store) {
            Ok(false) => at += 1,
            Ok(true) => at = (at as i64 + 1 + i64::from(lines[at][4])) as usize,
            Err(fault) => return Outcome { ending: Ending::Fault(fault), count },
        }
    }
    Outcome { ending: Ending::Ended, count }
}

/// Makes a line; true where it jumps.
fn made(line: &Line, arrays: &[Array], store: &mut [i32]) -> Result<bool, Fault> {
    let [operation, target, left, right, _] = *line;
    let value = |constant: bool, word: i32, store: &[i32]| match constant {
        true => word,
        false => store[word as usize],
    };
    let first = |store: &[i32]| value(operation & LEFT != 0, left, store);
    let second = |store: &[i32]| value(operation & RIGHT != 0, right, store);
    let kind = operation % 64;
    let result = match kind {
        1 => first(store),
        3 => store[arrays[left as usize].word(second(store)).ok_or(Fault::Index)?],
        4 => first(store).checked_neg().ok_or(Fault::Overflow)?,
        6..=16 => operated(kind, first(store), second(store))?,
        21 => {
            let word = arrays[target as usize].word(first(store)).ok_or(Fault::Index)?;
            store[word] = second(store);
            return Ok(false);
        }
        JUMP_ZERO => return Ok(first(store) == 0),
        JUMP_OTHER => return Ok(first(store) != 0),
        52 => return Ok(true),
        _ => return Err(Fault::Guard),
    };
    store[target as usize] = result;
    Ok(false)
}

fn operated(kind: i32, left: i32, right: i32) -> Result<i32, Fault> {
    match crate::machine::operate(kind, left, right) {
        Ok(value) => Ok(value),
        Err(Stop::Fault(fault)) => Err(fault),
        Err(Stop::Spent) => unreachable!("an operation spends nothing"),
    }
}
