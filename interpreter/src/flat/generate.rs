//! Flat lists of any lines that the check accepts: jumps go anywhere in the
//! list, so that most runs end by the budget, a fault or a way out.

use super::{shape, Holds, Line, JUMP_OTHER, JUMP_ZERO, LEFT, RIGHT};
use crate::form::Form::Kernel;
use crate::generate_kernel::kernel_header;
use crate::random::Random;

/// A header and the words of a list.
pub struct List {
    pub header: Vec<i32>,
    pub words: Vec<i32>,
}

/// Kinds of lines, the more frequent ones again; those that name a variable or an array come apart.
const PLAIN: [(usize, i32); 4] = [(6, JUMP_ZERO), (5, JUMP_OTHER), (5, 52), (1, 57)];

pub fn list(random: &mut Random) -> List {
    let header = kernel_header(random);
    let count = random.pick(&[0, 1, 3, 10, 10, 40, 200]);
    let words = (0..count).flat_map(|at| line(random, &header, at, count)).collect();
    List { header, words }
}

/// A line at a place of a list of so many.
fn line(random: &mut Random, header: &[i32], at: usize, count: usize) -> Line {
    let variables: Vec<i32> = (0..header[0]).chain(Kernel.numbers_behind(header)).collect();
    let arrays = Kernel.lengths(header).len() as i32;
    let mut kinds = PLAIN.to_vec();
    if !variables.is_empty() {
        kinds.extend([(8, 1), (3, 4)]);
        kinds.extend((6..=16).map(|kind| (3, kind)));
    }
    if arrays > 0 {
        kinds.push((6, 21));
    }
    if arrays > 0 && !variables.is_empty() {
        kinds.push((8, 3));
    }
    let kind = random.weighted(&kinds);
    let (holds, jumps) = shape(kind).expect("a kind of the table");
    let mut line = [kind, 0, 0, 0, 0];
    for (field, holds) in holds.into_iter().enumerate() {
        let constant = holds == Holds::Atom && (variables.is_empty() || random.chance(40));
        line[field + 1] = match holds {
            Holds::Nothing => 0,
            Holds::Atom if constant => value(random),
            Holds::Atom | Holds::Variable => random.pick(&variables),
            Holds::Array => random.between(0, arrays - 1),
        };
        if constant {
            line[0] += if field == 1 { LEFT } else { RIGHT };
        }
    }
    if jumps {
        let target = if random.chance(60) {
            random.between(at as i32 + 1, count as i32)
        } else {
            random.between(0, count as i32)
        };
        line[4] = target - (at as i32 + 1);
    }
    line
}

fn value(random: &mut Random) -> i32 {
    let end = random.pick(&[i32::MIN, i32::MAX]);
    let small = random.between(-2, 4);
    if random.chance(10) {
        end
    } else {
        small
    }
}
