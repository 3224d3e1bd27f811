//! The state of the making of one program, and what of it a function's body puts aside.

use super::functions::Function;
use super::Guards;
use crate::random::Random;

/// The state of the making of one program.
pub struct Maker<'a> {
    pub random: &'a mut Random,
    pub variables: i32,
    pub lengths: Vec<i32>,
    /// Chance, in percent, that a choice is kept from faulting.
    pub tame: usize,
    /// Chance, in percent, that a loop is endless.
    pub endless: usize,
    /// Rows still to be made; parts stay small once it is used up.
    pub room: i32,
    /// Variables that count the rounds of the loops around.
    pub counters: Vec<i32>,
    /// Product of the rounds of the loops around.
    pub rounds: i32,
    pub guards: Guards,
    pub in_loop: bool,
    pub breakable: bool,
    /// Declarations that may still be made.
    pub declarations: i32,
    /// Parameters that were made.
    pub declared: i32,
    /// The functions that may be called.
    pub functions: Vec<Function>,
    pub in_function: bool,
    /// The variables that may be written, where not all may.
    pub writable: Option<Vec<i32>>,
    /// About how many statements were made, each as often as the rounds around it.
    pub work: i32,
}

/// What the making of a function's body puts aside, and takes up again behind it.
pub struct Outside {
    counters: Vec<i32>,
    rounds: i32,
    in_loop: bool,
    breakable: bool,
    room: i32,
    work: i32,
}

impl Outside {
    pub fn leave(maker: &mut Maker) -> Outside {
        let outside = Outside {
            counters: std::mem::take(&mut maker.counters),
            rounds: maker.rounds,
            in_loop: maker.in_loop,
            breakable: maker.breakable,
            room: maker.room,
            work: maker.work,
        };
        (maker.rounds, maker.in_loop, maker.breakable, maker.work) = (1, false, false, 1);
        outside
    }

    pub fn enter(self, maker: &mut Maker) {
        maker.counters = self.counters;
        (maker.rounds, maker.in_loop, maker.breakable) =
            (self.rounds, self.in_loop, self.breakable);
        (maker.room, maker.work) = (self.room, self.work);
        (maker.in_function, maker.writable) = (false, None);
    }
}
