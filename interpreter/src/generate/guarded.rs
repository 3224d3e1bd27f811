//! Generated guarded statements: guards with effects and faults, jumps out of the
//! blocks, and guarded dos that mostly come to an end.

use super::{Guards, Maker};
use crate::table::*;
use crate::tree::*;

impl Maker<'_> {
    pub fn has_guards(&self) -> bool {
        self.guards != Guards::None
    }

    /// A guarded statement early in a program, at times in a loop.
    pub fn guarded(&mut self, items: &mut Vec<Tree>, level: i32) {
        match self.random.below(6) {
            0 => items.push(self.guarded_if(level)),
            1 | 2 => self.guarded_do(items, level),
            _ => self.guarded_in_loop(items, level),
        }
    }

    /// A guarded statement in a for, at times in a switch in it, so that its jumps have their place.
    fn guarded_in_loop(&mut self, items: &mut Vec<Tree>, level: i32) {
        if self.variables == 0 {
            return items.push(self.guarded_if(level));
        }
        let number = self.written_variable();
        let rounds = self.random.between(1, 4);
        self.room -= 12;
        let before = (self.in_loop, self.breakable, self.rounds, self.counters.len());
        (self.in_loop, self.breakable) = (true, true);
        self.rounds *= rounds;
        self.counters.push(number);
        let mut inner = Vec::new();
        match self.random.chance(50) {
            true => inner.push(self.guarded_if(level - 1)),
            false => self.guarded_do(&mut inner, level - 1),
        }
        inner.extend(self.list(level - 1, 1));
        if self.random.chance(40) {
            let value = self.random.between(0, rounds);
            let mut marked = vec![case(value)];
            marked.extend(inner);
            marked.push(plain(DEFAULT));
            marked.extend(self.list(level - 1, 1));
            inner = vec![switch(variable(number), marked)];
        }
        inner.extend(self.list(level - 1, 1));
        self.declare_among(&mut inner, 0);
        self.counters.truncate(before.3);
        (self.in_loop, self.breakable, self.rounds, _) = before;
        let start = assign(variable(number), constant(0));
        let test = binary(LESS, variable(number), constant(rounds));
        let step = unary(PRE_INCREMENT, variable(number));
        items.push(for_loop(Some(start), Some(test), Some(step), block(inner)));
    }

    /// A guarded if; where it is kept from faulting, its last guard is true.
    pub fn guarded_if(&mut self, level: i32) -> Tree {
        let mut arms = Vec::new();
        for _ in 0..self.random.pick(&[0, 1, 1, 2, 2, 3]) {
            let guard = self.guard();
            arms.push(self.arm(level, guard, None));
        }
        let kept = match self.guards {
            Guards::Failing => 45,
            _ => 94,
        };
        if self.random.chance(kept) {
            let guard = self.pick_constant(&[1, 1, -1, i32::MIN]);
            arms.push(self.arm(level, guard, None));
        }
        guarded(GUARDED_IF, arms)
    }

    /// A guarded do, and what it needs ahead of it.
    pub fn guarded_do(&mut self, items: &mut Vec<Tree>, level: i32) {
        match self.random.below(12) {
            0 => items.push(guarded(GUARDED_DO, Vec::new())),
            1 | 2 if self.variables > 1 => self.divisor_by_guards(items),
            _ if self.variables == 0 => {
                let guard = constant(0);
                items.push(guarded(GUARDED_DO, vec![self.arm(level, guard, None)]));
            }
            _ => self.counted_arms(items, level),
        }
    }

    /// The greatest common divisor of two variables, as Dijkstra writes it.
    fn divisor_by_guards(&mut self, items: &mut Vec<Tree>) {
        let x = self.written_variable();
        let y = (x + 1) % self.variables;
        self.room -= 26;
        for number in [x, y] {
            let value = constant(self.random.between(1, 9));
            items.push(expression(assign(variable(number), value)));
        }
        let less = |x, y| {
            let guard = binary(GREATER, variable(x), variable(y));
            arm(guard, vec![expression(binary(SUBTRACT_ASSIGN, variable(x), variable(y)))])
        };
        items.push(guarded(GUARDED_DO, vec![less(x, y), less(y, x)]));
    }

    /// Rounds that a variable counts, in the blocks or in the guards; few are endless.
    fn counted_arms(&mut self, items: &mut Vec<Tree>, level: i32) {
        let number = self.written_variable();
        let limit = if self.rounds > 12 { 2 } else { 4 };
        let rounds = self.random.between(0, limit);
        let in_guards = self.random.chance(35);
        let endless = self.random.chance(self.endless);
        self.room -= 6;
        items.push(expression(assign(variable(number), constant(0))));
        let before = (self.rounds, self.counters.len());
        self.rounds *= rounds.max(1);
        self.counters.push(number);
        let mut arms = Vec::new();
        for _ in 0..self.random.pick(&[1, 1, 2, 2, 3]) {
            let up = unary(POST_INCREMENT, variable(number));
            let counter = if in_guards { up.clone() } else { variable(number) };
            let below = binary(LESS, counter, constant(rounds));
            let guard = match self.random.below(6) {
                _ if endless => constant(1),
                0 => binary(COMMA, self.effect_or_leaf(1), below),
                1 | 2 => binary(AND, below, self.guard()),
                3 => binary(AND, self.guard(), below),
                _ => below,
            };
            let count = (!in_guards).then(|| expression(up));
            arms.push(self.arm(level, guard, count));
        }
        (self.rounds, _) = before;
        self.counters.truncate(before.1);
        items.push(guarded(GUARDED_DO, arms));
    }

    /// A guard: at times one with an effect.
    fn guard(&mut self) -> Tree {
        match self.random.below(4) {
            0 if self.has_places() => self.effect_or_leaf(2),
            1 if self.has_functions() => self.any_call(1),
            _ => self.expression(2),
        }
    }

    /// An arm whose block begins with the given item, and at times ends with a jump. Neither form
    /// is a loop or switch, so that a jump is one of what is around.
    fn arm(&mut self, level: i32, guard: Tree, first: Option<Tree>) -> Tree {
        self.room -= 2;
        let mut items: Vec<Tree> = first.into_iter().collect();
        // What counts the rounds is not hidden.
        let counting = items.len();
        items.extend(self.list(level - 1, 2));
        match self.random.below(8) {
            0 | 1 if self.breakable => items.push(plain(BREAK)),
            2 | 3 if self.in_loop => items.push(plain(CONTINUE)),
            4 if self.in_function => items.push(self.give_back(1)),
            _ => {}
        }
        self.declare_among(&mut items, counting);
        arm(guard, items)
    }
}
