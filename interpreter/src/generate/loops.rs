//! Generated loops: most count their rounds, some are left by break, few are endless.

use super::Maker;
use crate::table::*;
use crate::tree::*;

/// The parts of a loop that counts its rounds in a place.
struct Counted {
    counter: Tree,
    rounds: i32,
    /// The counter set to 0.
    zero: Tree,
    /// The counter counted up by one.
    count: Tree,
    /// Counts up, and fails after the rounds.
    test: Tree,
    body: Tree,
}

impl Maker<'_> {
    /// A loop of this kind, and what it needs ahead of it.
    pub fn any_loop(&mut self, items: &mut Vec<Tree>, level: i32, kind: i32) {
        let limit = if self.rounds > 12 { 2 } else { 5 };
        let rounds = self.random.between(0, limit);
        let number = match self.variables {
            0 => None,
            _ => Some(self.written_variable()),
        };
        let counter = match number {
            Some(number) => variable(number),
            None if self.lengths.is_empty() => {
                items.push(self.uncounted_loop(level, kind));
                return;
            }
            None => element(self.array(), constant(0)),
        };
        self.room -= 8;
        let endless = self.random.chance(self.endless);
        let body = self.body(level, number, rounds.max(1));
        let counted = self.counted(counter, rounds, body);
        match kind {
            _ if endless => items.push(self.endless_loop(kind, counted.body)),
            WHILE => self.counted_while(items, counted),
            DO => self.counted_do(items, counted),
            _ => self.counted_for(items, counted),
        }
    }

    /// Without a place to count in: a loop of at most one round.
    fn uncounted_loop(&mut self, level: i32, kind: i32) -> Tree {
        let body = self.body(level, None, 1);
        match kind {
            WHILE => while_loop(constant(0), body),
            DO => do_loop(body, constant(0)),
            _ => for_loop(None, Some(constant(0)), None, body),
        }
    }

    fn counted(&mut self, counter: Tree, rounds: i32, body: Tree) -> Counted {
        let zero = assign(counter.clone(), constant(0));
        let up = self.random.pick(&[PRE_INCREMENT, POST_INCREMENT]);
        let count = unary(up, counter.clone());
        let limit = match up {
            PRE_INCREMENT => constant(rounds + 1),
            _ => constant(rounds),
        };
        let below = binary(LESS, count.clone(), limit);
        let test = match self.random.below(5) {
            0 => binary(COMMA, self.effect_or_leaf(1), below),
            1 => binary(AND, below, self.expression(1)),
            _ => below,
        };
        Counted { counter, rounds, zero, count, test, body }
    }

    fn endless_loop(&mut self, kind: i32, body: Tree) -> Tree {
        let step = self.random.chance(50).then(|| self.effect_or_leaf(2));
        match kind {
            WHILE => while_loop(constant(1), body),
            DO => do_loop(body, self.pick_constant(&[1, -1, i32::MIN])),
            _ => for_loop(None, None, step, body),
        }
    }

    fn counted_while(&mut self, items: &mut Vec<Tree>, counted: Counted) {
        let Counted { counter, rounds, zero, test, body, .. } = counted;
        let (start, test) = match self.random.below(4) {
            // Down to zero: v-- as the test.
            0 => (assign(counter.clone(), constant(rounds)), unary(POST_DECREMENT, counter)),
            _ => (zero, test),
        };
        items.push(expression(start));
        items.push(match self.random.chance(20) {
            true => self.loop_left_by_break(WHILE, test, body),
            false => while_loop(test, body),
        });
    }

    fn counted_do(&mut self, items: &mut Vec<Tree>, counted: Counted) {
        let Counted { zero, test, body, .. } = counted;
        items.push(expression(zero));
        items.push(match self.random.chance(15) {
            true => self.loop_left_by_break(DO, test, body),
            false => do_loop(body, test),
        });
    }

    fn counted_for(&mut self, items: &mut Vec<Tree>, counted: Counted) {
        let Counted { counter, rounds, zero, count, test, body } = counted;
        let start = match self.random.below(4) {
            0 => binary(COMMA, zero, self.effect_or_leaf(1)),
            _ => zero,
        };
        let compare = binary(LESS, counter.clone(), constant(rounds));
        let step = match self.random.below(4) {
            0 => binary(ADD_ASSIGN, counter, constant(1)),
            1 => binary(COMMA, self.effect_or_leaf(1), count),
            _ => count,
        };
        let tree = match self.random.below(8) {
            0 => {
                items.push(expression(start));
                for_loop(None, Some(compare), Some(step), body)
            }
            1 => for_loop(Some(start), Some(test), None, body),
            2 => {
                items.push(expression(start));
                self.loop_left_by_break(FOR, test, body)
            }
            3 => {
                let leave = choice(unary(NOT, compare), plain(BREAK), None);
                for_loop(Some(start), None, Some(step), block(vec![leave, body]))
            }
            _ => for_loop(Some(start), Some(compare), Some(step), body),
        };
        items.push(tree);
    }

    /// An endless loop whose body leaves by break where the test fails.
    fn loop_left_by_break(&mut self, kind: i32, test: Tree, body: Tree) -> Tree {
        self.room -= 4;
        let leave = match self.random.chance(50) {
            true => choice(test, plain(EMPTY), Some(plain(BREAK))),
            false => choice(unary(NOT, test), plain(BREAK), None),
        };
        let body = block(vec![leave, body]);
        match kind {
            WHILE => while_loop(constant(-1), body),
            DO => do_loop(body, constant(1)),
            _ => for_loop(None, None, None, body),
        }
    }

    fn body(&mut self, level: i32, counter: Option<i32>, rounds: i32) -> Tree {
        let before = (self.in_loop, self.breakable, self.rounds, self.counters.len());
        self.in_loop = true;
        self.breakable = true;
        self.rounds *= rounds;
        self.counters.extend(counter);
        let body = self.single(level - 1);
        self.counters.truncate(before.3);
        (self.in_loop, self.breakable, self.rounds, _) = before;
        body
    }
}
