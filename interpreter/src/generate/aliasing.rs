//! Generated expressions that surprise: effects, one place read and written on
//! both sides, and operations at the ends of the 32-bit range.

use super::expressions::{COMPOUND, STEPS};
use super::Maker;
use crate::table::*;
use crate::tree::*;

impl Maker<'_> {
    pub fn effect_or_leaf(&mut self, level: i32) -> Tree {
        if self.has_functions() && level > 0 && self.random.chance(20) {
            return self.any_call(level - 1);
        }
        if !self.has_places() {
            return self.leaf();
        }
        let place = self.place(level);
        self.effect(place, level)
    }

    /// An expression that writes the place.
    fn effect(&mut self, place: Tree, level: i32) -> Tree {
        self.room -= 1;
        match self.random.below(10) {
            0..=2 => assign(place, self.value(level - 1)),
            3..=5 => {
                let kind = self.random.pick(&COMPOUND);
                let value = self.right_operand(kind - ADD_ASSIGN + ADD, level - 1);
                binary(kind, place, value)
            }
            6..=8 => unary(self.random.pick(&STEPS), place),
            _ => {
                self.room -= 1;
                let kind = self.random.pick(&[AND, OR]);
                let left = self.leaf();
                binary(kind, left, assign(place, self.value(level - 1)))
            }
        }
    }

    /// One place read and written on both sides of something.
    pub fn aliasing(&mut self, level: i32) -> Tree {
        let place = self.shared_place();
        let read = place.clone();
        let index_aliasing = !self.lengths.is_empty() && self.variables > 0;
        self.room -= 1;
        match self.random.below(13) {
            0 | 1 => binary(self.calm_operator(), self.effect(place, level), read),
            2 => binary(self.calm_operator(), read, self.effect(place, level)),
            3 => {
                let kind = self.calm_operator();
                let left = self.effect(place, level);
                binary(kind, left, self.effect(read, level))
            }
            4 => assign(read, self.effect(place, level)),
            5 => {
                let kind = self.random.pick(&[ADD_ASSIGN, SUBTRACT_ASSIGN, ADD_ASSIGN]);
                binary(kind, read, self.effect(place, level))
            }
            6 => {
                let kind = self.random.pick(&[AND, OR, COMMA]);
                let left = self.effect(place, level);
                binary(kind, left, self.effect(read, level))
            }
            7 => {
                let test = self.effect(place.clone(), level);
                conditional(test, read, self.effect(place, level))
            }
            8 | 9 if index_aliasing => self.aliased_index(level, false),
            10 | 11 if index_aliasing => self.aliased_index(level, true),
            12 if !self.lengths.is_empty() => self.aliased_array(level),
            _ => {
                let kind = self.calm_operator();
                let value = binary(kind, self.effect(place, level), read.clone());
                assign(read, value)
            }
        }
    }

    /// a[a[i] = k] and the same array as the value.
    fn aliased_array(&mut self, level: i32) -> Tree {
        self.room -= 4;
        let array = self.array();
        let last = self.lengths[array as usize] - 1;
        let inner = element(array, self.inside(0, last, level - 1));
        let outer = assign(inner.clone(), self.inside(0, last, level - 1));
        let value = self.effect(inner, level - 1);
        assign(element(array, outer), value)
    }

    /// A variable that is index and value at once.
    fn aliased_index(&mut self, level: i32, compound: bool) -> Tree {
        self.room -= 4;
        let array = self.array();
        let last = self.lengths[array as usize] - 1;
        let number = self.written_variable();
        let index = match self.random.below(4) {
            0 if !self.tame() => unary(self.random.pick(&STEPS), variable(number)),
            1 if last > 0 => {
                let start = assign(variable(number), self.constant_inside(1, last));
                let step = self.random.pick(&[PRE_DECREMENT, POST_INCREMENT, POST_DECREMENT]);
                binary(COMMA, start, unary(step, variable(number)))
            }
            _ => assign(variable(number), self.inside(0, last, level - 1)),
        };
        let value = match self.random.chance(50) {
            true => variable(number),
            false => self.effect(variable(number), level - 1),
        };
        let target = element(array, index);
        if !compound {
            return assign(target, value);
        }
        let kind = self.random.pick(&COMPOUND);
        if matches!(kind, DIVIDE_ASSIGN | REMAINDER_ASSIGN) && self.tame() {
            let divisor = assign(variable(number), self.divisor());
            return binary(kind, target, divisor);
        }
        binary(kind, target, value)
    }

    pub fn calm_operator(&mut self) -> i32 {
        match self.random.below(3) {
            0 => ADD,
            1 => SUBTRACT,
            _ => self.random.between(LESS, UNEQUAL),
        }
    }

    /// Operations at the ends of the 32-bit range and on zero divisors.
    pub fn edge(&mut self, level: i32) -> Tree {
        self.room -= 3;
        let least = || constant(i32::MIN);
        if self.tame() {
            return match self.random.below(5) {
                0 => binary(REMAINDER, constant(i32::MIN + 1), constant(-1)),
                1 => binary(SUBTRACT, constant(i32::MAX), constant(i32::MAX)),
                2 => binary(COMMA, least(), self.leaf()),
                3 => binary(DIVIDE, least(), constant(i32::MIN)),
                _ => binary(GREATER, constant(i32::MAX), self.expression(level)),
            };
        }
        match self.random.below(8) {
            0 => binary(DIVIDE, least(), constant(-1)),
            1 => unary(MINUS, least()),
            2 => binary(ADD, constant(i32::MAX), self.expression(level)),
            3 => binary(SUBTRACT, least(), self.expression(level)),
            4 => binary(DIVIDE, self.expression(level), constant(0)),
            5 => binary(REMAINDER, least(), constant(0)),
            6 => binary(REMAINDER, least(), constant(-1)),
            _ => binary(MULTIPLY, constant(65_536), constant(32_767)),
        }
    }

    /// A place that reads the same each time, for use on both sides.
    fn shared_place(&mut self) -> Tree {
        self.place(1)
    }
}
