//! Generated expressions: places, leaves, operations, and values kept within bounds.

use super::{end_value, Maker};
use crate::table::*;
use crate::tree::*;

pub const COMPOUND: [i32; 5] =
    [ADD_ASSIGN, SUBTRACT_ASSIGN, MULTIPLY_ASSIGN, DIVIDE_ASSIGN, REMAINDER_ASSIGN];

pub const STEPS: [i32; 4] = [PRE_INCREMENT, PRE_DECREMENT, POST_INCREMENT, POST_DECREMENT];

impl Maker<'_> {
    pub fn tame(&mut self) -> bool {
        self.random.chance(self.tame)
    }

    pub fn constant(&mut self) -> Tree {
        self.room -= 1;
        let value = match self.tame() {
            true => self.random.between(-2, 6),
            false => end_value(self.random),
        };
        constant(value)
    }

    pub fn has_places(&self) -> bool {
        self.variables > 0 || !self.lengths.is_empty()
    }

    /// A variable to read.
    pub fn read_variable(&mut self) -> i32 {
        self.random.between(0, self.variables - 1)
    }

    /// A variable to write: seldom one that counts rounds.
    pub fn written_variable(&mut self) -> i32 {
        let mut number = self.writable_variable();
        for _ in 0..6 {
            if !self.counters.contains(&number) || self.random.chance(3) {
                break;
            }
            number = self.writable_variable();
        }
        number
    }

    fn writable_variable(&mut self) -> i32 {
        match &self.writable {
            Some(numbers) => self.random.pick(numbers),
            None => self.read_variable(),
        }
    }

    pub fn array(&mut self) -> i32 {
        self.random.below(self.lengths.len()) as i32
    }

    pub fn element(&mut self, level: i32) -> Tree {
        self.room -= 1;
        let array = self.array();
        let index = self.index(array, level - 1);
        element(array, index)
    }

    pub fn index(&mut self, array: i32, level: i32) -> Tree {
        let length = self.lengths[array as usize];
        match self.tame() {
            true => self.inside(0, length - 1, level),
            false if self.random.chance(50) => {
                self.pick_constant(&[-1, length, length + 1, i32::MIN])
            }
            false => self.expression(level),
        }
    }

    pub fn pick_constant(&mut self, values: &[i32]) -> Tree {
        self.room -= 1;
        constant(self.random.pick(values))
    }

    /// A place to write, with effects in the index.
    pub fn place(&mut self, level: i32) -> Tree {
        let elements = match (self.variables > 0, self.lengths.is_empty()) {
            (true, true) => 0,
            (false, _) => 100,
            (true, false) if self.counters.len() as i32 >= self.variables => 70,
            _ => 35,
        };
        if self.random.chance(elements) {
            return self.element(level);
        }
        self.room -= 1;
        variable(self.written_variable())
    }

    pub fn leaf(&mut self) -> Tree {
        if self.variables > 0 && self.random.chance(60) {
            self.room -= 1;
            return variable(self.read_variable());
        }
        if !self.lengths.is_empty() && self.random.chance(20) {
            return self.element(1);
        }
        self.constant()
    }

    pub fn expression(&mut self, level: i32) -> Tree {
        if level <= 0 || self.room <= 0 {
            return self.leaf();
        }
        let places = self.has_places() as usize;
        let choice = self.random.weighted(&[
            (20, 0),
            (8, 1),
            (7, 2),
            (52, 3),
            (7, 4),
            (7, 5),
            (7, 6),
            (7, 7),
            (9 * places, 8),
            (11 * places, 9),
            (11 * places, 10),
            (18 * places, 11),
            (8, 12),
            (45 * self.has_functions() as usize, 13),
            (30 * self.has_functions() as usize, 14),
        ]);
        if choice == 0 {
            return self.leaf();
        }
        self.room -= 1;
        self.chosen_expression(choice, level - 1)
    }

    /// The expression of this choice, with parts of this level.
    fn chosen_expression(&mut self, choice: i32, level: i32) -> Tree {
        match choice {
            1 => unary(MINUS, self.expression(level)),
            2 => unary(NOT, self.expression(level)),
            3 => {
                let kind = self.operator();
                let left = self.expression(level);
                let right = self.right_operand(kind, level);
                binary(kind, left, right)
            }
            4 => binary(AND, self.expression(level), self.expression(level)),
            5 => binary(OR, self.expression(level), self.expression(level)),
            6 => {
                let test = self.expression(level);
                conditional(test, self.expression(level), self.expression(level))
            }
            7 => binary(COMMA, self.expression(level), self.expression(level)),
            8 => assign(self.place(level), self.value(level)),
            9 => {
                let kind = self.random.pick(&COMPOUND);
                let place = self.place(level);
                let value = self.right_operand(kind - ADD_ASSIGN + ADD, level);
                binary(kind, place, value)
            }
            10 => unary(self.random.pick(&STEPS), self.place(level)),
            11 => self.aliasing(level),
            12 => self.edge(level),
            13 => self.any_call(level),
            _ => self.aliased_call(level),
        }
    }

    /// One of the kinds 6 to 16, seldom a product.
    pub fn operator(&mut self) -> i32 {
        match self.random.below(100) {
            0..=14 => ADD,
            15..=28 => SUBTRACT,
            29..=38 => MULTIPLY,
            39..=50 => DIVIDE,
            51..=60 => REMAINDER,
            _ => self.random.between(LESS, UNEQUAL),
        }
    }

    /// The right operand; a divisor is mostly no zero, a factor mostly small.
    pub fn right_operand(&mut self, kind: i32, level: i32) -> Tree {
        match kind {
            DIVIDE | REMAINDER if self.tame() => match self.random.below(8) {
                0 if self.has_places() && level > 0 => {
                    let divisor = self.divisor();
                    self.room -= 1;
                    assign(self.place(level), divisor)
                }
                1 if level > 0 => {
                    self.room -= 1;
                    binary(COMMA, self.effect_or_leaf(level - 1), self.divisor())
                }
                2 if self.variables > 0 && self.tame < 99 => {
                    self.room -= 1;
                    variable(self.read_variable())
                }
                _ => self.divisor(),
            },
            DIVIDE | REMAINDER if self.random.chance(70) => self.pick_constant(&[0, 0, -1]),
            MULTIPLY if self.tame() => self.inside(-2, 2, level),
            _ => self.expression(level),
        }
    }

    pub fn divisor(&mut self) -> Tree {
        self.pick_constant(&[-3, -2, -1, 1, 2, 2, 3, 4, 5, 7])
    }

    /// A value to store, kept small more often than not.
    pub fn value(&mut self, level: i32) -> Tree {
        match self.random.chance(25) {
            true => self.inside(-1, 4, level),
            false => self.expression(level),
        }
    }

    /// An expression whose value is from low to high, with effects on the way.
    pub fn inside(&mut self, low: i32, high: i32, level: i32) -> Tree {
        if level <= 0 || self.room <= 0 {
            return self.constant_inside(low, high);
        }
        let truth = (low <= 0 && high >= 1) as usize;
        let places = self.has_places() as usize;
        let wide = (high > low) as usize;
        let written = (self.variables > 0) as usize;
        let choice = self.random.weighted(&[
            (24, 0),
            (12 * places, 1),
            (8, 2),
            (14 * places, 3),
            (8 * truth, 4),
            (5 * truth, 5),
            (7 * wide, 6),
            (12 * wide * written, 7),
        ]);
        if choice == 0 {
            return self.constant_inside(low, high);
        }
        self.room -= 1;
        let level = level - 1;
        match choice {
            1 => binary(COMMA, self.effect_or_leaf(level), self.inside(low, high, level)),
            2 => {
                let test = self.expression(level);
                conditional(test, self.inside(low, high, level), self.inside(low, high, level))
            }
            3 => assign(self.place(level), self.inside(low, high, level)),
            4 => {
                let kind = self.random.between(LESS, UNEQUAL);
                binary(kind, self.expression(level), self.expression(level))
            }
            5 => self.logic(level),
            6 => self.remainder_inside(low, high, level),
            _ => self.step_inside(low, high, level),
        }
    }

    pub fn constant_inside(&mut self, low: i32, high: i32) -> Tree {
        self.room -= 1;
        constant(self.random.between(low, high))
    }

    fn logic(&mut self, level: i32) -> Tree {
        match self.random.below(3) {
            0 => unary(NOT, self.expression(level)),
            1 => binary(AND, self.expression(level), self.expression(level)),
            _ => binary(OR, self.expression(level), self.expression(level)),
        }
    }

    /// (e % n + n) % n + low
    fn remainder_inside(&mut self, low: i32, high: i32, level: i32) -> Tree {
        self.room -= 7;
        let n = || constant(high - low + 1);
        let rest = binary(REMAINDER, self.expression(level), n());
        let rest = binary(REMAINDER, binary(ADD, rest, n()), n());
        binary(ADD, rest, constant(low))
    }

    /// v = k, v++ and the like.
    fn step_inside(&mut self, low: i32, high: i32, level: i32) -> Tree {
        self.room -= 4;
        let kind = self.random.pick(&STEPS);
        let (from, to) = match kind {
            PRE_INCREMENT => (low, high - 1),
            PRE_DECREMENT => (low + 1, high),
            _ => (low, high),
        };
        let start = self.inside(from, to, level);
        let number = self.written_variable();
        binary(COMMA, assign(variable(number), start), unary(kind, variable(number)))
    }
}
