//! Generated declarations: in row 0's list and in blocks below it, in the bodies of
//! loops and arms, first, last and between; most hide a name of the outside.

use super::Maker;
use crate::table::*;
use crate::tree::*;

impl Maker<'_> {
    /// Chance, in percent, that a branch or body of one statement is no block.
    pub fn alone(&self) -> usize {
        if self.may_declare() {
            45
        } else {
            75
        }
    }

    fn may_declare(&self) -> bool {
        self.declarations > 0 && self.variables > 0
    }

    /// Adds declarations to the list of a block, at this position or behind it.
    pub fn declare_among(&mut self, items: &mut Vec<Tree>, from: usize) {
        if !self.may_declare() || self.random.chance(30) {
            return;
        }
        for _ in 0..self.random.pick(&[1, 1, 1, 2, 3]) {
            let Some(number) = self.undeclared(items) else { return };
            let depth = self.random.pick(&[0, 1, 1, 2, 3]);
            let declaration = self.declaration(number, depth);
            let position = match self.random.below(8) {
                0..=3 => from,
                4 => items.len(),
                _ => from + self.random.below(items.len() - from + 1),
            };
            items.insert(position, declaration);
        }
    }

    /// A number that the list does not declare, where there is one: at times one that counts rounds
    /// of a loop around.
    fn undeclared(&mut self, items: &[Tree]) -> Option<i32> {
        for _ in 0..4 {
            let number = match self.counters.is_empty() || self.random.chance(70) {
                true => self.read_variable(),
                false => self.random.pick(&self.counters),
            };
            if self.may_declare() && !items.iter().any(|item| declares(item, number)) {
                return Some(number);
            }
        }
        None
    }

    /// A declaration, in whose first value the number does not stand.
    fn declaration(&mut self, number: i32, depth: i32) -> Tree {
        self.declarations -= 1;
        self.room -= 1;
        let mut value = self.value(depth);
        if value.names(number) {
            if self.variables == 1 {
                return declare(number, self.constant());
            }
            let other = (number + self.random.between(1, self.variables - 1)) % self.variables;
            value.each(&mut |tree| {
                if tree.kind == VARIABLE && tree.names(number) {
                    *tree = variable(other);
                }
            });
        }
        declare(number, value)
    }

    /// In a program that has many: all that are left, in blocks one behind or inside the other.
    pub fn declare_all(&mut self, items: &mut Vec<Tree>) {
        if self.declarations <= 20 || !self.may_declare() {
            return;
        }
        self.declarations -= self.random.pick(&[0, 0, 0, 1]);
        let mut inner = Vec::new();
        while self.declarations > 0 {
            for number in 0..self.variables.min(self.declarations) {
                let declaration = self.declaration(number, 0);
                inner.push(declaration);
            }
            if self.has_places() {
                let depth = self.random.pick(&[1, 2]);
                inner.push(expression(self.effect_or_leaf(depth)));
            }
            let whole = block(std::mem::take(&mut inner));
            match self.random.chance(40) && whole.depth() < 30 {
                true => inner.push(whole),
                false => items.push(whole),
            }
        }
        items.extend(inner);
    }
}

fn declares(item: &Tree, number: i32) -> bool {
    item.kind == DECLARE && matches!(item.parts[0], Part::Number(own) if own == number)
}
