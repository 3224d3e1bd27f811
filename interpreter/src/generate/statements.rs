//! Generated statements and whole programs.

use super::expressions::STEPS;
use super::{end_value, Maker};
use crate::table::*;
use crate::tree::*;

impl Maker<'_> {
    pub fn whole(&mut self, rows: i32, functions: usize) -> Tree {
        let definitions = self.definitions(functions);
        let defined: usize = definitions.iter().map(Tree::size).sum();
        let mut items = Vec::new();
        let deepest = self.random.between(2, 4);
        if self.has_functions() {
            self.room = (self.room - defined as i32).max(12);
            items.push(self.calling());
        }
        if self.tame < 99 && self.has_places() && self.random.chance(30) {
            self.room -= 3;
            let place = self.place(1);
            items.push(expression(assign(place, constant(end_value(self.random)))));
        }
        if self.has_guards() && self.random.chance(80) {
            self.guarded(&mut items, deepest);
        }
        while self.room > 0 {
            self.statement(&mut items, deepest);
        }
        self.declare_among(&mut items, 0);
        self.declare_all(&mut items);
        items.splice(0..0, definitions);
        let mut tree = block(items);
        // The largest programs are filled up to their exact size.
        if rows > 150 {
            if let Part::List(items) = &mut tree.parts[0] {
                let total = |items: &[Tree]| 1 + items.iter().map(Tree::size).sum::<usize>();
                while total(items) > rows as usize {
                    items.pop();
                }
                for _ in total(items)..rows as usize {
                    items.push(plain(EMPTY));
                }
            }
        }
        tree
    }

    /// Adds a statement, and what it needs ahead of it.
    pub fn statement(&mut self, items: &mut Vec<Tree>, level: i32) {
        self.room -= 1;
        self.work = self.work.saturating_add(self.rounds);
        let inner = (level > 0 && self.room > 6) as usize;
        let guards = inner * self.has_guards() as usize;
        let kind = self.random.weighted(&[
            (46, EXPRESSION),
            (11 * inner, IF),
            (4 * inner, BLOCK),
            (10 * inner, WHILE),
            (10 * inner, DO),
            (11 * inner, FOR),
            (18 * inner, SWITCH),
            (22 * guards, GUARDED_IF),
            (20 * guards, GUARDED_DO),
            (3, EMPTY),
            (5 * self.breakable as usize, BREAK),
            (14 * self.in_loop as usize, CONTINUE),
            (8 * self.in_function as usize, RETURN),
            (14 * self.has_functions() as usize, CALL),
        ]);
        match kind {
            EXPRESSION => {
                let depth = self.random.pick(&[1, 2, 2, 3, 3, 4]);
                items.push(expression(self.top_expression(depth)));
            }
            IF => {
                let test = self.expression(2);
                let yes = self.single(level - 1);
                let no = self.random.chance(50).then(|| self.single(level - 1));
                items.push(choice(test, yes, no));
            }
            BLOCK => {
                let mut inner = self.list(level - 1, 3);
                self.declare_among(&mut inner, 0);
                items.push(block(inner));
            }
            WHILE | DO | FOR => self.any_loop(items, level, kind),
            SWITCH => items.push(self.switch(level)),
            GUARDED_IF => items.push(self.guarded_if(level)),
            GUARDED_DO => self.guarded_do(items, level),
            EMPTY => items.push(plain(EMPTY)),
            CALL => items.push(self.calling()),
            _ => items.push(self.jump(kind)),
        }
    }

    /// The expression of a statement: mostly one with an effect.
    fn top_expression(&mut self, level: i32) -> Tree {
        if !self.has_places() || self.random.chance(12) {
            return self.expression(level);
        }
        match self.random.below(10) {
            0..=2 => self.aliasing(level),
            3..=4 => self.expression(level),
            _ => self.effect_or_leaf(level),
        }
    }

    /// A jump or return, mostly under a test, at times inside a block.
    pub fn jump(&mut self, kind: i32) -> Tree {
        let jump = match kind {
            RETURN => self.give_back(1),
            _ => plain(kind),
        };
        let jump = match self.random.chance(15) {
            true => block(vec![jump]),
            false => jump,
        };
        if self.random.chance(25) {
            return jump;
        }
        self.room -= 1;
        let test = self.expression(2);
        match self.random.chance(25) {
            true => choice(test, plain(EMPTY), Some(jump)),
            false => choice(test, jump, None),
        }
    }

    pub fn list(&mut self, level: i32, most: i32) -> Vec<Tree> {
        let mut items = Vec::new();
        for _ in 0..self.random.between(0, most) {
            if self.room > 0 {
                self.statement(&mut items, level);
            }
        }
        items
    }

    /// One statement that is a branch or body.
    pub fn single(&mut self, level: i32) -> Tree {
        let mut items = Vec::new();
        for _ in 0..self.random.pick(&[1, 1, 2, 3]) {
            if self.room > 0 {
                self.statement(&mut items, level);
            }
        }
        match items.pop() {
            None => plain(EMPTY),
            Some(only) if items.is_empty() && self.random.chance(self.alone()) => only,
            Some(last) => {
                items.push(last);
                self.room -= 1;
                self.declare_among(&mut items, 0);
                block(items)
            }
        }
    }

    fn switch(&mut self, level: i32) -> Tree {
        let marks = self.random.between(0, 5);
        let selector = self.selector();
        let before = self.breakable;
        self.breakable = true;
        let mut items = Vec::new();
        if self.random.chance(22) {
            items.extend(self.list(level - 1, 2));
            if self.random.chance(25) {
                items.push(plain(BREAK));
            }
        }
        self.marks(&mut items, level, marks);
        self.breakable = before;
        switch(selector, items)
    }

    fn selector(&mut self) -> Tree {
        match self.random.below(10) {
            // A counter goes through the cases.
            0..=4 if !self.counters.is_empty() => {
                self.room -= 1;
                variable(self.random.pick(&self.counters))
            }
            0..=3 => self.inside(0, 4, 2),
            4 if self.variables > 0 => {
                unary(self.random.pick(&STEPS), variable(self.read_variable()))
            }
            5 | 6 if self.variables > 0 => variable(self.read_variable()),
            7 if self.has_functions() => self.any_call(2),
            _ => self.expression(2),
        }
    }

    /// Up to so many cases of different values, and mostly a default, each with its items.
    fn marks(&mut self, items: &mut Vec<Tree>, level: i32, marks: i32) {
        let default = match self.random.chance(65) {
            true => self.random.between(0, marks),
            false => -1,
        };
        let mut values = Vec::new();
        for mark in 0..=marks {
            if mark == default {
                items.push(plain(DEFAULT));
                self.segment(items, level);
            }
            if mark < marks {
                let value = match self.random.chance(6) {
                    true => end_value(self.random),
                    false => self.random.pick(&[-1, 0, 0, 1, 1, 2, 2, 3, 3, 4, 5]),
                };
                if values.contains(&value) {
                    continue;
                }
                values.push(value);
                self.room -= 1;
                items.push(case(value));
                self.segment(items, level);
            }
        }
    }

    /// The items from one mark to the next: with break, or falling through.
    fn segment(&mut self, items: &mut Vec<Tree>, level: i32) {
        for _ in 0..self.random.pick(&[0, 1, 1, 2]) {
            if self.room > 0 {
                self.statement(items, level - 1);
            }
        }
        match self.random.below(20) {
            0..=7 => items.push(plain(BREAK)),
            8..=10 if self.in_loop => items.push(plain(CONTINUE)),
            11 => items.push(block(vec![plain(BREAK)])),
            12 | 13 if self.in_function => items.push(self.give_back(1)),
            _ => {}
        }
    }

    /// A program near the limit of depth.
    pub fn deep_program(&mut self, functions: usize) -> Tree {
        let definitions = self.definitions(functions.min(2));
        self.room = 24;
        let target = self.random.pick(&[58, 61, 62, 63, 64, 64, 64]);
        let chain = self.random.between(0, 55) as usize;
        let mut inner = self.expression(2);
        while inner.depth() < chain {
            inner = self.wrap_expression(inner);
        }
        let mut statement = expression(inner);
        while statement.depth() + 1 < target {
            let wrapped = self.wrap_statement(statement.clone());
            statement = match wrapped.depth() < target {
                true => wrapped,
                false => block(vec![statement]),
            };
        }
        let mut items = self.list(1, 2);
        items.push(statement);
        items.extend(self.list(1, 2));
        self.declare_among(&mut items, 0);
        items.splice(0..0, definitions);
        block(items)
    }

    fn wrap_expression(&mut self, inner: Tree) -> Tree {
        if self.has_functions() && self.random.chance(15) {
            if let Some(called) = self.wrap_call(inner.clone()) {
                return called;
            }
        }
        let written = (self.variables > 0) as usize;
        let arrays = !self.lengths.is_empty() as usize;
        match self.random.weighted(&[
            (4, 0),
            (3, 1),
            (3, 2),
            (3, 3),
            (2, 4),
            (2, 5),
            (2, 6),
            (3 * written, 7),
            (2 * written, 8),
            (2 * arrays, 9),
        ]) {
            0 => unary(MINUS, inner),
            1 => unary(NOT, inner),
            2 => binary(COMMA, self.leaf(), inner),
            3 => binary(self.calm_operator(), inner, self.leaf()),
            4 => binary(self.calm_operator(), self.leaf(), inner),
            5 => conditional(inner, self.leaf(), self.leaf()),
            6 => binary(self.random.pick(&[AND, OR]), inner, self.leaf()),
            7 => assign(variable(self.read_variable()), inner),
            8 => binary(ADD_ASSIGN, variable(self.read_variable()), inner),
            _ => {
                let array = self.array();
                let index = unary(NOT, binary(OR, inner, constant(1)));
                element(array, index)
            }
        }
    }

    /// A statement around this one, which runs it about once.
    pub fn wrap_statement(&mut self, inner: Tree) -> Tree {
        match self.random.below(if self.has_guards() { 9 } else { 7 }) {
            0 => {
                let mut items = vec![inner];
                self.declare_among(&mut items, 0);
                block(items)
            }
            1 => choice(constant(1), inner, None),
            2 => choice(self.leaf(), plain(EMPTY), Some(inner)),
            3 => do_loop(inner, constant(0)),
            4 => switch(self.leaf(), vec![plain(DEFAULT), inner, plain(BREAK)]),
            5 => for_loop(None, None, None, block(vec![inner, plain(BREAK)])),
            7 => guarded(GUARDED_IF, vec![arm(constant(0), vec![]), arm(constant(1), vec![inner])]),
            8 => guarded(GUARDED_DO, vec![arm(self.leaf(), vec![inner])]),
            _ => while_loop(constant(1), block(vec![plain(EMPTY), inner, plain(BREAK)])),
        }
    }
}
