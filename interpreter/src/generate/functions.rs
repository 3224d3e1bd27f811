//! Generated functions: a few at the head of a program, of none to 64 parameters;
//! calls as operands, indices, arguments and guards, most of them of functions that
//! write what is read around the call; returns out of nests; chains of calls.

use super::maker::Outside;
use super::Maker;
use crate::table::*;
use crate::tree::*;
use std::collections::BTreeSet;

/// What calls of a function depend on.
pub struct Function {
    parameters: usize,
    /// The variables of the header that it can write.
    writes: BTreeSet<i32>,
    /// About how many statements a call runs.
    work: i32,
}

/// Calls that run more statements than this, all rounds of the loops around counted, are not made.
const MOST_WORK: i32 = 250;

impl Maker<'_> {
    pub fn has_functions(&self) -> bool {
        !self.functions.is_empty()
    }

    /// So many definitions, each of which may call those before it.
    pub fn definitions(&mut self, count: usize) -> Vec<Tree> {
        (0..count).map(|_| self.definition()).collect()
    }

    fn definition(&mut self) -> Tree {
        let parameters = self.parameters();
        let outside = Outside::leave(self);
        self.in_function = true;
        // Some functions write nothing but their parameters.
        if !parameters.is_empty() && self.random.chance(40) {
            self.writable = Some(parameters.clone());
        }
        self.room = self.random.pick(&[2, 6, 10, 10, 16, 28]);
        let items = self.body_items(&parameters);
        let work = self.work;
        outside.enter(self);
        self.defined(&parameters, items, work)
    }

    /// The items of a function: its last returns a value, more often than not.
    fn body_items(&mut self, parameters: &[i32]) -> Vec<Tree> {
        // The parameters are the first items, as far as declarations are concerned.
        let mut items: Vec<Tree> = parameters.iter().map(|&number| parameter(number)).collect();
        while self.room > 0 {
            self.statement(&mut items, 2);
        }
        if self.random.chance(25) {
            items.push(self.return_out_of_nest());
        }
        if self.random.chance(75) {
            items.push(self.give_back(2));
        }
        self.declare_among(&mut items, parameters.len());
        items.split_off(parameters.len())
    }

    /// A return, at times under a test, inside of loops, switches and guarded statements.
    fn return_out_of_nest(&mut self) -> Tree {
        let mut nest = self.jump(RETURN);
        for _ in 0..self.random.pick(&[1, 2, 2, 3, 4]) {
            self.room -= 3;
            nest = self.wrap_statement(nest);
        }
        nest
    }

    /// The definition of the next function; it may be called from now on.
    fn defined(&mut self, parameters: &[i32], items: Vec<Tree>, work: i32) -> Tree {
        let number = self.functions.len() as i32;
        let mut tree = define(number, parameters, items);
        let mut writes = BTreeSet::new();
        tree.each(&mut |tree| self.add_writes(tree, parameters, &mut writes));
        self.functions.push(Function { parameters: parameters.len(), writes, work });
        tree
    }

    /// Adds what the row of a tree can write, of the variables that are not the function's own.
    fn add_writes(&self, tree: &Tree, own: &[i32], writes: &mut BTreeSet<i32>) {
        match (tree.kind, &tree.parts[0]) {
            (ASSIGN..=POST_DECREMENT, Part::One(place)) => match (place.kind, &place.parts[0]) {
                (VARIABLE, Part::Number(number)) if !own.contains(number) => {
                    writes.insert(*number);
                }
                _ => {}
            },
            (CALL, Part::Number(function)) => {
                writes.extend(&self.functions[*function as usize].writes);
            }
            _ => {}
        }
    }

    /// The numbers of parameters: different ones, and with the declarations at most 64 in a program.
    fn parameters(&mut self) -> Vec<i32> {
        // As many as can be, in a program that has the variables for it.
        let most = 50 * usize::from(self.variables >= MAX_DECLARED);
        let few = &[(most, MAX_DECLARED), (22, 0), (32, 1), (28, 2), (12, 3), (6, 4)];
        let wanted = self.random.weighted(few);
        let wanted = wanted.min(self.variables).min(MAX_DECLARED - self.declared);
        let mut numbers: Vec<i32> = (0..self.variables).collect();
        let mut parameters = Vec::new();
        for _ in 0..wanted {
            parameters.push(numbers.swap_remove(self.random.below(numbers.len())));
        }
        self.declared += wanted;
        self.declarations = self.declarations.min(MAX_DECLARED - self.declared);
        parameters
    }

    /// A return, mostly with a value.
    pub fn give_back(&mut self, level: i32) -> Tree {
        self.room -= 1;
        match self.random.chance(85) {
            true => give_back(Some(self.value(level))),
            false => give_back(None),
        }
    }

    /// A call of some function, or a leaf where none should be called here.
    pub fn any_call(&mut self, level: i32) -> Tree {
        let number = self.random.below(self.functions.len());
        self.call_of(number, level).unwrap_or_else(|| self.leaf())
    }

    /// A call, unless it takes long; seldom one that writes what counts the rounds of a loop around.
    fn call_of(&mut self, number: usize, level: i32) -> Option<Tree> {
        let function = &self.functions[number];
        let counts = self.counters.iter().any(|counter| function.writes.contains(counter));
        let work = self.rounds.saturating_mul(function.work);
        let parameters = function.parameters;
        if work > MOST_WORK || (counts && !self.random.chance(3)) {
            return None;
        }
        self.work = self.work.saturating_add(work);
        self.room -= 1 + parameters as i32;
        let level = if parameters > 4 { 0 } else { level - 1 };
        let arguments = (0..parameters).map(|_| self.argument(level)).collect();
        Some(call(number as i32, arguments))
    }

    fn argument(&mut self, level: i32) -> Tree {
        match self.random.below(6) {
            0 if level >= 0 => self.effect_or_leaf(level),
            1 | 2 if self.variables > 0 => {
                self.room -= 1;
                variable(self.read_variable())
            }
            _ => self.expression(level),
        }
    }

    /// A variable that a call can write, beside that call: as operand, index or argument.
    pub fn aliased_call(&mut self, level: i32) -> Tree {
        let number = self.random.below(self.functions.len());
        let Some(called) = self.call_of(number, level) else { return self.leaf() };
        let writes: Vec<i32> = self.functions[number].writes.iter().copied().collect();
        if writes.is_empty() {
            return called;
        }
        self.room -= 3;
        let written = variable(self.random.pick(&writes));
        match self.random.below(9) {
            0 | 1 => binary(self.calm_operator(), called, written),
            2 => binary(self.calm_operator(), written, called),
            3 => binary(self.random.pick(&[AND, OR, COMMA]), called, written),
            4 => binary(self.random.pick(&[ADD_ASSIGN, SUBTRACT_ASSIGN]), written, called),
            5 => conditional(written.clone(), called, written),
            6 if !self.lengths.is_empty() => {
                let array = self.array();
                let last = self.lengths[array as usize] - 1;
                let index = binary(COMMA, called, self.inside(0, last, level - 1));
                assign(element(array, index), written)
            }
            7 => self.call_beside(called, written),
            _ => assign(written, called),
        }
    }

    /// Both as arguments of one call, in either order, where a function has two parameters.
    fn call_beside(&mut self, called: Tree, written: Tree) -> Tree {
        let Some(number) = self.functions.iter().position(|function| function.parameters == 2)
        else {
            return binary(self.calm_operator(), called, written);
        };
        match self.random.chance(50) {
            true => call(number as i32, vec![called, written]),
            false => call(number as i32, vec![written, called]),
        }
    }

    /// A call with this argument among the others, of a function that has some.
    pub fn wrap_call(&mut self, inner: Tree) -> Option<Tree> {
        let number = self.functions.iter().position(|f| (1..=4).contains(&f.parameters))?;
        let mut arguments: Vec<Tree> =
            (0..self.functions[number].parameters).map(|_| self.leaf()).collect();
        let position = self.random.below(arguments.len());
        arguments[position] = inner;
        Some(call(number as i32, arguments))
    }

    /// Functions each of which calls the one before it, up to hundreds; the last is called.
    pub fn chain_program(&mut self) -> Tree {
        let mut items = self.definitions(1);
        for _ in 0..self.random.pick(&[4, 12, 12, 40, 40, 250]) {
            items.push(self.link_of_chain());
        }
        self.room = 12;
        let last = self.functions.len() - 1;
        self.functions[last].work = 0;
        let mut main = self.list(1, 2);
        if let Some(called) = self.call_of(last, 1) {
            main.push(self.keep(called));
        }
        main.extend(self.list(1, 2));
        items.extend(main);
        block(items)
    }

    /// A function that calls the last one, and mostly returns what that gives.
    fn link_of_chain(&mut self) -> Tree {
        let last = self.functions.len() - 1;
        let parameters = if self.random.chance(20) { self.parameters() } else { Vec::new() };
        let own = parameters.first().map(|&number| variable(number));
        let arguments = (0..self.functions[last].parameters).map(|i| match &own {
            Some(own) if i == 0 => own.clone(),
            _ => self.constant_inside(-1, 3),
        });
        let called = call(last as i32, arguments.collect());
        let items = match self.random.below(8) {
            0 => vec![expression(called)],
            1 => vec![give_back(Some(binary(self.calm_operator(), called, self.leaf())))],
            2 => vec![do_loop(give_back(Some(called)), constant(1))],
            _ => vec![give_back(Some(called))],
        };
        self.defined(&parameters, items, 0)
    }

    /// The value stored in a place, or dropped.
    fn keep(&mut self, value: Tree) -> Tree {
        match self.has_places() && self.random.chance(80) {
            true => expression(assign(self.place(1), value)),
            false => expression(value),
        }
    }

    /// A statement that calls.
    pub fn calling(&mut self) -> Tree {
        let level = self.random.pick(&[1, 2, 3]);
        match self.random.below(5) {
            0..=2 => expression(self.aliased_call(level)),
            _ => {
                let called = self.any_call(level);
                self.keep(called)
            }
        }
    }
}
