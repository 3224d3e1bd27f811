//! The machine of both forms: plain recursive evaluation over the rows. What a
//! number names is kept as the run goes: a declaration gives it a new word, and
//! the end of its block gives the old one back.

mod calls;
mod expressions;
mod kernel;
mod loops;
mod names;

pub(crate) use expressions::operate;

use crate::check::check;
use crate::form::Form;
use crate::table::*;
use names::Names;

#[derive(Clone, Copy, Debug, PartialEq, Eq)]
pub enum Fault {
    Overflow,
    Zero,
    Index,
    Guard,
}

#[derive(Clone, Copy, Debug, PartialEq, Eq)]
pub enum Ending {
    Ended,
    Spent,
    Fault(Fault),
}

impl Ending {
    pub fn name(self) -> &'static str {
        match self {
            Ending::Ended => "ended",
            Ending::Spent => "spent",
            Ending::Fault(Fault::Overflow) => "overflow",
            Ending::Fault(Fault::Zero) => "zero",
            Ending::Fault(Fault::Index) => "index",
            Ending::Fault(Fault::Guard) => "guard",
        }
    }
}

/// The ending of a run and the number of steps made.
#[derive(Clone, Copy, Debug, PartialEq, Eq)]
pub struct Outcome {
    pub ending: Ending,
    pub count: u32,
}

/// Checks the program and the store's size, then runs.
pub fn run(
    form: Form,
    header: &[i32],
    rows: &[i32],
    store: &mut [i32],
    budget: u32,
) -> Result<Outcome, Refusal> {
    check(form, header, rows)?;
    if store.len() != form.store_words(header, rows) {
        return Err(Refusal::new(11, 0));
    }
    Ok(run_checked(form, header, rows, store, budget))
}

/// Runs a program that the check accepts, on a store of the form's words.
pub fn run_checked(
    form: Form,
    header: &[i32],
    rows: &[i32],
    store: &mut [i32],
    budget: u32,
) -> Outcome {
    run_watched(form, header, rows, store, budget, 0).0
}

/// The same run, and its writes to so many words from the first on, in order.
pub fn run_watched(
    form: Form,
    header: &[i32],
    rows: &[i32],
    store: &mut [i32],
    budget: u32,
    watched: usize,
) -> (Outcome, Vec<Write>) {
    let arrays = Array::all(header[0], form.lengths(header));
    let names = Names::new(form, header, rows);
    let rows = rows_of(rows);
    let functions = definitions(rows);
    let mut machine = Machine {
        form,
        rows,
        arrays: &arrays,
        functions: &functions,
        names,
        store,
        budget,
        count: 0,
        watched,
        writes: Vec::new(),
    };
    let ending = match machine.block_of_form(0) {
        Ok(_) => Ending::Ended,
        Err(Stop::Spent) => Ending::Spent,
        Err(Stop::Fault(fault)) => Ending::Fault(fault),
    };
    (Outcome { ending, count: machine.count }, machine.writes)
}

/// A store to a word that is watched, and how many steps were made by then.
#[derive(Clone, Copy, Debug, PartialEq, Eq)]
pub struct Write {
    pub place: usize,
    pub value: i32,
    pub step: u32,
}

/// Why a run stops before its end.
#[derive(Clone, Copy)]
pub(crate) enum Stop {
    Spent,
    Fault(Fault),
}

/// How a statement is left.
#[derive(Clone, Copy, PartialEq, Eq)]
enum Flow {
    On,
    Break,
    Continue,
    /// To this label; of the kernel form.
    Goto(i32),
    /// Out of the function, with this value.
    Return(i32),
}

impl Flow {
    /// How a loop is left whose body was left so; none where the next round comes.
    fn out_of_loop(self) -> Option<Flow> {
        match self {
            Flow::On | Flow::Continue => None,
            Flow::Break => Some(Flow::On),
            flow => Some(flow),
        }
    }
}

pub(crate) struct Array {
    start: usize,
    length: i32,
}

impl Array {
    /// The arrays lie behind the variables, in order.
    pub(crate) fn all(variables: i32, lengths: &[i32]) -> Vec<Array> {
        let mut arrays = Vec::with_capacity(MAX_ARRAYS);
        let mut start = variables as usize;
        for &length in lengths {
            arrays.push(Array { start, length });
            start += length as usize;
        }
        arrays
    }

    /// The store word of an element; none where the index is outside.
    pub(crate) fn word(&self, index: i32) -> Option<usize> {
        (0..self.length).contains(&index).then(|| self.start + index as usize)
    }
}

struct Machine<'a> {
    form: Form,
    rows: &'a [Row],
    arrays: &'a [Array],
    /// The rows of the definitions, by number.
    functions: &'a [usize],
    names: Names,
    store: &'a mut [i32],
    budget: u32,
    count: u32,
    watched: usize,
    writes: Vec<Write>,
}

impl Machine<'_> {
    /// One step: a row is entered.
    fn enter(&mut self) -> Result<(), Stop> {
        if self.count == self.budget {
            return Err(Stop::Spent);
        }
        self.count += 1;
        Ok(())
    }

    /// A store of an equal value is a write, too.
    fn save(&mut self, place: usize, value: i32) {
        self.store[place] = value;
        if place < self.watched {
            self.writes.push(Write { place, value, step: self.count });
        }
    }

    /// Runs row 0, or the block of a function.
    fn block_of_form(&mut self, at: i32) -> Result<Flow, Stop> {
        match self.form {
            Form::Source => self.statement(at),
            Form::Kernel => self.kernel_statement(at),
        }
    }

    fn statement(&mut self, at: i32) -> Result<Flow, Stop> {
        let [kind, a, b, c, d, _] = self.rows[at as usize];
        self.enter()?;
        match kind {
            EXPRESSION => {
                self.expression(a)?;
                Ok(Flow::On)
            }
            BLOCK => self.block(a),
            IF => {
                if self.expression(a)? != 0 {
                    self.statement(b)
                } else if c != 0 {
                    self.statement(c)
                } else {
                    Ok(Flow::On)
                }
            }
            WHILE => self.while_loop(a, b),
            DO => self.do_loop(a, b),
            FOR => self.for_loop(a, b, c, d),
            SWITCH => {
                let selector = self.expression(a)?;
                let mark = self.mark(b, selector);
                match self.list(mark)? {
                    Flow::Break => Ok(Flow::On),
                    flow => Ok(flow),
                }
            }
            GUARDED_IF => match self.arms(a)? {
                Some(flow) => Ok(flow),
                None => Err(Stop::Fault(Fault::Guard)),
            },
            GUARDED_DO => {
                while let Some(flow) = self.arms(a)? {
                    if flow != Flow::On {
                        return Ok(flow);
                    }
                }
                Ok(Flow::On)
            }
            DECLARE => {
                let value = self.expression(b)?;
                let word = self.names.declare(at as usize, a as usize);
                self.save(word, value);
                Ok(Flow::On)
            }
            BREAK => Ok(Flow::Break),
            CONTINUE => Ok(Flow::Continue),
            RETURN => self.returned(a),
            // Empty, case and default: the step alone.
            _ => Ok(Flow::On),
        }
    }

    /// Runs the items of a block; what they declare is named no longer behind it.
    fn block(&mut self, first: i32) -> Result<Flow, Stop> {
        let outer = self.names.declared();
        let flow = self.list(first)?;
        self.names.leave(outer);
        Ok(flow)
    }

    /// Runs the items of a list from the given one on; 0 is an empty list. Definitions are passed
    /// over.
    fn list(&mut self, first: i32) -> Result<Flow, Stop> {
        let mut item = first;
        while item != 0 {
            let [kind, .., next] = self.rows[item as usize];
            if kind != DEFINE {
                let flow = self.statement(item)?;
                if flow != Flow::On {
                    return Ok(flow);
                }
            }
            item = next;
        }
        Ok(Flow::On)
    }

    /// The case of equal value, else the default, else 0.
    fn mark(&self, first: i32, selector: i32) -> i32 {
        let mut default = 0;
        let mut item = first;
        while item != 0 {
            let row = &self.rows[item as usize];
            match row[0] {
                CASE if row[1] == selector => return item,
                DEFAULT => default = item,
                _ => {}
            }
            item = row[NEXT];
        }
        default
    }
}
