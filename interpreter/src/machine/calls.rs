//! Calls and returns, of both forms (document 02, change 13).

use super::{Flow, Machine, Stop};
use crate::table::*;

impl Machine<'_> {
    /// Calls the function of this number. All arguments are worked out before a parameter is stored.
    pub(super) fn call(&mut self, number: i32, first: i32) -> Result<i32, Stop> {
        let values = self.arguments(first)?;
        let [_, _, parameter, body, ..] = self.rows[self.functions[number as usize]];
        let caller = self.names.enter_function();
        for (parameter, value) in list(self.rows, parameter).zip(values) {
            let word = self.names.declare(parameter, self.rows[parameter][1] as usize);
            self.save(word, value);
        }
        let flow = self.block_of_form(body)?;
        self.names.leave_function(caller);
        match flow {
            Flow::Return(value) => Ok(value),
            _ => Ok(0),
        }
    }

    /// The values of the arguments from this one on, which are worked out from the last to the first.
    fn arguments(&mut self, first: i32) -> Result<Vec<i32>, Stop> {
        let mut arguments: Vec<usize> = list(self.rows, first).collect();
        arguments.reverse();
        let mut values = Vec::with_capacity(arguments.len());
        for argument in arguments {
            self.enter()?;
            values.push(self.expression(self.rows[argument][1])?);
        }
        values.reverse();
        Ok(values)
    }

    /// A return with this expression, or with 0.
    pub(super) fn returned(&mut self, value: i32) -> Result<Flow, Stop> {
        let value = if value == 0 { 0 } else { self.expression(value)? };
        Ok(Flow::Return(value))
    }
}
