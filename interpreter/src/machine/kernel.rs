//! The statements of the kernel form: gotos take the place of break and continue.

use super::{Fault, Flow, Machine, Stop};
use crate::table::*;

impl Machine<'_> {
    pub(super) fn kernel_statement(&mut self, at: i32) -> Result<Flow, Stop> {
        let [kind, a, b, c, ..] = self.rows[at as usize];
        self.enter()?;
        match kind {
            EXPRESSION => self.expression(a).map(|_| Flow::On),
            BLOCK => self.kernel_list(a),
            IF => {
                let branch = if self.expression(a)? != 0 { b } else { c };
                self.kernel_statement(branch)
            }
            WHILE => {
                while self.expression(a)? != 0 {
                    if let Some(flow) = self.kernel_statement(b)?.out_of_loop() {
                        return Ok(flow);
                    }
                }
                Ok(Flow::On)
            }
            GOTO => Ok(Flow::Goto(a)),
            RETURN => self.returned(a),
            ABORT => Err(Stop::Fault(Fault::Guard)),
            // Empty and label: the step alone.
            _ => Ok(Flow::On),
        }
    }

    /// A goto goes on at its label where that is a later item; else it leaves the list, as a return
    /// does. Definitions are passed over.
    fn kernel_list(&mut self, first: i32) -> Result<Flow, Stop> {
        let mut item = first;
        while item != 0 {
            let [kind, .., next] = self.rows[item as usize];
            let flow = if kind == DEFINE { Flow::On } else { self.kernel_statement(item)? };
            item = match flow {
                Flow::On => next,
                Flow::Goto(label) => self.label(next, label),
                _ => 0,
            };
            if item == 0 {
                return Ok(flow);
            }
        }
        Ok(Flow::On)
    }

    /// The label of this number from the given item on, or 0.
    fn label(&self, first: i32, label: i32) -> i32 {
        let is_label = |&at: &usize| self.rows[at][..2] == [LABEL, label];
        list(self.rows, first).find(is_label).map_or(0, |at| at as i32)
    }
}
