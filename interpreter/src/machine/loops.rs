//! The loops of the source form, and the arms of its guarded statements.

use super::{Flow, Machine, Stop};

impl Machine<'_> {
    // The three loops are parts of `statement` written apart, and compiled as such.

    #[inline(always)]
    pub(super) fn while_loop(&mut self, test: i32, body: i32) -> Result<Flow, Stop> {
        while self.expression(test)? != 0 {
            if let Some(flow) = self.statement(body)?.out_of_loop() {
                return Ok(flow);
            }
        }
        Ok(Flow::On)
    }

    #[inline(always)]
    pub(super) fn do_loop(&mut self, body: i32, test: i32) -> Result<Flow, Stop> {
        loop {
            if let Some(flow) = self.statement(body)?.out_of_loop() {
                return Ok(flow);
            }
            if self.expression(test)? == 0 {
                break;
            }
        }
        Ok(Flow::On)
    }

    #[inline(always)]
    pub(super) fn for_loop(
        &mut self,
        start: i32,
        test: i32,
        step: i32,
        body: i32,
    ) -> Result<Flow, Stop> {
        if start != 0 {
            self.expression(start)?;
        }
        while test == 0 || self.expression(test)? != 0 {
            if let Some(flow) = self.statement(body)?.out_of_loop() {
                return Ok(flow);
            }
            if step != 0 {
                self.expression(step)?;
            }
        }
        Ok(Flow::On)
    }

    /// Enters the arms from the given one on until a guard is true, and runs its block; none where
    /// no guard is true.
    pub(super) fn arms(&mut self, first: i32) -> Result<Option<Flow>, Stop> {
        let mut arm = first;
        while arm != 0 {
            let [_, guard, block, .., next] = self.rows[arm as usize];
            self.enter()?;
            if self.expression(guard)? != 0 {
                return self.statement(block).map(Some);
            }
            arm = next;
        }
        Ok(None)
    }
}
