//! The expressions of both forms: their values, and the places that they name.

use super::{Fault, Machine, Stop};
use crate::table::*;

impl Machine<'_> {
    pub(super) fn expression(&mut self, at: i32) -> Result<i32, Stop> {
        let [kind, a, b, c, ..] = self.rows[at as usize];
        if kind == VARIABLE || kind == ELEMENT {
            let place = self.place(at)?;
            return Ok(self.store[place]);
        }
        self.enter()?;
        match kind {
            CONSTANT => Ok(a),
            MINUS => self.expression(a)?.checked_neg().ok_or(OVERFLOW),
            NOT => Ok((self.expression(a)? == 0) as i32),
            ADD..=UNEQUAL => {
                let right = self.expression(b)?;
                let left = self.expression(a)?;
                operate(kind, left, right)
            }
            AND => Ok((self.expression(a)? != 0 && self.expression(b)? != 0) as i32),
            OR => Ok((self.expression(a)? != 0 || self.expression(b)? != 0) as i32),
            CONDITIONAL => {
                if self.expression(a)? != 0 {
                    self.expression(b)
                } else {
                    self.expression(c)
                }
            }
            COMMA => {
                self.expression(a)?;
                self.expression(b)
            }
            ASSIGN => {
                let value = self.expression(b)?;
                let place = self.place(a)?;
                self.save(place, value);
                Ok(value)
            }
            ADD_ASSIGN..=REMAINDER_ASSIGN => {
                let value = self.expression(b)?;
                let place = self.place(a)?;
                let result = operate(kind - ADD_ASSIGN + ADD, self.store[place], value)?;
                self.save(place, result);
                Ok(result)
            }
            CALL => self.call(a, b),
            _ => {
                let place = self.place(a)?;
                let old = self.store[place];
                let new = match kind {
                    PRE_INCREMENT | POST_INCREMENT => old.checked_add(1),
                    _ => old.checked_sub(1),
                };
                let new = new.ok_or(OVERFLOW)?;
                self.save(place, new);
                Ok(if kind <= PRE_DECREMENT { new } else { old })
            }
        }
    }

    /// Enters a place and gives its position in the store: for an element the
    /// index is worked out, then the bounds are tested.
    fn place(&mut self, at: i32) -> Result<usize, Stop> {
        let [kind, a, b, ..] = self.rows[at as usize];
        self.enter()?;
        if kind == VARIABLE {
            return Ok(self.names.word(a as usize));
        }
        let index = self.expression(b)?;
        self.arrays[a as usize].word(index).ok_or(Stop::Fault(Fault::Index))
    }
}

const OVERFLOW: Stop = Stop::Fault(Fault::Overflow);

/// One of the kinds 6 to 16 on two values.
pub(crate) fn operate(kind: i32, left: i32, right: i32) -> Result<i32, Stop> {
    match kind {
        ADD => left.checked_add(right).ok_or(OVERFLOW),
        SUBTRACT => left.checked_sub(right).ok_or(OVERFLOW),
        MULTIPLY => left.checked_mul(right).ok_or(OVERFLOW),
        DIVIDE if right == 0 => Err(Stop::Fault(Fault::Zero)),
        DIVIDE => left.checked_div(right).ok_or(OVERFLOW),
        REMAINDER if right == 0 => Err(Stop::Fault(Fault::Zero)),
        // As the division: least % -1 overflows.
        REMAINDER => left.checked_rem(right).ok_or(OVERFLOW),
        LESS => Ok((left < right) as i32),
        GREATER => Ok((left > right) as i32),
        LESS_EQUAL => Ok((left <= right) as i32),
        GREATER_EQUAL => Ok((left >= right) as i32),
        EQUAL => Ok((left == right) as i32),
        _ => Ok((left != right) as i32),
    }
}
