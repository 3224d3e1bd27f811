//! What the check adds for jumps, marks, declarations and returns: that they stand in
//! their places, cause 7, and that a switch has no mark twice, cause 8. The kernel form
//! has no jumps and marks of these.

use super::{refuse_row, Standing};
use crate::form::Form;
use crate::table::*;

/// What a row stands inside of.
#[derive(Clone, Copy, Default)]
struct Inside {
    /// A loop, so that continue has its place.
    a_loop: bool,
    /// A loop or switch, so that break has its place.
    a_breakable: bool,
    /// A definition, so that return has its place.
    a_function: bool,
}

/// Cause 7. A row's owner is an earlier row, so that one pass is enough.
pub fn check_places(form: Form, rows: &[Row], standings: &[Standing]) -> Result<(), Refusal> {
    let mut inside = vec![Inside::default(); rows.len()];
    for at in 1..rows.len() {
        let owner = standings[at].owner;
        let kind = rows[owner][0];
        let a_loop = inside[owner].a_loop || is_loop(kind);
        let a_breakable = inside[owner].a_breakable || is_loop(kind) || kind == SWITCH;
        let a_function = inside[owner].a_function || kind == DEFINE;
        inside[at] = Inside { a_loop, a_breakable, a_function };
        let in_place = match rows[at][0] {
            BREAK => a_breakable,
            CONTINUE => a_loop,
            // The statements that a switch owns are the items of its list.
            CASE | DEFAULT => kind == SWITCH,
            // So are those that a block owns; the declarations that a definition owns are its
            // parameters. In the kernel another one is no statement of its form, 12.
            DECLARE => kind == BLOCK || kind == DEFINE || form == Form::Kernel,
            RETURN => a_function,
            _ => true,
        };
        if !in_place {
            return Err(Refusal::new(7, at));
        }
    }
    Ok(())
}

/// Cause 8: the lowest row, of all switches, that repeats a mark of its own switch.
pub fn check_repeated_marks(rows: &[Row]) -> Result<(), Refusal> {
    let switches = rows.iter().filter(|row| row[0] == SWITCH);
    refuse_row(8, switches.filter_map(|row| repeated_mark(rows, row[2])).min())
}

/// The first item of a list, which begins with the given one, that repeats a mark. Items of one
/// list follow in order of their rows.
fn repeated_mark(rows: &[Row], first: i32) -> Option<usize> {
    let mut values = Vec::new();
    let mut defaults = 0;
    list(rows, first).find(|&item| match rows[item][0] {
        CASE => {
            let seen = values.contains(&rows[item][1]);
            values.push(rows[item][1]);
            seen
        }
        DEFAULT => {
            defaults += 1;
            defaults > 1
        }
        _ => false,
    })
}
