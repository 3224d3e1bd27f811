//! Damages to the rows of arms: causes 4 and 5.

use super::table::{rows_where, some_row};
use crate::form::Form::Source;
use crate::random::Random;
use crate::table::*;
use crate::tree::link_fields;

/// An arm elsewhere, another kind among arms, an arm's block that is none.
pub fn damage(random: &mut Random, rows: &mut Vec<Row>) {
    let arms = rows_where(rows, |row| row[0] == ARM);
    let Some(at) = some_row(random, &arms) else {
        return arm_alone(random, rows);
    };
    let later = |fits: &dyn Fn(&Row) -> bool| {
        let found = rows_where(rows, fits).into_iter().filter(|&row| row > at);
        found.collect::<Vec<usize>>()
    };
    match random.below(9) {
        // A while and an if without else have the fields of an arm.
        0 | 1 => rows[at][0] = random.pick(&[WHILE, IF]),
        2 => rows[at][0] = random.pick(&[ADD, COMMA, BLOCK, GUARDED_IF, GUARDED_DO, EMPTY]),
        3 => {
            let likely = rows_where(rows, |row| row[0] == WHILE || (row[0] == IF && row[3] == 0));
            if let Some(other) = some_row(random, &likely) {
                rows[other][0] = ARM;
            }
        }
        // The arm as an item, a branch or a body.
        4 | 5 => {
            let owners = rows_where(&rows[..at], |row| Source.is_statement(row[0]));
            let Some(owner) = some_row(random, &owners) else { return };
            let field = random.pick(&link_fields(&rows[owner]));
            rows[owner][field] = at as i32;
        }
        6 => {
            let others = later(&|row| Source.is_statement(row[0]) && row[0] != BLOCK);
            match some_row(random, &others) {
                Some(other) => rows[at][2] = other as i32,
                None => rows[at][2] = 0,
            }
        }
        7 => {
            let others = later(&|row| row[0] != ARM);
            if let Some(other) = some_row(random, &others) {
                rows[at][NEXT] = other as i32;
            }
        }
        _ => {
            let block = rows[at][2];
            if let Some(row) = usize::try_from(block).ok().and_then(|block| rows.get_mut(block)) {
                row[0] = random.pick(&[EMPTY, SWITCH, GUARDED_IF, GUARDED_DO, ARM]);
            }
        }
    }
}

/// Arms, linked and not, behind a program without any.
fn arm_alone(random: &mut Random, rows: &mut Vec<Row>) {
    let n = rows.len() as i32;
    let arm = [ARM, n + 1, n + 2, 0, 0, 0];
    let parts = [[CONSTANT, 1, 0, 0, 0, 0], [BLOCK, 0, 0, 0, 0, 0]];
    let owners = rows_where(rows, |row| Source.is_statement(row[0]) && row[NEXT] == 0);
    if let Some(owner) = some_row(random, &owners) {
        rows[owner][NEXT] = n;
    }
    match random.below(3) {
        0 => rows.push(arm),
        1 => {
            rows.push([random.pick(&[GUARDED_IF, GUARDED_DO]), n + 1, 0, 0, 0, 0]);
            rows.push([ARM, n + 2, n + 3, 0, 0, 0]);
        }
        _ => rows.push([random.pick(&[GUARDED_IF, GUARDED_DO, ARM, ABORT]), 0, 0, 0, 0, 0]),
    }
    rows.extend(parts);
}
