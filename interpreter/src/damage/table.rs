//! Damages to the header and the rows: causes 1 to 6, and any word.

use super::{arguments, arms, Damage};
use crate::form::Form::Source;
use crate::random::Random;
use crate::table::*;
use crate::tree::link_fields;

/// A row, low, high or anywhere.
pub fn some_row(random: &mut Random, candidates: &[usize]) -> Option<usize> {
    let n = candidates.len();
    if n == 0 {
        return None;
    }
    let chosen = match random.below(4) {
        0 => random.below(n.div_ceil(4)),
        1 => n - 1 - random.below(n.div_ceil(4)),
        _ => random.below(n),
    };
    Some(candidates[chosen])
}

pub fn rows_where(rows: &[Row], fits: impl Fn(&Row) -> bool) -> Vec<usize> {
    (0..rows.len()).filter(|&at| fits(&rows[at])).collect()
}

pub fn damage_table(random: &mut Random, header: &mut Vec<i32>, rows: &mut Vec<Row>, pick: Damage) {
    match pick {
        Damage::Header => damage_header(random, header),
        Damage::NoRows => {
            let kept = random.pick(&[0, 0, 1, rows.len() / 2, rows.len().saturating_sub(1)]);
            rows.truncate(kept);
        }
        Damage::Kind => damage_kind(random, rows),
        Damage::Unused => damage_unused(random, rows),
        Damage::Link => damage_link(random, rows),
        Damage::BranchNext => damage_branch_next(random, rows),
        Damage::Linked => damage_linked(random, rows),
        Damage::Arm => arms::damage(random, rows),
        Damage::Argument => arguments::damage(random, rows),
        Damage::Number => damage_number(random, header, rows),
        Damage::AnyWord => any_word(random, rows),
        Damage::Swap => swap(random, rows),
        _ => {}
    }
}

fn damage_header(random: &mut Random, header: &mut Vec<i32>) {
    match random.below(16) {
        0 => header[0] = -1,
        1 => header[0] = MAX_VARIABLES + 1,
        2 => header[0] = random.pick(&[i32::MIN, i32::MAX, 1_000]),
        3 => header.push(0),
        4 => header.push(MAX_LENGTH + 1),
        5 => header.push(random.pick(&[-1, i32::MIN, i32::MAX])),
        6 => header.extend([MAX_LENGTH, MAX_LENGTH, 1]),
        7 => header.extend([i32::MAX, i32::MAX, i32::MAX]),
        8 => {
            // One word more than the store may have.
            let size = Source.size(header);
            header.push(MAX_LENGTH);
            header.push((MAX_STORE + 1 - size) as i32 - MAX_LENGTH);
        }
        9 => header.insert(1, 0),
        10 => header.resize(1 + MAX_ARRAYS, MAX_LENGTH),
        // Legal extremes.
        11 => header[0] = MAX_VARIABLES,
        12 => header.resize(1 + MAX_ARRAYS, 1),
        13 if random.chance(15) => {
            let size = Source.size(header);
            header.push(MAX_LENGTH);
            header.push((MAX_STORE - size) as i32 - MAX_LENGTH);
        }
        _ => header.push(random.between(1, 9)),
    }
}

fn damage_kind(random: &mut Random, rows: &mut [Row]) {
    let all = rows_where(rows, |_| true);
    let Some(at) = some_row(random, &all) else { return };
    rows[at][0] = match random.below(4) {
        0 => random.pick(&[GOTO, LABEL, ABORT, ABORT]),
        1 => random.pick(&[0, 39, LAST_KIND + 1, CALL, ARGUMENT, DECLARE, DEFINE, RETURN]),
        2 => random.between(33, 39),
        _ => random.pick(&[-1, i32::MIN, i32::MAX, 100, 257, -42]),
    };
}

fn damage_unused(random: &mut Random, rows: &mut [Row]) {
    let all = rows_where(rows, |row| Source.fields(row[0]).is_some());
    let Some(at) = some_row(random, &all) else { return };
    let fields = Source.fields_or_unused(rows[at][0]);
    let mut unused: Vec<usize> = (1..NEXT).filter(|&i| fields[i - 1] == Field::Unused).collect();
    if is_expression(rows[at][0]) {
        unused.extend([NEXT, NEXT]);
    }
    if !unused.is_empty() {
        let next = at as i32 + 1;
        rows[at][random.pick(&unused)] = random.pick(&[1, -1, next, next, i32::MIN, i32::MAX]);
    }
}

fn damage_link(random: &mut Random, rows: &mut [Row]) {
    let all = rows_where(rows, |row| !link_fields(row).is_empty());
    let Some(at) = some_row(random, &all) else { return };
    let field = random.pick(&link_fields(&rows[at]));
    let n = rows.len() as i32;
    let own = at as i32;
    rows[at][field] = match random.below(12) {
        0 => 0,
        1 => -1,
        2 => own,
        3 => own - 1,
        4 => random.between(0, own),
        5 => n,
        6 => n + 1,
        7 => random.pick(&[i32::MIN, i32::MAX, -n, -rows[at][field]]),
        // A later row of any sort.
        _ if own + 1 < n => random.between(own + 1, n - 1),
        _ => n,
    };
}

fn damage_branch_next(random: &mut Random, rows: &mut [Row]) {
    let owners = rows_where(rows, |row| matches!(row[0], IF | WHILE | DO | FOR | ARM | DEFINE));
    let Some(at) = some_row(random, &owners) else { return };
    let branch = match rows[at][0] {
        DEFINE => rows[at][3],
        IF if rows[at][3] != 0 && random.chance(50) => rows[at][3],
        IF | WHILE | ARM => rows[at][2],
        DO => rows[at][1],
        _ => rows[at][4],
    };
    let n = rows.len() as i32;
    if branch > 0 && branch < n {
        let later = rows_where(rows, |row| Source.is_statement(row[0]));
        let later = later.into_iter().filter(|&row| row as i32 > branch).collect::<Vec<_>>();
        rows[branch as usize][NEXT] = match some_row(random, &later) {
            Some(row) if random.chance(70) => row as i32,
            _ => random.pick(&[-1, n, branch, 1]),
        };
    }
}

fn damage_linked(random: &mut Random, rows: &mut Vec<Row>) {
    let n = rows.len() as i32;
    match random.below(7) {
        0 => rows.push([CONSTANT, 3, 0, 0, 0, 0]),
        1 => rows.push([EMPTY, 0, 0, 0, 0, 0]),
        2 => rows.extend([[EXPRESSION, n + 1, 0, 0, 0, 0], [CONSTANT, 3, 0, 0, 0, 0]]),
        3 if n > 0 => {
            // Row 0 gets a next item.
            rows[0][NEXT] = n;
            rows.push([EMPTY, 0, 0, 0, 0, 0]);
        }
        4 => cut_link(random, rows),
        _ => move_link(random, rows),
    }
}

/// An optional link goes.
fn cut_link(random: &mut Random, rows: &mut [Row]) {
    let optional = |row: &Row| {
        (row[0] == IF && row[3] != 0)
            || (row[0] == FOR && row[1..4] != [0, 0, 0])
            || (matches!(row[0], GUARDED_IF | GUARDED_DO | RETURN) && row[1] != 0)
            || (matches!(row[0], CALL | DEFINE) && row[2] != 0)
            || (!is_expression(row[0]) && row[NEXT] != 0)
    };
    let owners = rows_where(rows, optional);
    let Some(at) = some_row(random, &owners) else { return };
    match rows[at][0] {
        IF => rows[at][3] = 0,
        FOR => rows[at][random.pick(&[1, 2, 3])] = 0,
        GUARDED_IF | GUARDED_DO | RETURN if random.chance(50) => rows[at][1] = 0,
        CALL | DEFINE => rows[at][2] = 0,
        _ => rows[at][NEXT] = 0,
    }
}

/// A link goes to another row of the same sort.
fn move_link(random: &mut Random, rows: &mut [Row]) {
    let all = rows_where(rows, |row| !link_fields(row).is_empty());
    let Some(at) = some_row(random, &all) else { return };
    let field = random.pick(&link_fields(&rows[at]));
    let wanted = match field {
        NEXT => next_field(rows[at][0]),
        _ => Source.fields_or_unused(rows[at][0])[field - 1],
    };
    let fits = |other: &usize| {
        *other > at
            && Source.fields(rows[*other][0]).is_some()
            && wanted.fits(rows[*other][0])
            && !(wanted.is_branch() && rows[*other][NEXT] != 0)
    };
    let others: Vec<usize> = (0..rows.len()).filter(fits).collect();
    if let Some(other) = some_row(random, &others) {
        rows[at][field] = other as i32;
    }
}

fn damage_number(random: &mut Random, header: &mut Vec<i32>, rows: &mut [Row]) {
    let size = Source.size(header).clamp(0, 10_000) as i32;
    match random.below(10) {
        0 => header[0] = (header[0] - 1).max(0),
        1 if header.len() > 1 => {
            header.pop();
        }
        _ => {
            let kind = random.pick(&[VARIABLE, VARIABLE, ELEMENT, DECLARE]);
            let places = rows_where(rows, |row| row[0] == kind);
            let Some(at) = some_row(random, &places) else { return };
            let limit = match kind {
                VARIABLE | DECLARE => header[0],
                _ => header.len() as i32 - 1,
            };
            let past = limit.saturating_add(1);
            rows[at][1] =
                random.pick(&[-1, limit, limit, past, size, size - 1, i32::MIN, i32::MAX]);
        }
    }
}

/// A change of any word, or of a kind into a kind of the same fields, or a row
/// lost or doubled.
fn any_word(random: &mut Random, rows: &mut Vec<Row>) {
    let all = rows_where(rows, |_| true);
    let Some(at) = some_row(random, &all) else { return };
    let n = rows.len() as i32;
    match random.below(10) {
        0 => {
            rows.remove(at);
        }
        1 => rows.insert(at, rows[at]),
        2..=5 => {
            let same = Source.fields(rows[at][0]);
            let kinds: Vec<i32> = (1..=LAST_KIND)
                .filter(|&kind| {
                    Source.fields(kind) == same
                        && Source.is_statement(kind) == Source.is_statement(rows[at][0])
                })
                .collect();
            if !kinds.is_empty() {
                rows[at][0] = random.pick(&kinds);
            }
        }
        _ => {
            let value = random.between(0, 60);
            rows[at][random.below(WORDS)] =
                random.pick(&[0, 0, 1, -1, n - 1, n, at as i32 + 1, value]);
        }
    }
}

/// Two rows change places, and the links follow.
fn swap(random: &mut Random, rows: &mut [Row]) {
    let n = rows.len();
    if n < 3 {
        return;
    }
    let low = 1 + random.below(n - 2);
    let high = match random.chance(60) {
        true => low + 1,
        false => low + 1 + random.below(n - 1 - low),
    };
    rows.swap(low, high);
    for row in rows.iter_mut() {
        for field in link_fields(row) {
            let link = row[field];
            if link == low as i32 {
                row[field] = high as i32;
            } else if link == high as i32 {
                row[field] = low as i32;
            }
        }
    }
}
