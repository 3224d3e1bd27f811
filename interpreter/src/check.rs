//! The check of both forms: the causes in order of number, then of row. Causes
//! 1 to 7, 9, 19, 23 and 24 are those of both; the source form adds 8, 18 and 20,
//! the kernel form 12 and 13.

mod declarations;
mod functions;
mod kernel;
mod marks;

use crate::form::Form;
use crate::table::*;

pub fn check(form: Form, header: &[i32], rows: &[i32]) -> Result<(), Refusal> {
    check_sizes(form, header, rows)?;
    let rows = rows_of(rows);
    check_kinds(form, rows)?;
    check_links(rows)?;
    let standings = check_linked_once(rows)?;
    check_numbers(form, header, rows)?;
    marks::check_places(form, rows, &standings)?;
    match form {
        Form::Source => {
            marks::check_repeated_marks(rows)?;
            check_depth(form, &standings)?;
            declarations::check_first_values(rows)?;
            declarations::check_repeated(rows)?;
            declarations::check_count(rows)?;
        }
        Form::Kernel => {
            check_depth(form, &standings)?;
            kernel::check_forms(rows, &standings)?;
            kernel::check_labels(rows, &standings)?;
            declarations::check_repeated(rows)?;
        }
    }
    functions::check_definitions(rows)?;
    functions::check_calls(rows, &standings)
}

/// Causes 1 and 2: all that a reader tests of the words, and a writer.
pub fn check_sizes(form: Form, header: &[i32], rows: &[i32]) -> Result<(), Refusal> {
    check_header(form, header)?;
    check_row_count(form, rows)
}

/// The refusal with this number and the row that was found, if one was.
fn refuse_row(number: u32, row: Option<usize>) -> Result<(), Refusal> {
    row.map_or(Ok(()), |at| Err(Refusal::new(number, at)))
}

/// Cause 1.
pub fn check_header(form: Form, header: &[i32]) -> Result<(), Refusal> {
    let well = header.len() >= form.leading_words()
        && (0..=MAX_VARIABLES).contains(&header[0])
        && (0..=MAX_DECLARED).contains(&form.declared_by_header(header))
        && (0..=MAX_TEMPORARIES).contains(&form.temporaries(header))
        && form.lengths(header).len() <= MAX_ARRAYS
        && form.lengths(header).iter().all(|n| (1..=MAX_LENGTH).contains(n))
        && form.size(header) <= MAX_STORE;
    if well {
        Ok(())
    } else {
        Err(Refusal::new(1, 0))
    }
}

/// Cause 2.
pub fn check_row_count(form: Form, rows: &[i32]) -> Result<(), Refusal> {
    let n = rows.len() / WORDS;
    if rows.len().is_multiple_of(WORDS) && (1..=form.max_rows()).contains(&n) {
        Ok(())
    } else {
        Err(Refusal::new(2, 0))
    }
}

/// Cause 3: the kinds and the unused fields. The next of an expression is unused.
fn check_kinds(form: Form, rows: &[Row]) -> Result<(), Refusal> {
    for (at, row) in rows.iter().enumerate() {
        let refusal = Refusal::new(3, at);
        let fields = form.fields(row[0]).ok_or(refusal)?;
        for (field, &word) in fields.iter().zip(&row[1..NEXT]) {
            if *field == Field::Unused && word != 0 {
                return Err(refusal);
            }
        }
        if is_expression(row[0]) && row[NEXT] != 0 {
            return Err(refusal);
        }
    }
    Ok(())
}

/// The fields of a row whose kind is in the language; from cause 4 on each row's is.
fn known_fields(row: &Row) -> [Field; 4] {
    fields(row[0]).unwrap_or([Field::Unused; 4])
}

/// Cause 4.
fn check_links(rows: &[Row]) -> Result<(), Refusal> {
    let parameters = parameters(rows);
    let well = |at: usize| {
        let (fields, next) = match parameters[at] {
            true => (PARAMETER_FIELDS, Field::FirstParameter),
            false => (known_fields(&rows[at]), next_field(rows[at][0])),
        };
        let mut links = fields.into_iter().chain([next]).zip(&rows[at][1..]);
        links.all(|(field, &link)| is_well(rows, at, field, link))
    };
    refuse_row(4, (0..rows.len()).find(|&at| !well(at)))
}

/// Whether the link of a row is to a later row of the sort that the field asks for.
fn is_well(rows: &[Row], at: usize, field: Field, link: i32) -> bool {
    if !field.is_link() || (link == 0 && field.may_be_absent()) {
        return true;
    }
    later_row(rows, at, link)
        .is_some_and(|target| field.fits(target[0]) && !(field.is_branch() && target[NEXT] != 0))
}

/// Which rows are parameters: those of kind 58 that a definition links by its b, or a parameter by
/// its next. Links are to later rows, so that one pass is enough.
fn parameters(rows: &[Row]) -> Vec<bool> {
    let mut parameters = vec![false; rows.len()];
    for (at, row) in rows.iter().enumerate() {
        let link = match row[0] {
            DEFINE => row[2],
            _ if parameters[at] => row[NEXT],
            _ => continue,
        };
        if later_row(rows, at, link).is_some_and(|target| target[0] == DECLARE) {
            parameters[link as usize] = true;
        }
    }
    parameters
}

fn later_row(rows: &[Row], at: usize, link: i32) -> Option<&Row> {
    let link = usize::try_from(link).ok()?;
    if link > at {
        rows.get(link)
    } else {
        None
    }
}

/// Where a row stands in the tree of rows.
#[derive(Clone, Copy, Default)]
struct Standing {
    depth: u32,
    /// The row that owns this one or its list.
    owner: usize,
}

/// Cause 5, and where each row stands. Each link is to a later row by now, so
/// that one pass is enough.
fn check_linked_once(rows: &[Row]) -> Result<Vec<Standing>, Refusal> {
    if rows[0][0] != BLOCK || rows[0][NEXT] != 0 {
        return Err(Refusal::new(5, 0));
    }
    let mut linked = vec![0u32; rows.len()];
    let mut standings = vec![Standing::default(); rows.len()];
    standings[0].depth = 1;
    for (at, row) in rows.iter().enumerate() {
        let own = standings[at];
        let below = Standing { depth: own.depth + 1, owner: at };
        for (field, &link) in known_fields(row).iter().zip(&row[1..NEXT]) {
            if field.is_link() && link != 0 {
                linked[link as usize] += 1;
                standings[link as usize] = below;
            }
        }
        if row[NEXT] != 0 {
            linked[row[NEXT] as usize] += 1;
            standings[row[NEXT] as usize] = own;
        }
    }
    match (1..rows.len()).find(|&at| linked[at] != 1) {
        Some(at) => Err(Refusal::new(5, at)),
        None => Ok(standings),
    }
}

/// Cause 6. Declared words and temporaries are variable numbers from S on; V to S-1 name nothing. A
/// declaration of the source names a variable, a parameter of the kernel a declared word.
fn check_numbers(form: Form, header: &[i32], rows: &[Row]) -> Result<(), Refusal> {
    let variables = 0..header[0];
    let behind = form.numbers_behind(header);
    let declared = match form {
        Form::Source => variables.clone(),
        Form::Kernel => behind.start..behind.start + form.declared_by_header(header),
    };
    let arrays = 0..form.lengths(header).len() as i32;
    let within = |row: &Row| match row[0] {
        VARIABLE => variables.contains(&row[1]) || behind.contains(&row[1]),
        DECLARE => declared.contains(&row[1]),
        ELEMENT => arrays.contains(&row[1]),
        GOTO | LABEL => (0..LABELS).contains(&row[1]),
        _ => true,
    };
    refuse_row(6, rows.iter().position(|row| !within(row)))
}

/// Cause 9.
fn check_depth(form: Form, standings: &[Standing]) -> Result<(), Refusal> {
    let most = form.max_depth();
    refuse_row(9, standings.iter().position(|standing| standing.depth > most))
}
