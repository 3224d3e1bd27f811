//! The case format and the answers.
//!
//! A case is a line of numbers parted by tabs (budget, length in bytes, start
//! words), then exactly that many bytes of program text. No start words mean a
//! store of zeros.

use crate::check::check;
use crate::flat;
use crate::form::Form::{self, Kernel, Source};
use crate::join;
use crate::machine::{run, Ending, Outcome};
use crate::preview::preview;
use crate::table::Refusal;
use crate::text;
use crate::writes::{compare, writes, Compared};
use crate::written::{written, Written};
use std::collections::BTreeSet;
use std::fmt::Write;

#[derive(Clone, Debug, PartialEq, Eq)]
pub struct Case {
    pub budget: u32,
    pub words: Vec<i32>,
    pub text: Vec<u8>,
}

pub fn write(case: &Case, bytes: &mut Vec<u8>) {
    let mut line = format!("{}\t{}", case.budget, case.text.len());
    for word in &case.words {
        // Writing to a string does not fail.
        let _ = write!(line, "\t{word}");
    }
    bytes.extend_from_slice(line.as_bytes());
    bytes.push(b'\n');
    bytes.extend_from_slice(&case.text);
}

/// Reads the first case and gives the bytes after it.
pub fn read_one(bytes: &[u8]) -> Result<(Case, &[u8]), String> {
    let end = bytes.iter().position(|&byte| byte == b'\n').ok_or("case line without newline")?;
    let line = std::str::from_utf8(&bytes[..end]).map_err(|_| "case line not of numbers")?;
    let mut fields = line.split('\t');
    let budget = number(fields.next())?;
    let length: usize = number(fields.next())?;
    let words = fields.map(|field| number(Some(field))).collect::<Result<_, _>>()?;
    let rest = &bytes[end + 1..];
    if length > rest.len() {
        return Err(format!("a text of {length} bytes is cut short"));
    }
    let (text, rest) = rest.split_at(length);
    Ok((Case { budget, words, text: text.to_vec() }, rest))
}

fn number<T: std::str::FromStr>(field: Option<&str>) -> Result<T, String> {
    let field = field.ok_or("case line too short")?;
    field.parse().map_err(|_| format!("not a number of the case format: {field}"))
}

/// Reads a whole case file.
pub fn read_all(bytes: &[u8]) -> Result<Vec<Case>, String> {
    let mut cases = Vec::new();
    let mut rest = bytes;
    while !rest.is_empty() {
        let (case, after) = read_one(rest).map_err(|e| format!("case {}: {e}", cases.len() + 1))?;
        cases.push(case);
        rest = after;
    }
    Ok(cases)
}

/// The words that the store starts from: the case's, or so many zeros.
fn start(words: usize, case: &Case) -> Vec<i32> {
    match case.words.is_empty() {
        true => vec![0; words],
        false => case.words.clone(),
    }
}

/// The outcome and the store, or the refusal.
pub fn evaluate(form: Form, case: &Case) -> Result<(Outcome, Vec<i32>), Refusal> {
    let (header, rows) = text::read(form, &case.text)?;
    let mut store = start(form.store_words(&header, &rows), case);
    let outcome = run(form, &header, &rows, &mut store, case.budget)?;
    Ok((outcome, store))
}

/// The lines of a preview: ending, count and how many words would differ; then
/// each of these, lowest place first: its place, what it holds, what it would hold.
/// Declared words are not told.
fn foretell(case: &Case) -> Result<String, Refusal> {
    let (header, rows) = text::read(Source, &case.text)?;
    let words = Source.store_words(&header, &rows);
    let store = start(words, case);
    let mut scratch = vec![0; words];
    let told = preview(&header, &rows, &store, case.budget, &mut scratch)?;
    let Outcome { ending, count } = told.outcome;
    let mut lines = format!("{} {count} {}\n", ending.name(), told.differing);
    let size = Source.size(&header) as usize;
    for (place, (word, other)) in store.iter().zip(&scratch).take(size).enumerate() {
        if word != other {
            // Writing to a string does not fail.
            let _ = writeln!(lines, "{place}: {word} {other}");
        }
    }
    Ok(lines)
}

pub fn preview_lines(case: &Case) -> String {
    foretell(case).unwrap_or_else(|refusal| format!("{refusal}\n"))
}

/// The lines of a run's writes: place and value, one a line.
fn watch(form: Form, case: &Case) -> Result<String, Refusal> {
    let (header, rows) = text::read(form, &case.text)?;
    let mut store = start(form.store_words(&header, &rows), case);
    let (_, made) = writes(form, &header, &rows, &mut store, case.budget)?;
    Ok(made.iter().map(|write| format!("{} {}\n", write.place, write.value)).collect())
}

pub fn write_lines(form: Form, case: &Case) -> String {
    watch(form, case).unwrap_or_else(|refusal| format!("{refusal}\n"))
}

/// A case of the source form and its translation's text, held to both sentences
/// of change 14; the words behind the translation's first S start from values that are not 0.
pub fn compare_writes(source: &Case, translation: &[u8]) -> Result<Compared, String> {
    let refused = |refusal: Refusal| refusal.to_string();
    let program = text::read(Source, &source.text).map_err(refused)?;
    let kernel = text::read(Kernel, translation).map_err(refused)?;
    let store = start(Source.store_words(&program.0, &program.1), source);
    let behind = any_words(0, Kernel.behind(&kernel.0) as usize);
    compare(&program, &kernel, &store, &behind)
}

/// So many words that nothing should hang on; others for another turn.
pub fn any_words(turn: usize, count: usize) -> Vec<i32> {
    [7, -1, i32::MIN, 1, i32::MAX, -2].into_iter().cycle().skip(turn).take(count).collect()
}

/// What is printed for the join of two texts.
pub fn join_text(first: &[u8], second: &[u8]) -> Vec<u8> {
    join::join_texts(first, second).unwrap_or_else(|refusal| format!("{refusal}\n").into_bytes())
}

/// Two cases and what another program printed for their join: how many runs of
/// the joined rows were held to those of both programs, none after a refusal.
pub fn compare_join(first: &Case, second: &Case, printed: &[u8]) -> Result<usize, String> {
    let wanted = join_text(&first.text, &second.text);
    if wanted != printed {
        return Err("the text or the refusal".to_string());
    }
    let Ok((header, rows)) = text::read(Source, printed) else { return Ok(0) };
    let refused = |refusal: Refusal| refusal.to_string();
    let one = text::read(Source, &first.text).map_err(refused)?;
    let other = text::read(Source, &second.text).map_err(refused)?;
    let size = Source.size(&header) as usize;
    let words = start(size, first);
    join::compare(&one, &other, &rows, words.get(..size).ok_or("too few start words")?)
}

/// What is printed for the run of a flat list's text.
pub fn list_answer(case: &Case) -> String {
    let evaluated = text::read_list(&case.text).and_then(|(header, list)| {
        let mut store = start(Kernel.header_words(&header), case);
        flat::run(&header, &list, &mut store, case.budget).map(|outcome| (outcome, store))
    });
    match evaluated {
        Ok((outcome, store)) => answer_line(outcome, &store),
        Err(refusal) => refusal.to_string(),
    }
}

pub fn answer(form: Form, case: &Case) -> String {
    match evaluate(form, case) {
        Ok((outcome, store)) => answer_line(outcome, &store),
        Err(refusal) => refusal.to_string(),
    }
}

/// The refusal, or the lines that document 01 has a program and its translation
/// print: the source's, and, unless that run is spent, the kernel's. There is no
/// translation here: whatever it is, given steps enough its run has the same
/// ending and the same S words.
pub fn answer_lines(case: &Case) -> String {
    let (outcome, store) = match evaluate(Source, case) {
        Ok(evaluated) => evaluated,
        Err(refusal) => return format!("{refusal}\n"),
    };
    let (header, rows) = match text::read(Source, &case.text) {
        Ok(read) => read,
        Err(refusal) => return format!("{refusal}\n"),
    };
    let source = source_line(outcome, &header, &rows, &store);
    let shown = &store[..Source.size(&header) as usize];
    match outcome.ending {
        Ending::Spent => format!("{source}\n"),
        ending => format!("{source}\nkernel {}{}\n", ending.name(), spaced(shown)),
    }
}

/// The trial's first line, with the first S words: its last field is the number of variables and
/// declared words that the program can write.
pub fn source_line(outcome: Outcome, header: &[i32], rows: &[i32], store: &[i32]) -> String {
    let shown = &store[..Source.size(header) as usize];
    format!("source {} {}", answer_line(outcome, shown), written(rows).ones())
}

/// The variables, the arrays and the declared words that a program can write, by number.
pub fn written_lines(text: &[u8]) -> String {
    let (header, rows) = match text::read(Source, text) {
        Ok(read) => read,
        Err(refusal) => return format!("{refusal}\n"),
    };
    if let Err(refusal) = check(Source, &header, &rows) {
        return format!("{refusal}\n");
    }
    let Written { variables, declared, arrays } = written(&rows);
    let spaced = |numbers: BTreeSet<i32>| -> String {
        numbers.iter().map(|number| format!(" {number}")).collect()
    };
    let (variables, arrays) = (spaced(variables), spaced(arrays));
    format!("variables{variables}\narrays{arrays}\ndeclared{}\n", spaced(declared))
}

/// Ending, count and store words, parted by single blanks.
pub fn answer_line(outcome: Outcome, store: &[i32]) -> String {
    format!("{} {}{}", outcome.ending.name(), outcome.count, spaced(store))
}

/// The words, each with a blank before it.
fn spaced(words: &[i32]) -> String {
    let mut text = String::new();
    for word in words {
        let _ = write!(text, " {word}");
    }
    text
}
