//! Try a day (document 02, change 12): a rule, a setting and day lines; for each
//! value of the setting what the day leaves, or the refusal.

use crate::check::check;
use crate::form::Form::Source;
use crate::machine::{run_checked, Ending};
use crate::table::Refusal;
use crate::text::{number, Program};
use crate::trial::{read_rule, BUDGET};

pub const MAX_VALUES: i64 = 100;
pub const MAX_DAYS: usize = 200;
pub const MAX_PAIRS: usize = 16;

/// A variable number and a value.
type Pair = (i32, i32);

struct Setting {
    variable: i32,
    lowest: i32,
    highest: i32,
}

/// What the program prints for an input.
pub fn day(input: &[u8]) -> String {
    match lines(input) {
        Ok(lines) => lines,
        Err(refusal) => format!("{refusal}\n"),
    }
}

fn lines(input: &[u8]) -> Result<String, Refusal> {
    let (rule, mut line, behind) = parts(input);
    let (header, rows) = read_rule(rule)?;
    check(Source, &header, &rows)?;
    let mut behind = behind.iter();
    let setting = behind.next().and_then(|text| setting(text)).ok_or(Refusal::new(21, line))?;
    let first = line;
    let mut days = Vec::new();
    for text in behind {
        line += 1;
        let pairs = pairs(text).filter(|_| days.len() < MAX_DAYS);
        days.push(pairs.ok_or(Refusal::new(21, line))?);
    }
    let named = |variable: i32| (0..header[0]).contains(&variable);
    if !named(setting.variable) {
        return Err(Refusal::new(22, first));
    }
    for (i, pairs) in days.iter().enumerate() {
        if pairs.iter().any(|pair| !named(pair.0)) {
            return Err(Refusal::new(22, first + 1 + i));
        }
    }
    let program = (header, rows);
    Ok((setting.lowest..=setting.highest)
        .map(|value| value_line(&program, &setting, value, &days))
        .collect())
}

/// The rule's bytes; the number of the line that the setting should stand on; the lines from there on, each with its newline
/// where it has one.
fn parts(input: &[u8]) -> (&[u8], usize, Vec<&[u8]>) {
    let lines: Vec<&[u8]> = input.split_inclusive(|&byte| byte == b'\n').collect();
    match lines.iter().position(|line| *line == b"\n") {
        Some(empty) => {
            let size = lines[..empty].iter().map(|line| line.len()).sum();
            (&input[..size], empty + 2, lines[empty + 1..].to_vec())
        }
        None => (input, lines.len() + 1, Vec::new()),
    }
}

/// The numbers of a line that ends in a newline.
fn numbers(line: &[u8]) -> Option<Vec<i32>> {
    line.strip_suffix(b"\n")?.split(|&byte| byte == b'\t').map(number).collect()
}

fn setting(line: &[u8]) -> Option<Setting> {
    let [variable, lowest, highest] = numbers(line)?[..] else { return None };
    let more = i64::from(highest) - i64::from(lowest);
    (0..MAX_VALUES).contains(&more).then_some(Setting { variable, lowest, highest })
}

fn pairs(line: &[u8]) -> Option<Vec<Pair>> {
    let numbers = numbers(line)?;
    let well = numbers.len() % 2 == 0 && (1..=MAX_PAIRS).contains(&(numbers.len() / 2));
    well.then(|| numbers.chunks(2).map(|pair| (pair[0], pair[1])).collect())
}

/// The day with one value, from zeros.
fn value_line(program: &Program, setting: &Setting, value: i32, days: &[Vec<Pair>]) -> String {
    let (header, rows) = program;
    let mut store = vec![0; Source.store_words(header, rows)];
    store[setting.variable as usize] = value;
    let (mut plain, mut other) = (0, 0);
    for pairs in days {
        let mut tried = store.clone();
        for pair in pairs {
            tried[pair.0 as usize] = pair.1;
        }
        let outcome = run_checked(Source, header, rows, &mut tried, BUDGET);
        if outcome.ending == Ending::Ended {
            store = tried;
            plain += 1;
        } else {
            other += 1;
        }
    }
    let mut line = format!("{value}\t{plain}\t{other}");
    for word in &store[..header[0] as usize] {
        line.push_str(&format!("\t{word}"));
    }
    line.push('\n');
    line
}
