//! The command line.

use interpreter::cases::{self, Case};
use interpreter::generate::{self, Size};
use interpreter::tally::Tally;
use interpreter::Form::{self, Kernel, Source};
use interpreter::{
    check, damage, day, flat, generate_day, generate_joins, generate_kernel, on_large_stack, page,
    rules, text, trial,
};
use std::io::{self, Read, Write};
use std::process::ExitCode;

const HELP: &str = include_str!("help.txt");

fn main() -> ExitCode {
    let mut arguments: Vec<String> = std::env::args().skip(1).collect();
    let tally = arguments.iter().any(|argument| argument == "--tally");
    arguments.retain(|argument| argument != "--tally");
    let arguments: Vec<&str> = arguments.iter().map(String::as_str).collect();
    match on_large_stack(|| act(&arguments, tally)).and_then(|output| put(&output)) {
        Ok(()) => ExitCode::SUCCESS,
        Err(message) => {
            eprintln!("interpreter: {message}");
            ExitCode::from(2)
        }
    }
}

fn act(arguments: &[&str], tally: bool) -> Result<Vec<u8>, String> {
    match arguments {
        [] | ["help"] | ["--help"] | ["-h"] => Ok(HELP.into()),
        ["check"] => Ok(check_text(Source, &input()?)),
        ["run", budget, words @ ..] => run_text(Source, budget, words),
        ["preview", budget, words @ ..] => {
            Ok(cases::preview_lines(&case(budget, words)?).into_bytes())
        }
        ["writes", budget, words @ ..] => {
            Ok(cases::write_lines(Source, &case(budget, words)?).into_bytes())
        }
        ["kernel-writes", budget, words @ ..] => {
            Ok(cases::write_lines(Kernel, &case(budget, words)?).into_bytes())
        }
        ["can-write"] => Ok(cases::written_lines(&input()?).into_bytes()),
        ["compare-writes"] => Ok(line(compare_writes(&cases::read_all(&input()?)?))),
        ["join", second] => {
            let second = std::fs::read(second).map_err(|error| format!("{second}: {error}"))?;
            Ok(cases::join_text(&input()?, &second))
        }
        ["joins", seed, count, first @ ..] => joins(seed, count, first),
        ["compare-joins"] => Ok(line(compare_joins(&cases::read_all(&input()?)?))),
        ["kernel-check"] => Ok(check_text(Kernel, &input()?)),
        ["page"] => Ok(page_text(&input()?)),
        ["flat-check"] => Ok(list_check_text(&input()?)),
        ["flat-run", budget, words @ ..] => Ok(line(cases::list_answer(&case(budget, words)?))),
        ["flatten"] => Ok(flatten_text(&input()?)),
        ["read-page", header @ ..] => read_page(header),
        ["kernel-run", budget, words @ ..] => run_text(Kernel, budget, words),
        ["trial"] => Ok(line(trial::trial(&input()?))),
        ["day"] => Ok(day::day(&input()?).into_bytes()),
        ["generate-day", seed, which] => Ok(generate_day::input(number(seed)?, number(which)?)),
        ["rules"] => Ok(output(Source, rules::rules().into_iter().map(|rule| rule.case), tally)),
        ["rules", "names"] => Ok(rules::rules()
            .iter()
            .flat_map(|rule| line(format!("{}: {}", rule.name, rule.answer)))
            .collect()),
        ["answers"] => {
            let cases = cases::read_all(&input()?)?;
            Ok(cases.iter().flat_map(|case| cases::answer_lines(case).into_bytes()).collect())
        }
        ["different", printed] => different(printed),
        ["tally"] => Ok(output(Source, cases::read_all(&input()?)?.into_iter(), true)),
        ["generate", seed, count, "large"] => {
            made(Source, |seed, i| generate::case(seed, i, Size::Large), seed, count, &[], tally)
        }
        ["generate", seed, count, "endless", first @ ..] => {
            made(Source, generate::endless_case, seed, count, first, tally)
        }
        ["generate", seed, count, first @ ..] => {
            made(Source, |seed, i| generate::case(seed, i, Size::Mixed), seed, count, first, tally)
        }
        ["damage", seed, count, first @ ..] => {
            made(Source, damage::case, seed, count, first, tally)
        }
        ["kernel-generate", seed, count, first @ ..] => {
            made(Kernel, generate_kernel::case, seed, count, first, tally)
        }
        ["kernel-damage", seed, count, first @ ..] => {
            made(Kernel, generate_kernel::damaged_case, seed, count, first, tally)
        }
        _ => Err(format!("not understood: {}; see --help", arguments.join(" "))),
    }
}

/// So many pairs to join, from the first number on.
fn joins(seed: &str, count: &str, first: &[&str]) -> Result<Vec<u8>, String> {
    let (seed, count): (u64, u64) = (number(seed)?, number(count)?);
    let first: u64 = match first {
        [] => 0,
        [first] => number(first)?,
        _ => return Err("too many arguments; see --help".to_string()),
    };
    let mut bytes = Vec::new();
    for i in first..first.saturating_add(count) {
        generate_joins::pair(seed, i).iter().for_each(|case| cases::write(case, &mut bytes));
    }
    Ok(bytes)
}

/// How many pairs, how many of them were joined, and the runs held; or the number
/// of the first pair that differs, from 0 on, and how.
fn compare_joins(cases: &[Case]) -> String {
    let (mut pairs, mut joined, mut runs) = (0, 0, 0);
    for three in cases.chunks(3) {
        let [first, second, printed] = three else { return "cut short".to_string() };
        match cases::compare_join(first, second, &printed.text) {
            Ok(held) => {
                pairs += 1;
                joined += usize::from(held > 0);
                runs += held;
            }
            Err(what) => return format!("different {pairs}: {what}"),
        }
    }
    format!("same {pairs} {joined} {runs}")
}

/// So many cases of a seed, from the first number on, which is 0 unless it is given.
fn made(
    form: Form,
    make: fn(u64, u64) -> Case,
    seed: &str,
    count: &str,
    first: &[&str],
    tally: bool,
) -> Result<Vec<u8>, String> {
    let (seed, count): (u64, u64) = (number(seed)?, number(count)?);
    let first: u64 = match first {
        [] => 0,
        [first] => number(first)?,
        _ => return Err("too many arguments; see --help".to_string()),
    };
    let numbers = first..first.saturating_add(count);
    Ok(output(form, numbers.map(|i| make(seed, i)), tally))
}

/// The first case that another program answered otherwise, given what it printed.
fn different(printed: &str) -> Result<Vec<u8>, String> {
    let printed = std::fs::read(printed).map_err(|error| format!("{printed}: {error}"))?;
    let cases = cases::read_all(&input()?)?;
    let mut rest = &printed[..];
    let mut bytes = Vec::new();
    for case in &cases {
        match rest.strip_prefix(cases::answer_lines(case).as_bytes()) {
            Some(after) => rest = after,
            None => {
                cases::write(case, &mut bytes);
                break;
            }
        }
    }
    Ok(bytes)
}

/// How many programs, how many of them do not end, and the writes; or the number of the first pair
/// that differs, from 0 on, and how.
fn compare_writes(cases: &[Case]) -> String {
    let (mut programs, mut endless, mut writes) = (0, 0, 0);
    for pair in cases.chunks(2) {
        let translation = pair.get(1).map_or(&[][..], |case| &case.text);
        match cases::compare_writes(&pair[0], translation) {
            Ok(compared) => {
                programs += 1;
                endless += usize::from(compared.endless);
                writes += compared.writes;
            }
            Err(what) => return format!("different {programs}: {what}"),
        }
    }
    format!("same {programs} {endless} {writes}")
}

/// The cases in their format, or the counts.
fn output(form: Form, cases: impl Iterator<Item = Case>, tally: bool) -> Vec<u8> {
    let mut bytes = Vec::new();
    if tally {
        let mut counts = Tally::default();
        cases.for_each(|case| counts.add(form, &case));
        return counts.report().into_bytes();
    }
    cases.for_each(|case| cases::write(&case, &mut bytes));
    bytes
}

fn check_text(form: Form, bytes: &[u8]) -> Vec<u8> {
    match text::read(form, bytes).and_then(|(header, rows)| check(form, &header, &rows)) {
        Ok(()) => line("ok".to_string()),
        Err(refusal) => line(refusal.to_string()),
    }
}

fn page_text(bytes: &[u8]) -> Vec<u8> {
    let program = text::read(Kernel, bytes)
        .and_then(|(header, rows)| check(Kernel, &header, &rows).map(|()| (header, rows)));
    match program {
        Ok((header, rows)) => page::print(&header, &rows),
        Err(refusal) => line(refusal.to_string()),
    }
}

fn list_check_text(bytes: &[u8]) -> Vec<u8> {
    match text::read_list(bytes).and_then(|(header, list)| flat::check(&header, &list)) {
        Ok(()) => line("ok".to_string()),
        Err(refusal) => line(refusal.to_string()),
    }
}

fn flatten_text(bytes: &[u8]) -> Vec<u8> {
    let list = text::read(Kernel, bytes).and_then(|(header, rows)| {
        check(Kernel, &header, &rows)?;
        Ok(text::write_list(&header, &flat::flatten(&rows)?))
    });
    list.unwrap_or_else(|refusal| line(refusal.to_string()))
}

fn read_page(header: &[&str]) -> Result<Vec<u8>, String> {
    let header: Vec<i32> = header.iter().map(|word| number(word)).collect::<Result<_, _>>()?;
    Ok(match page::read(&header, &input()?) {
        Ok(rows) => text::write(&header, &rows),
        Err(refusal) => line(refusal.to_string()),
    })
}

/// The text on standard input, with this budget and these words.
fn case(budget: &str, words: &[&str]) -> Result<Case, String> {
    let budget = number(budget)?;
    let words = words.iter().map(|word| number(word)).collect::<Result<_, _>>()?;
    Ok(Case { budget, words, text: input()? })
}

fn run_text(form: Form, budget: &str, words: &[&str]) -> Result<Vec<u8>, String> {
    Ok(line(cases::answer(form, &case(budget, words)?)))
}

fn number<T: std::str::FromStr>(argument: &str) -> Result<T, String> {
    argument.parse().map_err(|_| format!("not a number in range: {argument}"))
}

fn line(mut text: String) -> Vec<u8> {
    text.push('\n');
    text.into_bytes()
}

fn input() -> Result<Vec<u8>, String> {
    let mut bytes = Vec::new();
    io::stdin().lock().read_to_end(&mut bytes).map_err(|error| error.to_string())?;
    Ok(bytes)
}

fn put(bytes: &[u8]) -> Result<(), String> {
    io::stdout().lock().write_all(bytes).map_err(|error| error.to_string())
}
