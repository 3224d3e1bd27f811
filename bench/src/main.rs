//! Times the proved library and the interpreter built apart, in one run, on
//! the same programs and inputs, and prints ratios; then the stack that each
//! entry takes. Both are built for release. Output tables are reused and not
//! cleared between repetitions; a run's store is cleared before each.

mod deep_calls;
#[path = "../../wrapper/tests/compared/entries.rs"]
mod entries;
mod programs;
mod stack;
mod timing;

use entries::{Entries, KERNEL, SOURCE};
use interpreter::text;
use programs::Program;
use std::process::ExitCode;
use timing::{both, per, Row};

const SOURCE_SIZES: [usize; 3] = [256, 1_024, 2_048];
const KERNEL_SIZES: [usize; 3] = [5_124, 20_484, 40_980];
const FLATTEN_SIZES: [usize; 3] = [10_000, 20_000, 40_980];

fn main() -> ExitCode {
    let words: Vec<String> = std::env::args().skip(1).collect();
    let done = match &words[..] {
        [] => {
            everything();
            true
        }
        [only] => one(only),
        _ => false,
    };
    if done {
        return ExitCode::SUCCESS;
    }
    let programs = programs::long_running().map(|program| program.name).join(", ");
    eprintln!(
        "bench: no work is called '{}'; there are check, kernel-check, translate, flatten, stack, {programs}",
        words.join(" ")
    );
    ExitCode::from(2)
}

fn everything() {
    println!("Steps: million steps per second, library and interpreter, and how many times as fast the library is");
    for program in programs::long_running() {
        run(&SOURCE, "source", &program).print_rate();
    }
    for program in programs::long_running() {
        run(&KERNEL, "kernel", &programs::translated(&program)).print_rate();
    }
    println!("Flat: million source steps per second, the flat run of the translation and the interpreter's source run");
    for program in programs::without_functions() {
        flat(&program).print_rate();
    }
    println!("Rows: nanoseconds per row");
    let (sized, one_switch) = (programs::sized, programs::one_switch);
    let kernel_sized = programs::kernel_sized;
    let translated = |size| {
        let made = programs::translated(&sized(size));
        Program { name: format!("{} rows", made.row_count()), ..made }
    };
    rows_of("check", SOURCE_SIZES.map(|size| check(&SOURCE, &sized(size))));
    rows_of("check, one switch", SOURCE_SIZES.map(|size| check(&SOURCE, &one_switch(size))));
    rows_of("translate", SOURCE_SIZES.map(|size| translate(&sized(size))));
    rows_of("translate, one switch", SOURCE_SIZES.map(|size| translate(&one_switch(size))));
    rows_of("kernel check", KERNEL_SIZES.map(|size| check(&KERNEL, &kernel_sized(size))));
    rows_of(
        "kernel check of translations",
        SOURCE_SIZES.map(|size| check(&KERNEL, &translated(size))),
    );
    flatten_rows();
    println!("Text: nanoseconds per byte");
    rows_of("read source", SOURCE_SIZES.map(|size| read(&SOURCE, &sized(size))));
    rows_of("write source", SOURCE_SIZES.map(|size| write(&SOURCE, &sized(size))));
    rows_of("read kernel", KERNEL_SIZES.map(|size| read(&KERNEL, &kernel_sized(size))));
    rows_of("write kernel", KERNEL_SIZES.map(|size| write(&KERNEL, &kernel_sized(size))));
    println!("Stack: bytes");
    stack::print_all();
}

/// One piece of the library's work, once, for a profiler; false where none has this name.
fn one(name: &str) -> bool {
    let program = programs::sized(2_048);
    let kernel = programs::kernel_sized(40_980);
    match name {
        "check" => clight::check(&program.header, &program.rows).unwrap(),
        "kernel-check" => clight::kernel_check(&kernel.header, &kernel.rows).unwrap(),
        "translate" => drop(programs::translated(&program)),
        "flatten" => flatten_rows(),
        "stack" => stack::print_all(),
        _ => {
            let programs = programs::long_running();
            let Some(program) = programs.iter().find(|program| program.name == name) else {
                return false;
            };
            let mut store = vec![0; SOURCE.form.store_words(&program.header, &program.rows)];
            clight::run(&program.header, &program.rows, &mut store, 1_000_000).unwrap();
        }
    }
    true
}

fn flatten_rows() {
    rows_of("flatten", FLATTEN_SIZES.map(|size| flatten(&programs::kernel_sized(size))));
    rows_of("flatten of loops", FLATTEN_SIZES.map(|size| flatten(&programs::kernel_loops(size))));
}

/// Prints the rows of one entry, and the cost at the largest size beside that at the smallest.
fn rows_of(name: &str, rows: [Row; 3]) {
    for row in &rows {
        row.print_cost(name);
    }
    println!("  {name}: largest / smallest {:.2}", rows[2].library / rows[0].library);
}

fn run(entries: &Entries, form: &str, program: &Program) -> Row {
    let (header, rows) = (&program.header, &program.rows);
    let size = entries.form.store_words(header, rows);
    let (mut mine, mut theirs) = (vec![0; size], vec![0; size]);
    let mut count = 0;
    let times = both(
        || {
            mine.fill(0);
            count = (entries.run)(header, rows, &mut mine, u32::MAX).unwrap().count;
        },
        || {
            theirs.fill(0);
            interpreter::run(entries.form, header, rows, &mut theirs, u32::MAX).unwrap();
        },
    );
    assert_eq!(mine, theirs);
    per(format!("{form} {}", program.name), count as usize, times)
}

/// The flat run of a program's translation beside the interpreter's run of the program itself.
fn flat(program: &Program) -> Row {
    let kernel = programs::translated(program);
    let list = interpreter::flat::flatten(&kernel.rows).unwrap();
    let mut store = vec![0; KERNEL.form.header_words(&kernel.header)];
    let mut theirs = vec![0; SOURCE.form.store_words(&program.header, &program.rows)];
    let source = clight::run(&program.header, &program.rows, &mut theirs, u32::MAX).unwrap();
    let times = both(
        || {
            store.fill(0);
            clight::flat_run(&kernel.header, &list, &mut store, u32::MAX).unwrap();
        },
        || {
            theirs.fill(0);
            interpreter::run(SOURCE.form, &program.header, &program.rows, &mut theirs, u32::MAX)
                .unwrap();
        },
    );
    let size = SOURCE.form.size(&program.header) as usize;
    assert_eq!(store[..size], theirs[..size]);
    per(format!("flat {}", program.name), source.count as usize, times)
}

fn check(entries: &Entries, program: &Program) -> Row {
    let (header, rows) = (&program.header, &program.rows);
    let times = both(
        || (entries.check)(header, rows).unwrap(),
        || interpreter::check(entries.form, header, rows).unwrap(),
    );
    per(program.name.clone(), program.row_count(), times)
}

/// The interpreter has no translation; the column of the interpreter holds its check.
fn translate(program: &Program) -> Row {
    let (header, rows) = (&program.header, &program.rows);
    let mut kernel_header = vec![0; header.len() + 2];
    let mut kernel_rows = vec![0; 6 * clight::kernel_rows(program.row_count())];
    let times = both(
        || {
            clight::translate(header, rows, &mut kernel_header, &mut kernel_rows).unwrap();
        },
        || interpreter::check(SOURCE.form, header, rows).unwrap(),
    );
    per(program.name.clone(), program.row_count(), times)
}

/// The interpreter's flattening takes its program as legal; the check stands before it, as in the library.
fn flatten(program: &Program) -> Row {
    let (header, rows) = (&program.header, &program.rows);
    let mut list = vec![0; 5 * program.row_count()];
    let mut words = 0;
    let times = both(
        || words = clight::flatten(header, rows, &mut list).unwrap(),
        || {
            interpreter::check(KERNEL.form, header, rows).unwrap();
            std::hint::black_box(interpreter::flat::flatten(rows).unwrap());
        },
    );
    assert_eq!(list[..words], interpreter::flat::flatten(rows).unwrap());
    per(program.name.clone(), program.row_count(), times)
}

fn read(entries: &Entries, program: &Program) -> Row {
    let text = text::write(&program.header, &program.rows);
    let (mut header, mut rows) = (program.header.clone(), program.rows.clone());
    let times = both(
        || {
            (entries.read)(&text, &mut header, &mut rows).unwrap();
        },
        || {
            std::hint::black_box(text::read(entries.form, &text).unwrap());
        },
    );
    per(format!("{} bytes", text.len()), text.len(), times)
}

fn write(entries: &Entries, program: &Program) -> Row {
    let (header, rows) = (&program.header, &program.rows);
    let mut bytes = text::write(header, rows);
    let count = bytes.len();
    let times = both(
        || {
            (entries.write)(header, rows, &mut bytes).unwrap();
        },
        || {
            std::hint::black_box(text::write(header, rows));
        },
    );
    per(format!("{count} bytes"), count, times)
}
