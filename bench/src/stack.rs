//! The stack that each entry takes, on the deepest programs of every kind, and on
//! those with the deepest calls: a thread's stack is painted, the entry called,
//! and the paint that is left looked for.

use crate::deep_calls::{self, Nest};
use crate::entries::{Entries, KERNEL, SOURCE};
use crate::programs::{n, translated, v, Program};
use clight::{foreign, Cause};
use interpreter::random::Random;
use interpreter::table::*;
use interpreter::tree::*;
use interpreter::Form::{Kernel, Source};
use interpreter::{check, text};

/// Painted below the painter's own frame; the stack has this much more.
const SMALL: usize = 6 << 20;
/// The same for kernel tables whose calls nest as deep as they have rows.
const LARGE: usize = 48 << 20;
const REST: usize = 2 << 20;
/// What an entry about source programs may take: 1 MiB.
const SOURCE_LIMIT: usize = 1 << 20;
/// What the header for C asks for: of every entry, and of a run of a kernel table whose calls nest deep.
const LIMIT: usize = clight::STACK;
const KERNEL_LIMIT: usize = clight::KERNEL_STACK;
const PAINT: u64 = 0xC0FF_EE00_DEAD_BEEF;

/// Bytes of stack below the caller's frame that the work used.
#[inline(never)]
fn painted(bytes: usize, work: &mut dyn FnMut()) -> usize {
    let here = 0u64;
    let top = std::hint::black_box(&here) as *const u64 as usize & !63;
    let bottom = top - bytes;
    // Leaves room for this function's own frame, of which nothing is below `top` but its spills.
    for at in (bottom..top - 1024).step_by(8) {
        unsafe { std::ptr::write_volatile(at as *mut u64, PAINT) };
    }
    work();
    let mut at = bottom;
    while unsafe { std::ptr::read_volatile(at as *const u64) } == PAINT {
        at += 8;
    }
    top - at
}

/// The same on a thread of its own, with a stack that is large enough.
fn used(bytes: usize, mut work: impl FnMut() + Send + 'static) -> usize {
    let thread = std::thread::Builder::new().stack_size(bytes + REST);
    thread.spawn(move || painted(bytes, &mut work)).unwrap().join().unwrap()
}

const STATEMENTS: [Nest; 9] = [
    ("blocks", |inner| block(vec![inner])),
    ("ifs", |inner| choice(n(1), inner, None)),
    ("whiles", |inner| while_loop(v(0), inner)),
    ("dos", |inner| do_loop(inner, n(0))),
    ("fors", |inner| for_loop(None, None, None, inner)),
    ("switches", |inner| switch(n(1), vec![case(1), inner])),
    ("elses", |inner| choice(n(0), plain(EMPTY), Some(inner))),
    ("guarded ifs", |inner| guarded(GUARDED_IF, vec![arm(n(1), vec![inner])])),
    ("guarded dos", |inner| guarded(GUARDED_DO, vec![arm(n(1), vec![inner])])),
];

const EXPRESSIONS: [Nest; 13] = [
    ("minuses", |inner| unary(MINUS, inner)),
    ("nots", |inner| unary(NOT, inner)),
    ("left operands", |inner| binary(ADD, inner, n(0))),
    ("right operands", |inner| binary(SUBTRACT, n(0), inner)),
    ("ands", |inner| binary(AND, inner, n(1))),
    ("ors", |inner| binary(OR, n(0), inner)),
    ("conditionals", |inner| conditional(n(1), inner, n(0))),
    ("commas", |inner| binary(COMMA, inner, n(0))),
    ("elements", |inner| element(0, inner)),
    ("assignments", |inner| assign(v(0), inner)),
    ("compounds", |inner| binary(ADD_ASSIGN, v(0), inner)),
    ("element compounds", |inner| binary(ADD_ASSIGN, element(0, n(0)), inner)),
    ("increments", |inner| unary(POST_INCREMENT, element(0, inner))),
];

/// Programs of depth 64, one for each way to nest.
fn deep_sources() -> Vec<Program> {
    let mut programs = Vec::new();
    // A guarded do is left by no innermost statement of its own.
    let (guarded, others) = STATEMENTS.split_last().unwrap();
    assert_eq!(guarded.0, "guarded dos");
    for &(name, nest) in others {
        // A loop's innermost body leaves it, so that every run ends.
        let breaks = matches!(name, "whiles" | "fors" | "dos" | "switches");
        programs.push(deepest(name, if breaks { plain(BREAK) } else { plain(EMPTY) }, nest));
        programs.push(deepest(name, expression(assign(element(0, n(0)), v(0))), nest));
    }
    for (name, nest) in EXPRESSIONS {
        programs.push(deepest(name, n(0), |inner| match inner.kind {
            EXPRESSION.. => inner,
            _ => nest(inner),
        }));
    }
    programs
}

/// The deepest legal program that nests so around this core, behind a declaration: its names are resolved before a run or a translation.
fn deepest(name: &str, core: Tree, nest: impl Fn(Tree) -> Tree) -> Program {
    let header = vec![1, 3];
    let mut found = None;
    let mut inner = core;
    for _ in 0..66 {
        let item = if inner.kind < EMPTY { expression(inner.clone()) } else { inner.clone() };
        let items = vec![declare(0, n(1)), item];
        let rows = number(&block(items), Order::Pre, &mut Random::new(1, 1));
        if check(Source, &header, &rows).is_ok() {
            found = Some(rows);
        }
        inner = nest(inner);
    }
    Program { name: name.to_string(), header, rows: found.expect("some depth is legal") }
}

/// Kernel programs of depth 512.
fn deep_kernels() -> Vec<Program> {
    let atom = [CONSTANT, 1, 0, 0, 0, 0];
    let mut programs = Vec::new();
    for name in ["blocks", "ifs", "whiles"] {
        let mut rows: Vec<Row> = vec![[BLOCK, 1, 0, 0, 0, 0]];
        let mut depth = 1;
        // An if or while goes two levels down with its block, the last assignment four.
        let levels = if name == "blocks" { 1 } else { 2 };
        while depth + levels + 4 <= 512 {
            depth += levels;
            let at = rows.len() as i32;
            match name {
                "blocks" => rows.push([BLOCK, at + 1, 0, 0, 0, 0]),
                "ifs" => {
                    rows.push([IF, at + 1, at + 3, at + 2, 0, 0]);
                    rows.push(atom);
                    rows.push([BLOCK, 0, 0, 0, 0, 0]);
                    rows.push([BLOCK, at + 4, 0, 0, 0, 0]);
                }
                _ => {
                    rows.push([WHILE, at + 1, at + 2, 0, 0, 0]);
                    rows.push(atom);
                    rows.push([BLOCK, at + 3, 0, 0, 0, 0]);
                }
            }
        }
        let at = rows.len() as i32;
        rows.push([EXPRESSION, at + 1, 0, 0, 0, 0]);
        rows.push([ASSIGN, at + 2, at + 4, 0, 0, 0]);
        rows.push([ELEMENT, 0, at + 3, 0, 0, 0]);
        rows.push([CONSTANT, 0, 0, 0, 0, 0]);
        rows.push([VARIABLE, 0, 0, 0, 0, 0]);
        let header = vec![1, 0, 0, 3];
        let rows = rows.concat();
        assert_eq!(check(Kernel, &header, &rows), Ok(()), "kernel {name}");
        programs.push(Program { name: name.to_string(), header, rows });
    }
    programs
}

/// One of the functions of a form, called on a program.
type Call = fn(&Entries, &Program);

/// The largest stack that a call takes on these programs, and the program's name.
fn largest(
    bytes: usize,
    call: Call,
    entries: &'static Entries,
    programs: &[Program],
) -> (usize, String) {
    let each = programs.iter().map(|program| {
        let own = program.clone();
        (used(bytes, move || call(entries, &own)), program.name.clone())
    });
    each.max().unwrap()
}

fn call_check(entries: &Entries, program: &Program) {
    (entries.check)(&program.header, &program.rows).unwrap();
}

/// Enough for the deepest calls of a kernel table.
const BUDGET: u32 = 1_000_000;

fn call_run(entries: &Entries, program: &Program) {
    let mut store = vec![1; entries.form.store_words(&program.header, &program.rows)];
    (entries.run)(&program.header, &program.rows, &mut store, BUDGET).unwrap();
}

/// The library's own function: the wrapper has a thread of its own for deep tables.
fn call_kernel_run(_: &Entries, program: &Program) {
    on_words(foreign::clight_kernel_run, program, Kernel.header_words(&program.header));
}

/// On the words that a dispatcher sees: the first S.
fn call_dispatcher_run(_: &Entries, program: &Program) {
    on_words(foreign::clight_dispatcher_run, program, Kernel.size(&program.header) as usize);
}

fn on_words(run: foreign::Run, program: &Program, words: usize) {
    let (header, rows) = (&program.header, &program.rows);
    let mut store = vec![1; words];
    let answer = unsafe {
        run(
            header.as_ptr(),
            header.len(),
            rows.as_ptr(),
            rows.len(),
            store.as_mut_ptr(),
            words,
            BUDGET,
        )
    };
    assert_eq!(answer.cause, 0);
}

fn call_preview(_: &Entries, program: &Program) {
    let store = vec![1; Source.store_words(&program.header, &program.rows)];
    let mut scratch = store.clone();
    clight::preview(&program.header, &program.rows, &store, BUDGET, &mut scratch).unwrap();
}

fn call_translate(_: &Entries, program: &Program) {
    let mut header = vec![0; program.header.len() + 2];
    let mut rows = vec![0; 6 * clight::kernel_rows(program.row_count())];
    clight::translate(&program.header, &program.rows, &mut header, &mut rows).unwrap();
}

fn call_print_kernel(_: &Entries, program: &Program) {
    let mut page = vec![0; 81 * 2 * program.row_count()];
    clight::print_kernel(&program.header, &program.rows, &mut page).unwrap();
}

fn call_read_page(_: &Entries, program: &Program) {
    let page = interpreter::page::print(&program.header, &program.rows);
    let mut rows = program.rows.clone();
    clight::read_page(&program.header, &page, &mut rows).unwrap();
}

fn call_flatten(_: &Entries, program: &Program) {
    let mut list = vec![0; 5 * program.row_count()];
    clight::flatten(&program.header, &program.rows, &mut list).unwrap();
}

fn call_flat_run(_: &Entries, program: &Program) {
    let mut store = vec![1; Kernel.header_words(&program.header)];
    clight::flat_run(&program.header, &program.rows, &mut store, 10_000).unwrap();
}

/// A program and itself; the deepest are refused by 9, and 2,048 rows by 17.
fn call_join(_: &Entries, program: &Program) {
    let mut rows = vec![0; 6 * 2_048];
    let (header, own) = (&program.header, &program.rows);
    if let Err(refusal) = clight::join(header, own, header, own, &mut rows) {
        assert!(matches!(refusal.cause, Cause::Depth | Cause::JoinedRows));
    }
}

fn call_read(entries: &Entries, program: &Program) {
    let text = text::write(&program.header, &program.rows);
    let (mut header, mut rows) = (program.header.clone(), program.rows.clone());
    (entries.read)(&text, &mut header, &mut rows).unwrap();
}

fn call_write(entries: &Entries, program: &Program) {
    let mut text = text::write(&program.header, &program.rows);
    (entries.write)(&program.header, &program.rows, &mut text).unwrap();
}

pub fn print_all() {
    let mut sources = deep_sources();
    let mut kernels = deep_kernels();
    kernels.extend(sources.iter().map(translated));
    kernels.push(crate::programs::kernel_sized(40_980));
    sources.push(crate::programs::sized(2_048));
    // The flat lists of the kernel programs, in the place of their rows.
    let flat = |program: &Program| Program {
        rows: interpreter::flat::flatten(&program.rows).unwrap(),
        ..program.clone()
    };
    let lists: Vec<Program> = kernels.iter().map(flat).collect();
    let flattened = kernels.clone();
    sources.extend(deep_calls::sources(&STATEMENTS, &EXPRESSIONS));
    kernels.extend(sources.iter().filter(|own| own.name.starts_with("calls")).map(translated));
    let calls: [(&str, Call, &'static Entries); 17] = [
        ("nothing, for comparison", |_, _| {}, &SOURCE),
        ("check", call_check, &SOURCE),
        ("run", call_run, &SOURCE),
        ("preview", call_preview, &SOURCE),
        ("translate", call_translate, &SOURCE),
        ("join", call_join, &SOURCE),
        ("kernel check", call_check, &KERNEL),
        ("kernel run", call_kernel_run, &KERNEL),
        ("dispatcher run", call_dispatcher_run, &KERNEL),
        ("print kernel", call_print_kernel, &KERNEL),
        ("read page", call_read_page, &KERNEL),
        ("flatten", call_flatten, &KERNEL),
        ("flat run", call_flat_run, &KERNEL),
        ("read source", call_read, &SOURCE),
        ("read kernel", call_read, &KERNEL),
        ("write source", call_write, &SOURCE),
        ("write kernel", call_write, &KERNEL),
    ];
    for (name, call, entries) in calls {
        let programs = match entries.form {
            Source => &sources,
            Kernel if name == "flat run" => &lists,
            Kernel if name == "flatten" => &flattened,
            Kernel => &kernels,
        };
        let limit = match entries.form {
            Source => SOURCE_LIMIT,
            Kernel => LIMIT,
        };
        let (bytes, program) = largest(SMALL, call, entries, programs);
        told(name, bytes, &program, limit);
    }
    // Kernel tables not made here, whose calls nest as deep as they have rows.
    let deep = deep_calls::kernels();
    for program in &deep {
        let (bytes, _) = largest(LARGE, call_kernel_run, &KERNEL, std::slice::from_ref(program));
        told("kernel run", bytes, &program.name, KERNEL_LIMIT);
    }
    for (name, call, limit) in [
        ("dispatcher run", call_dispatcher_run as Call, KERNEL_LIMIT),
        ("kernel check", call_check, LIMIT),
        ("print kernel", call_print_kernel, LIMIT),
        ("read page", call_read_page, LIMIT),
    ] {
        let (bytes, program) = largest(LARGE, call, &KERNEL, &deep);
        told(name, bytes, &program, limit);
    }
}

fn told(name: &str, bytes: usize, program: &str, limit: usize) {
    println!("  {name:24} {bytes:8} ({program})");
    assert!(bytes <= limit, "{name} takes more than {limit} bytes of stack: {bytes}");
}
