//! A C-light interpreter built apart from the translator, from documents 01 and
//! 02 alone. The translator's answers are compared with the answers given here.
//!
//! A program is a header and rows of six words, in one of two forms: the source
//! form, and the kernel form that translations have. There is no translation
//! here. `check` gives the first cause of refusal, `run` checks and then runs,
//! `preview` runs on a copy of the store, `writes` tells which words a run stores,
//! `written` which variables and arrays a program can write, `join` makes one
//! program of two, `flat` checks and runs flat lists, `page` prints a kernel program
//! and reads it again.

pub mod cases;
pub mod check;
pub mod damage;
pub mod day;
pub mod flat;
pub mod form;
pub mod generate;
pub mod generate_day;
pub mod generate_joins;
pub mod generate_kernel;
pub mod join;
pub mod machine;
pub mod page;
pub mod preview;
pub mod random;
pub mod rules;
pub mod table;
pub mod tally;
pub mod text;
pub mod tree;
pub mod trial;
pub mod writes;
pub mod written;

pub use check::check;
pub use form::Form;
pub use machine::{run, Ending, Fault, Outcome, Write};
pub use preview::{preview, Preview};
pub use table::Refusal;

/// What the act gives, on a thread whose stack holds the deepest run: as many calls within calls as
/// a kernel table has rows for.
pub fn on_large_stack<T: Send>(act: impl FnOnce() -> T + Send) -> T {
    std::thread::scope(|scope| {
        let builder = std::thread::Builder::new().stack_size(64 << 20);
        let thread = builder.spawn_scoped(scope, act).expect("a thread starts");
        thread.join().unwrap_or_else(|panic| std::panic::resume_unwind(panic))
    })
}
