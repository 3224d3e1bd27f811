//! Safe functions over the proved library of C-light loading rules.
//!
//! A program is a header and rows of six words, as document 01 lays them
//! down. Each function gives its result or the one refusal that the table of
//! causes names; a refusal changes nothing that was lent.
//!
//! Each call of a foreign function hands over the pointers and lengths of
//! slices. The borrows keep a slice that may be written apart from all else,
//! and the library asks nothing more of its callers: its functions have no
//! `requires`.

#[doc(hidden)]
pub mod foreign;

use foreign::{Answer, PreviewAnswer};

/// Words of a row: kind, a, b, c, d, next.
pub const ROW_WORDS: usize = 6;
/// V and up to 32 array lengths.
pub const SOURCE_HEADER_WORDS: usize = 33;
/// V, D, T and up to 32 array lengths.
pub const KERNEL_HEADER_WORDS: usize = 35;
pub const SOURCE_ROWS_LIMIT: usize = 2048;
pub const KERNEL_ROWS_LIMIT: usize = 40_980;
/// Bytes of stack that are enough for every entry but a run of a deep kernel table.
pub const STACK: usize = 2 << 20;
/// Bytes of stack that are enough for a run of any kernel table. A table that defines functions may
/// call as deep as it has rows; where it has more than `SHALLOW_ROWS` of them, `kernel_run` and
/// `dispatcher_run` go to a thread of their own with that much.
pub const KERNEL_STACK: usize = 8 << 20;
/// `STACK` is enough for a run of a kernel table of so many rows, whatever it calls.
pub const SHALLOW_ROWS: usize = 2048;

/// At most so many kernel rows come from n source rows.
pub const fn kernel_rows(source_rows: usize) -> usize {
    20 * source_rows + 20
}

/// Why an entry did nothing, with the numbers of documents 01 and 02.
#[derive(Clone, Copy, Debug, PartialEq, Eq)]
pub enum Cause {
    Header = 1,
    RowCount = 2,
    Kind = 3,
    Link = 4,
    LinkedOnce = 5,
    Number = 6,
    OutOfPlace = 7,
    RepeatedMark = 8,
    Depth = 9,
    OutputTooShort = 10,
    Store = 11,
    KernelForm = 12,
    Label = 13,
    Text = 14,
    Scratch = 15,
    UnequalHeaders = 16,
    JoinedRows = 17,
    NamesItself = 18,
    DeclaredTwice = 19,
    Declarations = 20,
    Definition = 23,
    Call = 24,
    Functions = 25,
}

/// Every cause, in order of number. The library has no 21 and 22, which a day's input gets.
pub const CAUSES: [Cause; 23] = [
    Cause::Header,
    Cause::RowCount,
    Cause::Kind,
    Cause::Link,
    Cause::LinkedOnce,
    Cause::Number,
    Cause::OutOfPlace,
    Cause::RepeatedMark,
    Cause::Depth,
    Cause::OutputTooShort,
    Cause::Store,
    Cause::KernelForm,
    Cause::Label,
    Cause::Text,
    Cause::Scratch,
    Cause::UnequalHeaders,
    Cause::JoinedRows,
    Cause::NamesItself,
    Cause::DeclaredTwice,
    Cause::Declarations,
    Cause::Definition,
    Cause::Call,
    Cause::Functions,
];

impl Cause {
    /// The cause that the library has this number for.
    fn numbered(number: u32) -> Cause {
        let found = CAUSES.into_iter().find(|&cause| cause as u32 == number);
        found.expect("the library gives the causes of its header")
    }
}

/// A cause and its place: a row, a line of the text from 1, or 0.
#[derive(Clone, Copy, Debug, PartialEq, Eq)]
pub struct Refusal {
    pub cause: Cause,
    pub place: usize,
}

impl std::fmt::Display for Refusal {
    fn fmt(&self, f: &mut std::fmt::Formatter) -> std::fmt::Result {
        write!(f, "refused {} {}", self.cause as u32, self.place)
    }
}

impl std::error::Error for Refusal {}

/// How a run ended.
#[derive(Clone, Copy, Debug, PartialEq, Eq)]
pub enum Ending {
    Ended,
    Spent,
    Overflow,
    ZeroDivisor,
    Index,
    /// No guard of a guarded if was true.
    Guard,
}

/// Each ending, at the library's number for it, with the word that the trial program prints.
pub const ENDINGS: [(Ending, &str); 6] = [
    (Ending::Ended, "ended"),
    (Ending::Spent, "spent"),
    (Ending::Overflow, "overflow"),
    (Ending::ZeroDivisor, "zero"),
    (Ending::Index, "index"),
    (Ending::Guard, "guard"),
];

impl std::fmt::Display for Ending {
    fn fmt(&self, f: &mut std::fmt::Formatter) -> std::fmt::Result {
        f.write_str(ENDINGS[*self as usize].1)
    }
}

/// An ending, and the number of steps that the run made.
#[derive(Clone, Copy, Debug, PartialEq, Eq)]
pub struct Run {
    pub ending: Ending,
    pub count: u32,
}

/// What a run would do: its ending, its count, and how many of the first S store words would differ.
#[derive(Clone, Copy, Debug, PartialEq, Eq)]
pub struct Preview {
    pub ending: Ending,
    pub count: u32,
    pub differing: usize,
}

/// How many words of the two lent tables are the result.
#[derive(Clone, Copy, Debug, PartialEq, Eq)]
pub struct Tables {
    pub header_words: usize,
    pub row_words: usize,
}

impl Answer {
    /// The two values, or the refusal.
    fn values(self) -> Result<(usize, usize), Refusal> {
        match self.cause {
            0 => Ok((self.first, self.second)),
            number => Err(Refusal { cause: Cause::numbered(number), place: self.first }),
        }
    }

    fn tables(self) -> Result<Tables, Refusal> {
        let (header_words, row_words) = self.values()?;
        Ok(Tables { header_words, row_words })
    }

    /// The ending and the count of a run, or the refusal.
    fn run(self) -> Result<Run, Refusal> {
        let (ending, count) = self.values()?;
        Ok(Run { ending: ENDINGS[ending].0, count: count as u32 })
    }
}

impl PreviewAnswer {
    fn preview(self) -> Result<Preview, Refusal> {
        let PreviewAnswer { cause, first, second, differing } = self;
        let Run { ending, count } = Answer { cause, first, second }.run()?;
        Ok(Preview { ending, count, differing })
    }
}

// What both forms have is a pair of the library's functions with the same arguments; each of these
// is called with one of a pair.

fn check_by(entry: foreign::Check, header: &[i32], rows: &[i32]) -> Result<(), Refusal> {
    unsafe { entry(header.as_ptr(), header.len(), rows.as_ptr(), rows.len()) }.values()?;
    Ok(())
}

fn run_by(
    entry: foreign::Run,
    header: &[i32],
    rows: &[i32],
    store: &mut [i32],
    budget: u32,
) -> Result<Run, Refusal> {
    let (header, header_words) = (header.as_ptr(), header.len());
    let (rows, row_words) = (rows.as_ptr(), rows.len());
    let (store, store_words) = (store.as_mut_ptr(), store.len());
    unsafe { entry(header, header_words, rows, row_words, store, store_words, budget) }.run()
}

/// The same, on a stack that holds the calls of a kernel table.
fn run_deep_by(
    entry: foreign::Run,
    header: &[i32],
    rows: &[i32],
    store: &mut [i32],
    budget: u32,
) -> Result<Run, Refusal> {
    if !calls_deep(rows) {
        return run_by(entry, header, rows, store, budget);
    }
    std::thread::scope(|scope| {
        let builder = std::thread::Builder::new().stack_size(KERNEL_STACK);
        let run = || run_by(entry, header, rows, store, budget);
        let thread = builder.spawn_scoped(scope, run).expect("a thread starts");
        thread.join().unwrap_or_else(|panic| std::panic::resume_unwind(panic))
    })
}

/// Whether the calls of a kernel table may need more than `STACK`.
fn calls_deep(rows: &[i32]) -> bool {
    const DEFINITION: i32 = 59;
    rows.len() > ROW_WORDS * SHALLOW_ROWS
        && rows.iter().step_by(ROW_WORDS).any(|&kind| kind == DEFINITION)
}

fn read_by(
    entry: foreign::Read,
    text: &[u8],
    header: &mut [i32],
    rows: &mut [i32],
) -> Result<Tables, Refusal> {
    let (text, text_bytes) = (text.as_ptr(), text.len());
    let (header, header_words) = (header.as_mut_ptr(), header.len());
    let (rows, row_words) = (rows.as_mut_ptr(), rows.len());
    unsafe { entry(text, text_bytes, header, header_words, rows, row_words) }.tables()
}

fn write_by(
    entry: foreign::Write,
    header: &[i32],
    rows: &[i32],
    text: &mut [u8],
) -> Result<usize, Refusal> {
    let (header, header_words) = (header.as_ptr(), header.len());
    let (rows, row_words) = (rows.as_ptr(), rows.len());
    let (text, text_bytes) = (text.as_mut_ptr(), text.len());
    let answer = unsafe { entry(header, header_words, rows, row_words, text, text_bytes) };
    Ok(answer.values()?.0)
}

/// The check of source programs.
pub fn check(header: &[i32], rows: &[i32]) -> Result<(), Refusal> {
    check_by(foreign::clight_check, header, rows)
}

/// The check of kernel programs.
pub fn kernel_check(header: &[i32], rows: &[i32]) -> Result<(), Refusal> {
    check_by(foreign::clight_kernel_check, header, rows)
}

/// Runs a source program on a store of S+D words: the declared ones stand behind
/// the first S, in the order of their rows, and may hold anything.
pub fn run(header: &[i32], rows: &[i32], store: &mut [i32], budget: u32) -> Result<Run, Refusal> {
    run_by(foreign::clight_run, header, rows, store, budget)
}

/// Tells what a run of a source program on a store of S+D words would do. The
/// store that it would leave stands in the first S+D words of the scratch; the
/// rest of the scratch keeps its content.
pub fn preview(
    header: &[i32],
    rows: &[i32],
    store: &[i32],
    budget: u32,
    scratch: &mut [i32],
) -> Result<Preview, Refusal> {
    unsafe {
        foreign::clight_preview(
            header.as_ptr(),
            header.len(),
            rows.as_ptr(),
            rows.len(),
            store.as_ptr(),
            store.len(),
            budget,
            scratch.as_mut_ptr(),
            scratch.len(),
        )
    }
    .preview()
}

/// Runs a kernel program on a store of S+D+T words. See `KERNEL_STACK`.
pub fn kernel_run(
    header: &[i32],
    rows: &[i32],
    store: &mut [i32],
    budget: u32,
) -> Result<Run, Refusal> {
    run_deep_by(foreign::clight_kernel_run, header, rows, store, budget)
}

/// Runs a kernel program on the S words that a dispatcher sees; its declared words and
/// temporaries begin as zeros and are kept inside. There is no count. See `KERNEL_STACK`.
pub fn dispatcher_run(
    header: &[i32],
    rows: &[i32],
    words: &mut [i32],
    budget: u32,
) -> Result<Ending, Refusal> {
    Ok(run_deep_by(foreign::clight_dispatcher_run, header, rows, words, budget)?.ending)
}

/// Writes the flat list of a kernel program, which stands under its header,
/// and gives its words; those beyond keep their content. Five words for each
/// kernel row are always enough. A program with functions has none, and is
/// refused with `Cause::Functions`. The list is legal, and the flat run and the
/// kernel run on equal stores both end or neither does, with equal ending and
/// words.
pub fn flatten(header: &[i32], rows: &[i32], list: &mut [i32]) -> Result<usize, Refusal> {
    let (header, header_words) = (header.as_ptr(), header.len());
    let (rows, row_words) = (rows.as_ptr(), rows.len());
    let (list, list_words) = (list.as_mut_ptr(), list.len());
    let answer =
        unsafe { foreign::clight_flatten(header, header_words, rows, row_words, list, list_words) };
    Ok(answer.values()?.0)
}

/// Runs a flat list, lines of five words with a kernel header, on a store of
/// S+D+T words. The budget and the count are of lines.
pub fn flat_run(
    header: &[i32],
    list: &[i32],
    store: &mut [i32],
    budget: u32,
) -> Result<Run, Refusal> {
    run_by(foreign::clight_flat_run, header, list, store, budget)
}

/// Reads a source text; words of both tables beyond the result keep their content.
pub fn read_source(text: &[u8], header: &mut [i32], rows: &mut [i32]) -> Result<Tables, Refusal> {
    read_by(foreign::clight_read_source, text, header, rows)
}

/// Reads a kernel text; words of both tables beyond the result keep their content.
pub fn read_kernel(text: &[u8], header: &mut [i32], rows: &mut [i32]) -> Result<Tables, Refusal> {
    read_by(foreign::clight_read_kernel, text, header, rows)
}

/// Writes a source program as a text and gives its bytes; those beyond keep their content.
pub fn write_source(header: &[i32], rows: &[i32], text: &mut [u8]) -> Result<usize, Refusal> {
    write_by(foreign::clight_write_source, header, rows, text)
}

/// Writes a kernel program as a text and gives its bytes; those beyond keep their content.
pub fn write_kernel(header: &[i32], rows: &[i32], text: &mut [u8]) -> Result<usize, Refusal> {
    write_by(foreign::clight_write_kernel, header, rows, text)
}

/// Prints a kernel program as a page of 81 bytes a line and gives its bytes;
/// those beyond keep their content. Read with the header, the page gives back
/// the same rows, up to numbering.
pub fn print_kernel(header: &[i32], rows: &[i32], page: &mut [u8]) -> Result<usize, Refusal> {
    write_by(foreign::clight_print_kernel, header, rows, page)
}

/// Reads a page with the header of its program, and gives the words of its rows,
/// which are numbered in the order of the page; words beyond keep their content.
/// A refusal with `Cause::Text` has the first wrong line as its place.
pub fn read_page(header: &[i32], page: &[u8], rows: &mut [i32]) -> Result<usize, Refusal> {
    let (header, header_words) = (header.as_ptr(), header.len());
    let (page, page_bytes) = (page.as_ptr(), page.len());
    let (rows, row_words) = (rows.as_mut_ptr(), rows.len());
    let answer = unsafe {
        foreign::clight_read_page(header, header_words, page, page_bytes, rows, row_words)
    };
    Ok(answer.values()?.0)
}

/// Writes the kernel form of a source program, a legal kernel program that
/// shares its fate and makes its writes, in order, also where neither run ends;
/// words of both tables beyond the result keep their content.
/// `kernel_rows(n)` rows are enough for n source rows, and the kernel header
/// has two words more than the source's.
pub fn translate(
    header: &[i32],
    rows: &[i32],
    kernel_header: &mut [i32],
    kernel_rows: &mut [i32],
) -> Result<Tables, Refusal> {
    unsafe {
        foreign::clight_translate(
            header.as_ptr(),
            header.len(),
            rows.as_ptr(),
            rows.len(),
            kernel_header.as_mut_ptr(),
            kernel_header.len(),
            kernel_rows.as_mut_ptr(),
            kernel_rows.len(),
        )
    }
    .tables()
}

/// Joins two source programs that have one header into one that runs the first,
/// then the second, and gives the words of its rows, which stand under that
/// header; words of the table beyond them keep their content.
pub fn join(
    header: &[i32],
    rows: &[i32],
    second_header: &[i32],
    second_rows: &[i32],
    out_rows: &mut [i32],
) -> Result<usize, Refusal> {
    let answer = unsafe {
        foreign::clight_join(
            header.as_ptr(),
            header.len(),
            rows.as_ptr(),
            rows.len(),
            second_header.as_ptr(),
            second_header.len(),
            second_rows.as_ptr(),
            second_rows.len(),
            out_rows.as_mut_ptr(),
            out_rows.len(),
        )
    };
    Ok(answer.values()?.0)
}
