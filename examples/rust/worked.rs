//! Reads document 01's worked example, translates it and runs both forms,
//! each from a store of zeros.

use clight::{Refusal, KERNEL_HEADER_WORDS, ROW_WORDS, SOURCE_HEADER_WORDS};

const TEXT: &[u8] = b"1\t3
42\t1\t0\t0\t0\t0
41\t2\t0\t0\t0\t5
21\t3\t4\t0\t0\t0
2\t0\t0\t0\t0\t0
1\t2\t0\t0\t0\t0
41\t6\t0\t0\t0\t0
21\t7\t11\t0\t0\t0
3\t0\t8\t0\t0\t0
23\t9\t10\t0\t0\t0
2\t0\t0\t0\t0\t0
1\t1\t0\t0\t0\t0
29\t12\t0\t0\t0\t0
2\t0\t0\t0\t0\t0
";
const SOURCE_ROWS: usize = 13;
const BUDGET: u32 = 100_000;

/// The store's words, each behind a blank.
fn words(store: &[i32]) -> String {
    store.iter().map(|word| format!(" {word}")).collect()
}

fn main() -> Result<(), Refusal> {
    let mut header = [0; SOURCE_HEADER_WORDS];
    let mut rows = [0; ROW_WORDS * SOURCE_ROWS];
    let read = clight::read_source(TEXT, &mut header, &mut rows)?;
    let (header, rows) = (&header[..read.header_words], &rows[..read.row_words]);

    // S: the variables, then the arrays.
    let size: usize = header.iter().map(|&n| n as usize).sum();
    let mut store = vec![0; size];
    let ran = clight::run(header, rows, &mut store, BUDGET)?;
    println!("source {} {}{}", ran.ending, ran.count, words(&store));

    let mut kernel_header = [0; KERNEL_HEADER_WORDS];
    let mut kernel_rows = vec![0; ROW_WORDS * clight::kernel_rows(SOURCE_ROWS)];
    let kernel = clight::translate(header, rows, &mut kernel_header, &mut kernel_rows)?;
    let (kernel_header, kernel_rows) = (
        &kernel_header[..kernel.header_words],
        &kernel_rows[..kernel.row_words],
    );

    // S+D+T: the declared words and temporaries behind the arrays.
    let mut kernel_store = vec![0; size + (kernel_header[1] + kernel_header[2]) as usize];
    let ran = clight::kernel_run(kernel_header, kernel_rows, &mut kernel_store, BUDGET)?;
    println!("kernel {}{}", ran.ending, words(&kernel_store[..size]));
    Ok(())
}
