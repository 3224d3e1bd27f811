//! Reading pages: the library beside the interpreter, on the pages of generated
//! kernel programs, of the stored programs' translations, and of the largest
//! programs; on pages damaged in every column of their first lines, cut short, with
//! lines left out, twice or exchanged; and with other headers. Each with room to
//! spare, with just enough, and with a word too few.

use interpreter::page::{print, read, COLUMNS, MAX_LINES};
use interpreter::random::Random;
use interpreter::Form::Source;
use interpreter::{cases, check, generate_kernel};

const LINE: usize = COLUMNS + 1;
/// What stands in a table before a call.
const WORD: i32 = -77;

/// Reads into a table of so many words: the answer, and what the table holds then.
fn library(header: &[i32], page: &[u8], words: usize) -> (Result<usize, String>, Vec<i32>) {
    let mut rows = vec![WORD; words];
    let answer = clight::read_page(header, page, &mut rows)
        .map_err(|refusal| format!("refused {} {}", refusal.cause as u32, refusal.place));
    (answer, rows)
}

/// Compares both readers, and gives what they read.
fn compare(header: &[i32], page: &[u8]) -> Result<Vec<i32>, String> {
    let wanted = read(header, page).map_err(|refusal| refusal.to_string());
    match &wanted {
        Ok(rows) => {
            for spare in [0, 1, 600] {
                let (answer, left) = library(header, page, rows.len() + spare);
                assert_eq!(answer, Ok(rows.len()));
                assert_eq!(left[..rows.len()], rows[..]);
                assert!(left[rows.len()..].iter().all(|&word| word == WORD));
            }
            for short in [1, 6] {
                let (answer, left) = library(header, page, rows.len() - short);
                assert_eq!(answer, Err("refused 10 0".to_string()));
                assert!(left.iter().all(|&word| word == WORD));
            }
        }
        Err(refusal) => {
            for words in [0, 6_000] {
                let (answer, left) = library(header, page, words);
                assert_eq!(answer.as_ref(), Err(refusal));
                assert!(left.iter().all(|&word| word == WORD));
            }
        }
    }
    wanted
}

#[test]
fn kernel_programs() {
    for number in 0..2_000 {
        let program = generate_kernel::program(&mut Random::new(65, number));
        let rows = program.rows.concat();
        let page = print(&program.header, &rows);
        let read_rows = compare(&program.header, &page).expect("a page");
        assert_eq!(read_rows.len(), rows.len());
        assert_eq!(print(&program.header, &read_rows), page);
    }
}

/// The translations of the stored programs: their rows come back to the word.
#[test]
fn stored_programs() {
    let stored = std::fs::read("../crates/programs/stdin").expect("the stored cases");
    let mut pages = 0;
    for case in cases::read_all(&stored).expect("cases") {
        let Ok((header, rows)) = interpreter::text::read(Source, &case.text) else { continue };
        if check(Source, &header, &rows).is_err() {
            continue;
        }
        let mut kernel_header = vec![0; header.len() + 2];
        let mut kernel_rows = vec![0; 6 * clight::kernel_rows(rows.len() / 6)];
        let tables =
            clight::translate(&header, &rows, &mut kernel_header, &mut kernel_rows).unwrap();
        kernel_rows.truncate(tables.row_words);
        let page = print(&kernel_header, &kernel_rows);
        assert_eq!(compare(&kernel_header, &page).as_ref(), Ok(&kernel_rows));
        pages += 1;
    }
    assert!(pages > 2_000, "{pages} pages");
}

/// Every column of the first lines, with each of some bytes.
#[test]
fn damaged_columns() {
    let (mut refused, mut others) = (0, 0);
    for number in 0..40 {
        let program = generate_kernel::program(&mut Random::new(66, number));
        let page = print(&program.header, &program.rows.concat());
        for at in 0..page.len().min(4 * LINE) {
            for byte in *b" 0189vatlL;:{}[]()=-+<%\n\0\xff" {
                let mut damaged = page.clone();
                damaged[at] = byte;
                match compare(&program.header, &damaged) {
                    Ok(rows) => {
                        others += usize::from(damaged != page);
                        assert_eq!(print(&program.header, &rows), damaged);
                    }
                    Err(_) => refused += 1,
                }
            }
        }
    }
    assert!(refused > 100_000 && others > 500, "{refused} refused, {others} others");
}

/// Pages cut short, with lines left out, twice or exchanged, and with other headers.
#[test]
fn damaged_pages() {
    for number in 0..400 {
        let random = &mut Random::new(67, number);
        let program = generate_kernel::program(random);
        let page = print(&program.header, &program.rows.concat());
        for cut in [0, 1, COLUMNS, LINE, LINE + 1].into_iter().filter(|&cut| cut <= page.len()) {
            let _ = compare(&program.header, &page[..page.len() - cut]);
            let _ = compare(&program.header, &page[cut..]);
        }
        let _ = compare(&program.header, &[&page[..], b"\n"].concat());
        let lines: Vec<&[u8]> = page.chunks(LINE).collect();
        for at in 0..lines.len().min(12) {
            let mut fewer = lines.clone();
            fewer.remove(at);
            let _ = compare(&program.header, &fewer.concat());
            let mut more = lines.clone();
            more.insert(at, lines[at]);
            let _ = compare(&program.header, &renumbered(&more));
            let _ = compare(&program.header, &renumbered(&fewer));
            let mut swapped = lines.clone();
            swapped.swap(at, lines.len() - 1 - at);
            let _ = compare(&program.header, &renumbered(&swapped));
        }
        for (place, word) in [(0, 0), (0, 257), (1, 0), (1, 65), (2, 0), (2, 8_193), (0, -1)] {
            let mut header = program.header.clone();
            header[place] = word;
            let _ = compare(&header, &page);
        }
        let _ = compare(&program.header[..3], &page);
        let _ = compare(&program.header[..2], &page);
        let _ = compare(&program.header[..1], &page);
        let _ = compare(&[], &page);
    }
}

/// The lines with the numbers of their places.
fn renumbered(lines: &[&[u8]]) -> Vec<u8> {
    let mut page = Vec::new();
    for (at, line) in lines.iter().enumerate() {
        page.extend(format!("{:>5}", at + 1).into_bytes());
        page.extend(&line[5..]);
    }
    page
}

/// Pages of so many lines: blocks without items, or one in the other; and statements.
fn page_of(lines: usize, statement: impl Fn(usize) -> (usize, &'static str)) -> Vec<u8> {
    let mut page = Vec::new();
    for at in 0..lines {
        let (level, text) = statement(at);
        let indent = " ".repeat((2 * level).min(36));
        let line = format!("{:>5} {indent}{text}", at + 1);
        page.extend(format!("{line:<COLUMNS$}\n").into_bytes());
    }
    page
}

/// The most rows and lines, one more of each, and the deepest blocks.
#[test]
fn limits() {
    let header = [1, 0, 0];
    let blocks = |at: usize| (0, if at % 2 == 0 { "{" } else { "}" });
    assert_eq!(compare(&header, &page_of(MAX_LINES, blocks)).unwrap().len(), 6 * 40_980);
    let refused = |number: u32, place: usize| Err(format!("refused {number} {place}"));
    assert_eq!(compare(&header, &page_of(MAX_LINES + 1, blocks)), refused(14, MAX_LINES + 1));
    assert_eq!(compare(&header, &page_of(MAX_LINES + 2, blocks)), refused(14, MAX_LINES + 1));
    let empties = |_: usize| (0, ";");
    assert_eq!(compare(&header, &page_of(40_979, empties)).unwrap().len(), 6 * 40_980);
    assert_eq!(compare(&header, &page_of(40_980, empties)), refused(2, 0));
    assert_eq!(compare(&header, &page_of(MAX_LINES, empties)), refused(2, 0));
    let half = MAX_LINES / 2;
    let nested = |at: usize| if at < half { (at, "{") } else { (MAX_LINES - 1 - at, "}") };
    assert_eq!(compare(&header, &page_of(MAX_LINES, nested)).unwrap().len(), 6 * 40_980);
    assert_eq!(compare(&header, &page_of(MAX_LINES - 1, nested)), refused(14, MAX_LINES));
    assert_eq!(compare(&header, &[]).unwrap(), [42, 0, 0, 0, 0, 0]);
}
