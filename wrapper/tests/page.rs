//! Pages: the library's beside the interpreter's, on generated kernel programs,
//! damaged ones and translations; with room to spare, with just enough, and with
//! a byte too few. Each page is read again.

use interpreter::generate::Size;
use interpreter::page::{print, read};
use interpreter::random::Random;
use interpreter::table::rows_of;
use interpreter::Form::{Kernel, Source};
use interpreter::{check, generate, generate_kernel};

/// What stands in a page before a call.
const BYTE: u8 = 0xA5;

fn refused(cause: u32, place: u32) -> String {
    format!("refused {cause} {place}")
}

/// Prints into a page of so many bytes: the answer, and what the page holds then.
fn printed(header: &[i32], rows: &[i32], bytes: usize) -> (Result<usize, String>, Vec<u8>) {
    let mut page = vec![BYTE; bytes];
    let answer = clight::print_kernel(header, rows, &mut page);
    (answer.map_err(|refusal| refused(refusal.cause as u32, refusal.place as u32)), page)
}

/// Compares the page of a program that the interpreter accepts, and gives it.
fn compare(header: &[i32], rows: &[i32]) -> Vec<u8> {
    let page = print(header, rows);
    for spare in [0, 1, 81, 1_000] {
        let (answer, left) = printed(header, rows, page.len() + spare);
        assert_eq!(answer, Ok(page.len()));
        assert_eq!(left[..page.len()], page);
        assert!(left[page.len()..].iter().all(|&byte| byte == BYTE));
    }
    for short in [1, 80, 81].into_iter().filter(|&short| short <= page.len()) {
        let (answer, left) = printed(header, rows, page.len() - short);
        assert_eq!(answer, Err(refused(10, 0)));
        assert!(left.iter().all(|&byte| byte == BYTE));
    }
    page
}

#[test]
fn kernel_programs() {
    for number in 0..2_000 {
        let program = generate_kernel::program(&mut Random::new(61, number));
        let rows = program.rows.concat();
        let page = compare(&program.header, &rows);
        let read_rows = read(&program.header, &page).expect("a page");
        assert_eq!(read_rows.len(), rows.len());
        assert_eq!(compare(&program.header, &read_rows), page);
    }
}

/// The check's refusal, whatever room there is, and a page that is left as it was.
#[test]
fn damaged_programs() {
    let mut refusals = 0;
    for number in 0..4_000 {
        let random = &mut Random::new(62, number);
        let program = generate_kernel::program(random);
        let (mut header, mut rows) = (program.header, program.rows.concat());
        generate_kernel::damage(random, &mut header, &mut rows);
        let Err(refusal) = check(Kernel, &header, &rows) else {
            compare(&header, &rows);
            continue;
        };
        refusals += 1;
        for bytes in [0, 10_000] {
            let (answer, left) = printed(&header, &rows, bytes);
            assert_eq!(answer, Err(refusal.to_string()));
            assert!(left.iter().all(|&byte| byte == BYTE));
        }
    }
    assert!(refusals > 2_000);
}

/// Their rows stand in the page's own order, and come back to the word.
#[test]
fn translations() {
    for number in 0..1_000 {
        let case = generate::case(63, number, if number < 980 { Size::Mixed } else { Size::Large });
        let (header, rows) = interpreter::text::read(Source, &case.text).unwrap();
        let mut kernel_header = vec![0; header.len() + 2];
        let mut kernel_rows = vec![0; 6 * clight::kernel_rows(rows.len() / 6)];
        let tables =
            clight::translate(&header, &rows, &mut kernel_header, &mut kernel_rows).unwrap();
        kernel_rows.truncate(tables.row_words);
        let page = compare(&kernel_header, &kernel_rows);
        assert_eq!(read(&kernel_header, &page).as_ref(), Ok(&kernel_rows));
    }
}

/// Damaged pages that are read as a legal program are printed by the library as they stand.
#[test]
fn damaged_pages() {
    let mut others = 0;
    for number in 0..30 {
        let program = generate_kernel::program(&mut Random::new(64, number));
        let page = print(&program.header, &program.rows.concat());
        for at in 0..page.len().min(3 * 81) {
            for byte in *b" 19vatlL;{}-+<" {
                let mut damaged = page.clone();
                damaged[at] = byte;
                let Ok(rows) = read(&program.header, &damaged) else { continue };
                if damaged != page && check(Kernel, &program.header, &rows).is_ok() {
                    others += 1;
                    assert_eq!(compare(&program.header, &rows), damaged);
                }
            }
        }
    }
    assert!(others > 30, "{others} others");
}

/// The most rows, each a block: two lines each but for row 0; and blocks as deep as the limit.
#[test]
fn limits() {
    let rows: Vec<i32> = (0..40_980)
        .flat_map(|at| match at {
            0 => [42, 1, 0, 0, 0, 0],
            40_979 => [42, 0, 0, 0, 0, 0],
            _ => [42, 0, 0, 0, 0, at + 1],
        })
        .collect();
    let page = compare(&[0, 0, 0], &rows);
    assert_eq!(page.len(), 81 * 81_958);
    assert_eq!(rows_of(&rows).len(), 40_980);
    let deep: Vec<i32> =
        (0..512).flat_map(|at| [42, if at < 511 { at + 1 } else { 0 }, 0, 0, 0, 0]).collect();
    assert_eq!(compare(&[0, 0, 0], &deep).len(), 81 * 2 * 511);
}
