//! Null pointers with length 0, as a caller in C may pass them: the answer is
//! that for an empty slice.

use clight::foreign::*;
use std::ptr::{null, null_mut};

/// A legal program of one block, on no words.
const HEADER: [i32; 1] = [0];
const KERNEL_HEADER: [i32; 3] = [0, 0, 0];
const ROWS: [i32; 6] = [42, 0, 0, 0, 0, 0];
const TEXT: &[u8] = b"0\n42\t0\t0\t0\t0\t0\n";
const KERNEL_TEXT: &[u8] = b"0\t0\t0\n42\t0\t0\t0\t0\t0\n";

fn refused(cause: u32, place: usize) -> Answer {
    Answer { cause, first: place, second: 0 }
}

fn done(first: usize, second: usize) -> Answer {
    Answer { cause: 0, first, second }
}

/// A preview of which nothing differs, or a refusal.
fn previewed(answer: Answer) -> PreviewAnswer {
    let Answer { cause, first, second } = answer;
    PreviewAnswer { cause, first, second, differing: 0 }
}

#[test]
fn no_header() {
    unsafe {
        let rows = ROWS.as_ptr();
        assert_eq!(clight_check(null(), 0, rows, 6), refused(1, 0));
        assert_eq!(clight_kernel_check(null(), 0, rows, 6), refused(1, 0));
        assert_eq!(clight_run(null(), 0, rows, 6, null_mut(), 0, 9), refused(1, 0));
        assert_eq!(clight_kernel_run(null(), 0, rows, 6, null_mut(), 0, 9), refused(1, 0));
        assert_eq!(clight_dispatcher_run(null(), 0, rows, 6, null_mut(), 0, 9), refused(1, 0));
        assert_eq!(clight_flatten(null(), 0, rows, 6, null_mut(), 0), refused(1, 0));
        assert_eq!(clight_read_page(null(), 0, null(), 0, null_mut(), 0), refused(1, 0));
        assert_eq!(clight_flat_run(null(), 0, null(), 0, null_mut(), 0, 9), refused(1, 0));
        let answer = clight_preview(null(), 0, rows, 6, null(), 0, 9, null_mut(), 0);
        assert_eq!(answer, previewed(refused(1, 0)));
        assert_eq!(clight_write_source(null(), 0, rows, 6, null_mut(), 0), refused(1, 0));
        assert_eq!(clight_write_kernel(null(), 0, rows, 6, null_mut(), 0), refused(1, 0));
        let answer = clight_translate(null(), 0, rows, 6, null_mut(), 0, null_mut(), 0);
        assert_eq!(answer, refused(1, 0));
        let answer = clight_join(null(), 0, rows, 6, null(), 0, rows, 6, null_mut(), 0);
        assert_eq!(answer, refused(1, 0));
    }
}

#[test]
fn no_rows() {
    unsafe {
        let (header, kernel) = (HEADER.as_ptr(), KERNEL_HEADER.as_ptr());
        assert_eq!(clight_check(header, 1, null(), 0), refused(2, 0));
        assert_eq!(clight_kernel_check(kernel, 3, null(), 0), refused(2, 0));
        assert_eq!(clight_run(header, 1, null(), 0, null_mut(), 0, 9), refused(2, 0));
        assert_eq!(clight_kernel_run(kernel, 3, null(), 0, null_mut(), 0, 9), refused(2, 0));
        assert_eq!(clight_dispatcher_run(kernel, 3, null(), 0, null_mut(), 0, 9), refused(2, 0));
        assert_eq!(clight_flatten(kernel, 3, null(), 0, null_mut(), 0), refused(2, 0));
        let answer = clight_preview(header, 1, null(), 0, null(), 0, 9, null_mut(), 0);
        assert_eq!(answer, previewed(refused(2, 0)));
        assert_eq!(clight_write_source(header, 1, null(), 0, null_mut(), 0), refused(2, 0));
        assert_eq!(clight_write_kernel(kernel, 3, null(), 0, null_mut(), 0), refused(2, 0));
        let answer = clight_translate(header, 1, null(), 0, null_mut(), 0, null_mut(), 0);
        assert_eq!(answer, refused(2, 0));
        let answer = clight_join(header, 1, null(), 0, header, 1, null(), 0, null_mut(), 0);
        assert_eq!(answer, refused(2, 0));
    }
}

#[test]
fn no_text() {
    unsafe {
        assert_eq!(clight_read_source(null(), 0, null_mut(), 0, null_mut(), 0), refused(14, 1));
        assert_eq!(clight_read_kernel(null(), 0, null_mut(), 0, null_mut(), 0), refused(14, 1));
    }
}

/// A store of no words is the right one for this program; an output of none is too short.
#[test]
fn nothing_lent() {
    unsafe {
        let (header, kernel, rows) = (HEADER.as_ptr(), KERNEL_HEADER.as_ptr(), ROWS.as_ptr());
        assert_eq!(clight_run(header, 1, rows, 6, null_mut(), 0, 9), done(0, 1));
        assert_eq!(clight_run(header, 1, rows, 6, null_mut(), 0, 0), done(1, 0));
        let answer = clight_preview(header, 1, rows, 6, null(), 0, 9, null_mut(), 0);
        assert_eq!(answer, previewed(done(0, 1)));
        assert_eq!(clight_kernel_run(kernel, 3, rows, 6, null_mut(), 0, 9), done(0, 1));
        assert_eq!(clight_dispatcher_run(kernel, 3, rows, 6, null_mut(), 0, 9), done(0, 0));
        assert_eq!(clight_dispatcher_run(kernel, 3, rows, 6, null_mut(), 0, 0), done(1, 0));
        // a block without items has no lines
        assert_eq!(clight_flatten(kernel, 3, rows, 6, null_mut(), 0), done(0, 0));
        assert_eq!(clight_flat_run(kernel, 3, null(), 0, null_mut(), 0, 0), done(0, 0));
        assert_eq!(clight_write_source(header, 1, rows, 6, null_mut(), 0), refused(10, 0));
        assert_eq!(clight_write_kernel(kernel, 3, rows, 6, null_mut(), 0), refused(10, 0));
        let answer = clight_translate(header, 1, rows, 6, null_mut(), 0, null_mut(), 0);
        assert_eq!(answer, refused(10, 0));
        let answer = clight_join(header, 1, rows, 6, header, 1, rows, 6, null_mut(), 0);
        assert_eq!(answer, refused(10, 0));
        let (text, n) = (TEXT.as_ptr(), TEXT.len());
        assert_eq!(clight_read_source(text, n, null_mut(), 0, null_mut(), 0), refused(10, 0));
        let (text, n) = (KERNEL_TEXT.as_ptr(), KERNEL_TEXT.len());
        assert_eq!(clight_read_kernel(text, n, null_mut(), 0, null_mut(), 0), refused(10, 0));
        // an empty page is that of a block without items
        assert_eq!(clight_read_page(kernel, 3, null(), 0, null_mut(), 0), refused(10, 0));
    }
}
