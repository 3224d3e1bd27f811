//! The functions of the proved library, as include/clight.h declares them. A
//! slice passes as its pointer and its length in elements.

/// Document 01's number of the cause, or 0, and two values.
#[repr(C)]
#[derive(Clone, Copy, Debug, PartialEq, Eq)]
pub struct Answer {
    pub cause: u32,
    pub first: usize,
    pub second: usize,
}

/// The numbers of a run, and how many of the first S store words would differ.
#[repr(C)]
#[derive(Clone, Copy, Debug, PartialEq, Eq)]
pub struct PreviewAnswer {
    pub cause: u32,
    pub first: usize,
    pub second: usize,
    pub differing: usize,
}

/// A check, of either form.
pub type Check = unsafe extern "C" fn(*const i32, usize, *const i32, usize) -> Answer;
/// A run, of either form.
pub type Run =
    unsafe extern "C" fn(*const i32, usize, *const i32, usize, *mut i32, usize, u32) -> Answer;
/// A reader, of either form.
pub type Read = unsafe extern "C" fn(*const u8, usize, *mut i32, usize, *mut i32, usize) -> Answer;
/// A writer, of either form.
pub type Write =
    unsafe extern "C" fn(*const i32, usize, *const i32, usize, *mut u8, usize) -> Answer;

extern "C" {
    pub fn clight_check(
        header: *const i32,
        header_words: usize,
        rows: *const i32,
        row_words: usize,
    ) -> Answer;

    pub fn clight_run(
        header: *const i32,
        header_words: usize,
        rows: *const i32,
        row_words: usize,
        store: *mut i32,
        store_words: usize,
        budget: u32,
    ) -> Answer;

    pub fn clight_preview(
        header: *const i32,
        header_words: usize,
        rows: *const i32,
        row_words: usize,
        store: *const i32,
        store_words: usize,
        budget: u32,
        scratch: *mut i32,
        scratch_words: usize,
    ) -> PreviewAnswer;

    pub fn clight_translate(
        header: *const i32,
        header_words: usize,
        rows: *const i32,
        row_words: usize,
        kernel_header: *mut i32,
        kernel_header_words: usize,
        kernel_rows: *mut i32,
        kernel_row_words: usize,
    ) -> Answer;

    pub fn clight_join(
        header: *const i32,
        header_words: usize,
        rows: *const i32,
        row_words: usize,
        second_header: *const i32,
        second_header_words: usize,
        second_rows: *const i32,
        second_row_words: usize,
        out_rows: *mut i32,
        out_row_words: usize,
    ) -> Answer;

    pub fn clight_kernel_check(
        header: *const i32,
        header_words: usize,
        rows: *const i32,
        row_words: usize,
    ) -> Answer;

    pub fn clight_kernel_run(
        header: *const i32,
        header_words: usize,
        rows: *const i32,
        row_words: usize,
        store: *mut i32,
        store_words: usize,
        budget: u32,
    ) -> Answer;

    pub fn clight_dispatcher_run(
        header: *const i32,
        header_words: usize,
        rows: *const i32,
        row_words: usize,
        words: *mut i32,
        word_count: usize,
        budget: u32,
    ) -> Answer;

    pub fn clight_flatten(
        header: *const i32,
        header_words: usize,
        rows: *const i32,
        row_words: usize,
        list: *mut i32,
        list_words: usize,
    ) -> Answer;

    pub fn clight_flat_run(
        header: *const i32,
        header_words: usize,
        list: *const i32,
        list_words: usize,
        store: *mut i32,
        store_words: usize,
        budget: u32,
    ) -> Answer;

    pub fn clight_read_source(
        text: *const u8,
        text_bytes: usize,
        header: *mut i32,
        header_words: usize,
        rows: *mut i32,
        row_words: usize,
    ) -> Answer;

    pub fn clight_read_kernel(
        text: *const u8,
        text_bytes: usize,
        header: *mut i32,
        header_words: usize,
        rows: *mut i32,
        row_words: usize,
    ) -> Answer;

    pub fn clight_write_source(
        header: *const i32,
        header_words: usize,
        rows: *const i32,
        row_words: usize,
        text: *mut u8,
        text_bytes: usize,
    ) -> Answer;

    pub fn clight_write_kernel(
        header: *const i32,
        header_words: usize,
        rows: *const i32,
        row_words: usize,
        text: *mut u8,
        text_bytes: usize,
    ) -> Answer;

    pub fn clight_print_kernel(
        header: *const i32,
        header_words: usize,
        rows: *const i32,
        row_words: usize,
        page: *mut u8,
        page_bytes: usize,
    ) -> Answer;

    pub fn clight_read_page(
        header: *const i32,
        header_words: usize,
        page: *const u8,
        page_bytes: usize,
        rows: *mut i32,
        row_words: usize,
    ) -> Answer;
}
