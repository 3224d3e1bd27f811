//! The text form: reader and writer.

use crate::check::{check_header, check_sizes};
use crate::flat::LINE;
use crate::form::Form;
use crate::table::{Refusal, MAX_ARRAYS, WORDS};

/// The header's words and the rows' words.
pub type Program = (Vec<i32>, Vec<i32>);

/// Reads a text: 14 first, over the whole text, then 1, then 2.
pub fn read(form: Form, bytes: &[u8]) -> Result<Program, Refusal> {
    let (header, rows) = read_lines(form, bytes)?;
    check_sizes(form, &header, &rows)?;
    Ok((header, rows))
}

/// Reads the words of a text, testing its lines (14) alone.
pub fn read_lines(form: Form, bytes: &[u8]) -> Result<Program, Refusal> {
    read_table(form, WORDS, bytes)
}

/// Reads the text of a flat list: the kernel's first line, then five words a line.
/// 14 first, then 1.
pub fn read_list(bytes: &[u8]) -> Result<Program, Refusal> {
    let (header, list) = read_table(Form::Kernel, LINE, bytes)?;
    check_header(Form::Kernel, &header)?;
    Ok((header, list))
}

/// The words of a text whose lines behind the first have so many.
fn read_table(form: Form, width: usize, bytes: &[u8]) -> Result<Program, Refusal> {
    let header_words = form.leading_words()..=form.leading_words() + MAX_ARRAYS;
    let mut header = Vec::new();
    let mut rows = Vec::new();
    let mut rest = bytes;
    let mut line = 1;
    while line == 1 || !rest.is_empty() {
        let malformed = Refusal::new(14, line);
        let end = rest.iter().position(|&byte| byte == b'\n').ok_or(malformed)?;
        let words = if line == 1 { &mut header } else { &mut rows };
        let before = words.len();
        for field in rest[..end].split(|&byte| byte == b'\t') {
            words.push(number(field).ok_or(malformed)?);
        }
        let count = words.len() - before;
        let well = if line == 1 { header_words.contains(&count) } else { count == width };
        if !well {
            return Err(malformed);
        }
        rest = &rest[end + 1..];
        line += 1;
    }
    Ok((header, rows))
}

/// A decimal number of 32 signed bits: no plus, no leading zero, no -0.
pub fn number(field: &[u8]) -> Option<i32> {
    let (negative, digits) = match field {
        [b'-', digits @ ..] => (true, digits),
        digits => (false, digits),
    };
    match digits {
        [] => return None,
        [b'0'] => return if negative { None } else { Some(0) },
        [b'0', ..] => return None,
        _ => {}
    }
    let mut value: i64 = 0;
    for &digit in digits {
        if !digit.is_ascii_digit() {
            return None;
        }
        value = value * 10 + i64::from(digit - b'0');
        if value > 1 << 31 {
            return None;
        }
    }
    i32::try_from(if negative { -value } else { value }).ok()
}

/// Writes a program; rows are groups of six words.
pub fn write(header: &[i32], rows: &[i32]) -> Vec<u8> {
    write_table(header, WORDS, rows)
}

/// Writes a flat list; lines are groups of five words.
pub fn write_list(header: &[i32], list: &[i32]) -> Vec<u8> {
    write_table(header, LINE, list)
}

fn write_table(header: &[i32], width: usize, rows: &[i32]) -> Vec<u8> {
    let mut bytes = Vec::with_capacity(rows.len() * 3 + header.len() * 5);
    write_line(&mut bytes, header);
    for row in rows.chunks(width) {
        write_line(&mut bytes, row);
    }
    bytes
}

fn write_line(bytes: &mut Vec<u8>, words: &[i32]) {
    for (i, word) in words.iter().enumerate() {
        if i > 0 {
            bytes.push(b'\t');
        }
        bytes.extend_from_slice(word.to_string().as_bytes());
    }
    bytes.push(b'\n');
}
