//! Damages to the bytes of a text and to the start words: causes 14 and 11.

use crate::form::Form;
use crate::random::Random;
use crate::table::MAX_ARRAYS;

/// Fields that are no numbers of the text form.
const BAD_FIELDS: [&str; 24] = [
    "",
    "-",
    "--1",
    "-01",
    "00",
    "01",
    "-0",
    "+0",
    "+1",
    " 1",
    "1 ",
    "1\r",
    "2147483648",
    "-2147483649",
    "4294967296",
    "4294967297",
    "18446744073709551617",
    "99999999999999999999999999",
    "\u{2212}1",
    "1\0",
    "a",
    "0x1",
    "1.0",
    "1,0",
];

/// The positions of the fields of a text: line start, and after each tab.
fn field_ends(bytes: &[u8]) -> Vec<(usize, usize)> {
    let mut ends = Vec::new();
    let mut start = 0;
    for (i, &byte) in bytes.iter().enumerate() {
        if byte == b'\t' || byte == b'\n' {
            ends.push((start, i));
            start = i + 1;
        }
    }
    ends
}

/// Damages a text; the first line's limits are those of the form.
pub fn damage_text(form: Form, random: &mut Random, bytes: &mut Vec<u8>) {
    let ends = field_ends(bytes);
    if ends.is_empty() {
        return;
    }
    let chosen = match random.below(4) {
        0 => random.below(ends.len().min(4)),
        1 => ends.len() - 1 - random.below(ends.len().min(7)),
        _ => random.below(ends.len()),
    };
    let (start, end) = ends[chosen];
    let line_starts: Vec<usize> =
        ends.iter().map(|end| end.0).filter(|&i| i == 0 || bytes[i - 1] == b'\n').collect();
    let line = random.pick(&line_starts);
    match random.below(24) {
        choice @ (0..=7 | 10..=13 | 15 | 16 | 23) => {
            damage_field(random, bytes, choice, start, end)
        }
        19 => bytes.truncate(random.pick(&[0, 0, 1, 2, line, end])),
        choice => damage_lines(form, random, bytes, choice, line),
    }
}

/// Damages to the field from start to end.
fn damage_field(random: &mut Random, bytes: &mut Vec<u8>, choice: usize, start: usize, end: usize) {
    match choice {
        0..=7 => {
            bytes.splice(start..end, random.pick(&BAD_FIELDS).bytes());
        }
        10 => bytes.insert(end, b'\t'),
        11 => bytes.insert(start, b'\t'),
        12 => {
            bytes.splice(end..end, *b"\t0");
        }
        13 => {
            bytes.remove(end);
        }
        15 => bytes[end] = random.pick(b" \r;\0"),
        16 => bytes.insert(end, random.pick(b" \r\0a")),
        _ => {
            // Numbers at the ends of the range are well formed.
            bytes.splice(start..end, random.pick(&["2147483647", "-2147483648"]).bytes());
        }
    }
}

/// Damages to the lines; one of them starts at the given byte.
fn damage_lines(form: Form, random: &mut Random, bytes: &mut Vec<u8>, choice: usize, line: usize) {
    match choice {
        8 => {
            bytes.pop();
        }
        9 => bytes.push(b'\n'),
        14 => bytes.insert(line, b'\n'),
        17 => lengthen_first_line(form, random, bytes),
        18 => {
            bytes.splice(0..0, *b"\xEF\xBB\xBF");
        }
        20 => *bytes = b"\n".to_vec(),
        21 => {
            // The line ends as on other systems.
            let ends: Vec<usize> = (0..bytes.len()).filter(|&i| bytes[i] == b'\n').collect();
            if !ends.is_empty() {
                bytes.insert(random.pick(&ends), b'\r');
            }
        }
        _ => {
            // A whole line goes: well formed, but the links are off.
            let length = bytes[line..].iter().position(|&byte| byte == b'\n').unwrap_or(0);
            bytes.drain(line..=line + length);
        }
    }
}

/// A first line of the most numbers that are well formed, or of one or two more.
fn lengthen_first_line(form: Form, random: &mut Random, bytes: &mut Vec<u8>) {
    let end = bytes.iter().position(|&byte| byte == b'\n').unwrap_or(0);
    let present = bytes[..end].iter().filter(|&&byte| byte == b'\t').count() + 1;
    let most = form.leading_words() + MAX_ARRAYS;
    let wanted = random.pick(&[most, most + 1, most + 1, most + 2]);
    let more = b"\t1".repeat(wanted - present.min(wanted));
    bytes.splice(end..end, more);
}

/// Start words that are too few or too many, mostly of a store of so many.
pub fn damage_words(random: &mut Random, store: i64, words: &mut Vec<i32>) {
    let size = store.clamp(0, 300) as usize;
    let wanted = match random.below(4) {
        0 => size.saturating_sub(1),
        1 => 1,
        2 => size * 2 + 1,
        _ => size + 1,
    };
    words.resize(wanted, 7);
}
