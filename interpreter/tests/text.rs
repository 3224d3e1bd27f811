//! The text form and the limits of the trial program.

use interpreter::rules::EXAMPLE;
use interpreter::table::*;
use interpreter::text::{number, read, write};
use interpreter::tree::*;
use interpreter::trial::trial;
use interpreter::Form::{Kernel, Source};
use interpreter::Refusal;

fn refused(text: &str) -> (u32, u32) {
    match read(Source, text.as_bytes()) {
        Ok(_) => (0, 0),
        Err(Refusal { number, place }) => (number, place),
    }
}

#[test]
fn numbers() {
    for (field, value) in [
        ("0", 0),
        ("7", 7),
        ("-7", -7),
        ("10", 10),
        ("2147483647", i32::MAX),
        ("-2147483648", i32::MIN),
    ] {
        assert_eq!(number(field.as_bytes()), Some(value));
    }
    for field in [
        "",
        "-",
        "--1",
        "-0",
        "00",
        "01",
        "-01",
        "+0",
        "+1",
        " 1",
        "1 ",
        "1\r",
        "1\0",
        "a",
        "1a",
        "0x1",
        "1.0",
        "1e1",
        "2147483648",
        "-2147483649",
        "4294967296",
        "9223372036854775808",
        "18446744073709551616",
        "340282366920938463463374607431768211456",
        "\u{2212}1",
        "\u{feff}1",
    ] {
        assert_eq!(number(field.as_bytes()), None, "{field:?}");
    }
}

#[test]
fn lines() {
    let row = "42\t0\t0\t0\t0\t0\n";
    assert_eq!(refused(""), (14, 1));
    assert_eq!(refused("\n"), (14, 1));
    assert_eq!(refused("1"), (14, 1));
    assert_eq!(refused("1\n"), (2, 0));
    assert_eq!(refused("257\n"), (1, 0));
    assert_eq!(refused(&format!("1\n{row}")), (0, 0));
    assert_eq!(refused(&format!("\n{row}")), (14, 1));
    assert_eq!(refused(&format!("1\n{row}\n")), (14, 3));
    assert_eq!(refused(&format!("1\n\n{row}")), (14, 2));
    assert_eq!(refused(&format!("1\n{}", row.trim_end())), (14, 2));
    assert_eq!(refused(&format!("1\n{row}").replace('\n', "\r\n")), (14, 1));
    assert_eq!(refused(&format!("1\t\n{row}")), (14, 1));
    assert_eq!(refused(&format!("\t1\n{row}")), (14, 1));
    assert_eq!(refused(&format!("1\t\t1\n{row}")), (14, 1));
    assert_eq!(refused("1\n42\t0\t0\t0\t0\n"), (14, 2));
    assert_eq!(refused("1\n42\t0\t0\t0\t0\t0\t0\n"), (14, 2));
    assert_eq!(refused("1\n42\t0\t0\t0\t0\t\n"), (14, 2));
    assert_eq!(refused("1\n42\t0\t0\t0\t0\t0\t\n"), (14, 2));
    assert_eq!(refused("1\n42 0 0 0 0 0\n"), (14, 2));
    let ones = |count: usize| format!("{}\n{row}", vec!["1"; count].join("\t"));
    assert_eq!(refused(&ones(33)), (0, 0));
    assert_eq!(refused(&ones(34)), (14, 1));
    assert_eq!(refused(&ones(35)), (14, 1));
}

#[test]
fn order_of_causes() {
    // 14 over the whole text, then 1, then 2.
    assert_eq!(refused("257\n42\t0\t0\t0\t0\t-0\n"), (14, 2));
    assert_eq!(refused("-1\n"), (1, 0));
    let rows = "40\t0\t0\t0\t0\t0\n".repeat(2049);
    assert_eq!(refused(&format!("-1\n{rows}")), (1, 0));
    assert_eq!(refused(&format!("1\n{rows}")), (2, 0));
    assert_eq!(refused(&format!("1\n{rows}x\n")), (14, 2051));
    // The first malformed line is named, the missing newline last.
    assert_eq!(refused("1\n01\n1"), (14, 2));
}

#[test]
fn bytes_and_rows_come_back() {
    let (header, rows) = read(Source, EXAMPLE.as_bytes()).unwrap();
    assert_eq!((header.as_slice(), rows.len()), ([1, 3].as_slice(), 78));
    assert_eq!(write(&header, &rows), EXAMPLE.as_bytes());
    let rows = [i32::MIN, i32::MAX, -1, 0, 10, -10];
    assert_eq!(read(Source, &write(&[256, 4096], &rows)), Ok((vec![256, 4096], rows.to_vec())));
}

/// A kernel text has two numbers more in line 1, and more rows.
#[test]
fn kernel_texts() {
    let refused = |text: &str| read(Kernel, text.as_bytes()).err().map(|r| (r.number, r.place));
    let row = "42\t0\t0\t0\t0\t0\n";
    assert_eq!(refused(&format!("1\t0\n{row}")), Some((14, 1)));
    assert_eq!(refused(&format!("1\t0\t8192\n{row}")), None);
    assert_eq!(refused(&format!("1\t0\t8193\n{row}")), Some((1, 0)));
    let ones = |count: usize| format!("{}\n{row}", vec!["1"; count].join("\t"));
    assert_eq!(refused(&format!("1\t64\t0\n{row}")), None);
    assert_eq!(refused(&format!("1\t65\t0\n{row}")), Some((1, 0)));
    assert_eq!(refused(&ones(35)), None);
    assert_eq!(refused(&ones(36)), Some((14, 1)));
    assert_eq!(refused(&format!("0\t0\t0\n{}", row.repeat(40_980))), None);
    assert_eq!(refused(&format!("0\t0\t0\n{}", row.repeat(40_981))), Some((2, 0)));
}

fn empties(header: &[i32], rows: usize) -> Vec<u8> {
    write(header, &rows_in_order(&block((1..rows).map(|_| plain(EMPTY)).collect())))
}

#[test]
fn trial_limits() {
    assert_eq!(trial(&vec![b'x'; 16_384]), "refused 14 1");
    assert_eq!(trial(&vec![b'x'; 16_385]), "refused 2 0");
    assert_eq!(trial(b""), "refused 14 1");
    assert_eq!(trial(&empties(&[0], 128)), "source ended 128 0");
    assert_eq!(trial(&empties(&[0], 129)), "refused 2 0");
    assert_eq!(trial(&empties(&[1, 1024], 129)), "refused 1 0");
    assert_eq!(trial(&empties(&[1, 1024], 1)), "refused 1 0");
    assert_eq!(trial(&empties(&[0, 1024], 1)), format!("source ended 1{} 0", " 0".repeat(1024)));
    assert_eq!(trial(b"1\t1024\n"), "refused 1 0");
    assert_eq!(trial(b"0\n"), "refused 2 0");
    // 2 comes before 3.
    let mut rows = empties(&[0], 129);
    rows.splice(2..4, *b"99");
    assert_eq!(trial(&rows), "refused 2 0");
}

#[test]
fn trial_endings() {
    let endless =
        write(&[1], &rows_in_order(&block(vec![for_loop(None, None, None, plain(EMPTY))])));
    assert_eq!(trial(&endless), "source spent 100000 0 0");
    let fault = binary(DIVIDE, constant(1), constant(0));
    let fault = write(&[0], &rows_in_order(&block(vec![expression(fault)])));
    assert_eq!(trial(&fault), "source zero 5 0");
    assert_eq!(trial(b"0\n42\t0\t0\t0\t0\t0\n"), "source ended 1 0");
    assert_eq!(trial(b"0\n50\t0\t0\t0\t0\t0\n"), "refused 5 0");
}
