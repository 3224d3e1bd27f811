//! Pages: what is printed is read back, and damage is never read as the same program.

use interpreter::check;
use interpreter::generate_kernel::program;
use interpreter::page::{print, read, COLUMNS};
use interpreter::random::Random;
use interpreter::table::*;
use interpreter::Form::Kernel;

/// The rows numbered in the order of the page: a statement's row, then its parts in the order of their fields, then the row behind it.
fn in_page_order(rows: &[Row]) -> Vec<i32> {
    let (mut order, mut ahead) = (Vec::new(), vec![0]);
    while let Some(at) = ahead.pop() {
        order.push(at);
        let row = rows[at];
        let fields = Kernel.fields_or_unused(row[0]);
        let links = (1..NEXT).filter(|&field| fields[field - 1].is_link()).chain([NEXT]);
        ahead.extend(links.rev().map(|field| row[field] as usize).filter(|&link| link != 0));
    }
    let place = |link: i32| order.iter().position(|&at| at == link as usize).unwrap() as i32;
    let renumbered = order.iter().map(|&at| {
        let mut row = rows[at];
        let fields = Kernel.fields_or_unused(row[0]);
        for field in 1..=NEXT {
            let links = field == NEXT || fields[field - 1].is_link();
            if links && row[field] != 0 {
                row[field] = place(row[field]);
            }
        }
        row
    });
    renumbered.collect::<Vec<Row>>().concat()
}

#[test]
fn pages_are_read_back() {
    for number in 0..3_000 {
        let program = program(&mut Random::new(51, number));
        let rows = program.rows.concat();
        let page = print(&program.header, &rows);
        assert_eq!(page.len() % (COLUMNS + 1), 0);
        assert!(page.chunks(COLUMNS + 1).all(|line| line[COLUMNS] == b'\n'));
        assert_eq!(read(&program.header, &page), Ok(in_page_order(rows_of(&rows))));
    }
}

/// Each column of the first lines of some pages is damaged, with each of some bytes: the damaged bytes are no page, or the page of
/// another program.
#[test]
fn damaged_pages() {
    let (mut refused, mut other) = (0, 0);
    for number in 0..40 {
        let program = program(&mut Random::new(52, number));
        let rows = program.rows.concat();
        let page = print(&program.header, &rows);
        let whole = read(&program.header, &page);
        for at in 0..page.len().min(4 * (COLUMNS + 1)) {
            for byte in *b" 019vatlL;:{}[]()=-+<%\n\0" {
                if page[at] == byte {
                    continue;
                }
                let mut damaged = page.clone();
                damaged[at] = byte;
                match read(&program.header, &damaged) {
                    Err(refusal) => {
                        refused += 1;
                        assert_eq!(refusal.number, 14);
                        assert!(refusal.place as usize > at / (COLUMNS + 1));
                    }
                    Ok(read_rows) => {
                        other += 1;
                        assert_ne!(Ok(&read_rows), whole.as_ref());
                        assert_eq!(print(&program.header, &read_rows), damaged);
                    }
                }
            }
        }
        for cut in [0, 1, COLUMNS, COLUMNS + 1].into_iter().filter(|&cut| cut < page.len()) {
            let read_rows = read(&program.header, &page[cut + 1..]);
            assert!(read_rows.is_err() || page.len() == cut + 1);
        }
    }
    assert!(refused > 10_000 && other > 100, "{refused} refused, {other} others");
}

/// Declared words are l from 0, temporaries t from 0.
#[test]
fn names_of_words() {
    let set = |at: i32, number, next| {
        [
            [EXPRESSION, at + 1, 0, 0, 0, next],
            [ASSIGN, at + 2, at + 3, 0, 0, 0],
            [VARIABLE, number, 0, 0, 0, 0],
            [CONSTANT, number, 0, 0, 0, 0],
        ]
        .concat()
    };
    let header = [1, 2, 1, 3];
    let numbers = [0, 4, 5, 6];
    let mut rows = vec![BLOCK, 1, 0, 0, 0, 0];
    for (i, &number) in numbers.iter().enumerate() {
        let at = 1 + 4 * i as i32;
        rows.extend(set(at, number, if i < 3 { at + 4 } else { 0 }));
    }
    assert_eq!(check(Kernel, &header, &rows), Ok(()));
    let page = print(&header, &rows);
    let lines: Vec<&str> =
        std::str::from_utf8(&page).unwrap().lines().map(|l| l[6..].trim()).collect();
    assert_eq!(lines, ["v0 = 0;", "l0 = 4;", "l1 = 5;", "t0 = 6;"]);
    assert_eq!(read(&header, &page), Ok(rows));
    for fewer in [[0, 2, 1, 3], [1, 1, 1, 3], [1, 2, 0, 3]] {
        assert!(read(&fewer, &page).is_err());
    }
}

/// A line for each parameter and argument, at the level of their definition or statement.
#[test]
fn functions() {
    let rows: Vec<Row> = vec![
        [BLOCK, 1, 0, 0, 0, 0],
        [DEFINE, 0, 0, 2, 0, 5],
        [BLOCK, 3, 0, 0, 0, 0],
        [RETURN, 4, 0, 0, 0, 0],
        [CONSTANT, -7, 0, 0, 0, 0],
        [DEFINE, 1, 6, 8, 0, 13],
        [DECLARE, 2, 0, 0, 0, 7],
        [DECLARE, 1, 0, 0, 0, 0],
        [BLOCK, 9, 0, 0, 0, 0],
        [EXPRESSION, 10, 0, 0, 0, 0],
        [ASSIGN, 11, 12, 0, 0, 0],
        [VARIABLE, 3, 0, 0, 0, 0],
        [CALL, 0, 0, 0, 0, 0],
        [BLOCK, 14, 0, 0, 0, 0],
        [EXPRESSION, 15, 0, 0, 0, 0],
        [ASSIGN, 16, 17, 0, 0, 0],
        [VARIABLE, 0, 0, 0, 0, 0],
        [CALL, 1, 18, 0, 0, 0],
        [ARGUMENT, 19, 0, 0, 0, 20],
        [VARIABLE, 0, 0, 0, 0, 0],
        [ARGUMENT, 21, 0, 0, 0, 0],
        [CONSTANT, 3, 0, 0, 0, 0],
    ];
    let (header, rows) = ([1, 2, 1], rows.concat());
    assert_eq!(check(Kernel, &header, &rows), Ok(()));
    let page = print(&header, &rows);
    let lines: Vec<&str> =
        std::str::from_utf8(&page).unwrap().lines().map(|l| l[6..].trim_end()).collect();
    let expected = [
        "int f0() {",
        "  return -7;",
        "}",
        "int f1(",
        "int l1,",
        "int l0) {",
        "  t0 = f0();",
        "}",
        "{",
        "  v0 = f1(",
        "  v0,",
        "  3);",
        "}",
    ];
    assert_eq!(lines, expected);
    assert_eq!(read(&header, &page), Ok(rows));
    // A page that ends inside parentheses, and one without the line of its last argument.
    let cut = |lines: usize| read(&header, &page[..lines * (COLUMNS + 1)]);
    assert_eq!(cut(11), Err(Refusal::new(14, 12)));
    assert_eq!(cut(5), Err(Refusal::new(14, 6)));
    // Fewer declared words than the parameters name.
    assert_eq!(read(&[1, 1, 1], &page), Err(Refusal::new(14, 5)));
}
