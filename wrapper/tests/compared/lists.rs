//! Flat lists: the library's lists, runs and refusals beside those of the
//! interpreter's own flattening and flat machine, on programs and lists made
//! and damaged at random.

use super::{mine, same_run, theirs, Plain, Tally, WORD};
use interpreter::flat::{self, damage, generate as lists};
use interpreter::generate::Size;
use interpreter::random::Random;
use interpreter::Form::{Kernel, Source};
use interpreter::{check, generate, generate_kernel, text, Refusal};

/// The runs of a flat list, which may be damaged.
fn flat_list(random: &mut Random, header: &[i32], list: &[i32], tally: &mut Tally) {
    let words = match flat::check(header, list) {
        Ok(()) => Kernel.header_words(header),
        Err(_) => random.below(9),
    };
    for room in [words, words, words, words, words, words + 1, words.saturating_sub(1)] {
        let mut store: Vec<i32> = (0..room).map(|_| random.between(-1, 4)).collect();
        let budget = random.pick(&[0, 1, 5, 30, 200, 3_000]);
        let mut other = store.clone();
        let ran = mine(clight::flat_run(header, list, &mut store, budget), tally).map(same_run);
        assert_eq!(ran, theirs(flat::run(header, list, &mut other, budget)));
        assert_eq!(store, other);
    }
}

#[test]
fn generated_lists() {
    let mut tally = Tally::default();
    for number in 0..40_000 {
        let random = &mut Random::new(51, number);
        let made = lists::list(random);
        flat_list(random, &made.header, &made.words, &mut tally);
    }
    tally.expect(&[0, 11]);
}

#[test]
fn damaged_lists() {
    let mut tally = Tally::default();
    for number in 0..60_000 {
        let random = &mut Random::new(52, number);
        let made = lists::list(random);
        let (mut header, mut words) = (made.header, made.words);
        damage::damage(random, &mut header, &mut words);
        flat_list(random, &header, &words, &mut tally);
    }
    tally.expect(&[0, 1, 2, 3, 4, 6, 11]);
}

/// Lists of any words, of every length from 0 on.
#[test]
fn random_lists() {
    let mut tally = Tally::default();
    for number in 0..20_000 {
        let random = &mut Random::new(53, number);
        let words = |random: &mut Random, most: usize| -> Vec<i32> {
            let length = random.below(most + 1);
            (0..length)
                .map(|_| match random.below(3) {
                    0 => random.between(0, 6),
                    1 => random.between(-1, 60),
                    _ => random.word() as i32,
                })
                .collect()
        };
        let (header, list) = (words(random, 5), words(random, 22));
        flat_list(random, &header, &list, &mut tally);
    }
    tally.expect(&[0, 1, 2, 3, 4, 6]);
}

/// The lists of kernel programs: the check accepts them, and a list's run and its program's run, with budget enough, end alike.
#[test]
fn lists_of_kernel_programs() {
    let mut tally = Tally::default();
    for number in 0..4_000 {
        let random = &mut Random::new(54, number);
        let program = generate_kernel::program(random);
        flattened(random, &program.header, &program.rows.concat(), &mut tally);
    }
    tally.expect(&[0, 25]);
}

/// The lists of translations: some 200,000 runs.
#[test]
fn lists_of_translations() {
    let mut tally = Tally::default();
    for number in 0..40_000 {
        let random = &mut Random::new(55, number);
        let case = generate::case(56, number, Size::Mixed);
        let (header, rows) = text::read(Source, &case.text).unwrap();
        let mut kernel_header = vec![0; header.len() + 2];
        let mut kernel_rows = vec![0; 6 * clight::kernel_rows(rows.len() / 6)];
        let tables =
            clight::translate(&header, &rows, &mut kernel_header, &mut kernel_rows).unwrap();
        kernel_rows.truncate(tables.row_words);
        flattened(random, &kernel_header, &kernel_rows, &mut tally);
    }
    tally.expect(&[0, 25]);
}

/// Flattens into so many words: the answer, and what the output holds then.
fn listed(
    header: &[i32],
    rows: &[i32],
    room: usize,
    tally: &mut Tally,
) -> (Plain<usize>, Vec<i32>) {
    let mut list = vec![WORD; room];
    let answer = mine(clight::flatten(header, rows, &mut list), tally);
    (answer, list)
}

/// The library's list beside the interpreter's, word by word: with just room enough, with room to spare, with a word and a line too few.
fn same_list(header: &[i32], rows: &[i32], list: &[i32], tally: &mut Tally) {
    for spare in [0, 1, 5, 100] {
        let (answer, left) = listed(header, rows, list.len() + spare, tally);
        assert_eq!(answer, Ok(list.len()));
        assert_eq!(left[..list.len()], *list);
        assert!(left[list.len()..].iter().all(|&word| word == WORD));
    }
    for short in [1, 5].into_iter().filter(|&short| short <= list.len()) {
        let (answer, left) = listed(header, rows, list.len() - short, tally);
        assert_eq!(answer, Err((10, 0)));
        assert!(left.iter().all(|&word| word == WORD));
    }
}

/// A refusal that comes whatever room there is, and an output that is left as it was.
fn no_list(header: &[i32], rows: &[i32], refusal: Refusal, tally: &mut Tally) {
    for room in [0, 1_000] {
        let (answer, left) = listed(header, rows, room, tally);
        assert_eq!(answer, Err((refusal.number, refusal.place as usize)));
        assert!(left.iter().all(|&word| word == WORD));
    }
}

/// The kernel check's refusals, and 25.
#[test]
fn lists_of_damaged_programs() {
    let mut tally = Tally::default();
    for number in 0..20_000 {
        let random = &mut Random::new(57, number);
        let program = generate_kernel::program(random);
        let (mut header, mut rows) = (program.header, program.rows.concat());
        generate_kernel::damage(random, &mut header, &mut rows);
        match check(Kernel, &header, &rows).and_then(|()| flat::flatten(&rows)) {
            Ok(list) => same_list(&header, &rows, &list, &mut tally),
            Err(refusal) => no_list(&header, &rows, refusal, &mut tally),
        }
    }
    tally.expect(&[0, 1, 2, 3, 4, 5, 6, 7, 10, 12, 13, 25]);
}

/// As many lines as there can be, 40,979; and the deepest loops, blocks and ifs.
#[test]
fn lists_at_the_limits() {
    let mut tally = Tally::default();
    let header = [0, 0, 0];
    let last = 40_979;
    let aborts: Vec<i32> = (0..=last)
        .flat_map(|at| match at {
            0 => [42, 1, 0, 0, 0, 0],
            _ => [57, 0, 0, 0, 0, if at < last { at + 1 } else { 0 }],
        })
        .collect();
    let list = flat::flatten(&aborts).unwrap();
    assert_eq!(list.len(), 5 * 40_979);
    same_list(&header, &aborts, &list, &mut tally);
    for (kind, constant) in [(43, 0), (43, 1), (44, 0), (44, 1)] {
        let rows = nested(kind, constant, 255);
        assert_eq!(check(Kernel, &header, &rows), Ok(()));
        let list = flat::flatten(&rows).unwrap();
        // a level: a test and a jump back, or one of them
        let lines = if (kind, constant) == (44, 0) { 2 * 255 + 1 } else { 255 + 1 };
        assert_eq!(list.len(), 5 * lines);
        same_list(&header, &rows, &list, &mut tally);
    }
    tally.expect(&[0, 10]);
}

/// So many ifs without an else, or whiles, one inside the other, around an abort.
fn nested(kind: i32, constant: i32, levels: i32) -> Vec<i32> {
    let mut rows = vec![[42, 1, 0, 0, 0, 0]];
    for _ in 0..levels {
        let at = rows.len() as i32;
        rows.push([1, constant, 0, 0, 0, 0]);
        let body = if kind == 43 { at + 3 } else { at + 2 };
        rows.insert(at as usize, [kind, at + 1, body, if kind == 43 { at + 2 } else { 0 }, 0, 0]);
        if kind == 43 {
            rows.push([42, 0, 0, 0, 0, 0]);
        }
        rows.push([42, body + 1, 0, 0, 0, 0]);
    }
    rows.push([57, 0, 0, 0, 0, 0]);
    rows.concat()
}

fn flattened(random: &mut Random, header: &[i32], rows: &[i32], tally: &mut Tally) {
    let list = match flat::flatten(rows) {
        Ok(list) => list,
        Err(refusal) => return no_list(header, rows, refusal, tally),
    };
    assert!(list.len() / 5 < rows.len() / 6);
    same_list(header, rows, &list, tally);
    assert_eq!(flat::check(header, &list), Ok(()));
    flat_list(random, header, &list, tally);
    let mut store: Vec<i32> =
        (0..Kernel.header_words(header)).map(|_| random.between(-2, 4)).collect();
    let mut kernel_store = store.clone();
    let ran = clight::flat_run(header, &list, &mut store, 20_000).unwrap();
    if ran.ending == clight::Ending::Spent {
        return;
    }
    // a line takes few steps of the kernel; an if or a block without lines takes some, too
    let steps = (rows.len() as u32).saturating_mul(ran.count + 1);
    let kernel = clight::kernel_run(header, rows, &mut kernel_store, steps).unwrap();
    assert_eq!(kernel.ending, ran.ending);
    assert_eq!(kernel_store, store);
}
