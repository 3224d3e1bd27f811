//! The library's answers beside those of the interpreter built apart: on
//! generated and damaged programs, on tables of any words, with room to spare
//! and with none.

mod compared;

use compared::{kernel_program, reader, source_case, source_tables, Tally, KERNEL, SOURCE};
use interpreter::generate::Size;
use interpreter::random::Random;
use interpreter::Form::Source;
use interpreter::{damage, generate, generate_kernel};

#[test]
fn generated_source_programs() {
    let mut tally = Tally::default();
    for number in 0..4_000 {
        source_case(&generate::case(31, number, Size::Mixed), &mut tally);
    }
    tally.expect(&[0, 10, 11, 15]);
}

#[test]
fn large_source_programs() {
    let mut tally = Tally::default();
    for number in 0..60 {
        source_case(&generate::case(32, number, Size::Large), &mut tally);
    }
    tally.expect(&[0]);
}

#[test]
fn damaged_source_programs() {
    let mut tally = Tally::default();
    for number in 0..8_000 {
        source_case(&damage::case(33, number), &mut tally);
    }
    tally.expect(&[0, 1, 2, 3, 4, 5, 6, 7, 8, 9, 11, 14, 15, 18, 19, 20, 23, 24]);
}

#[test]
fn kernel_programs() {
    let mut tally = Tally::default();
    for number in 0..4_000 {
        let random = &mut Random::new(34, number);
        let program = generate_kernel::program(random);
        kernel_program(random, &program.header, &program.rows.concat(), &mut tally);
    }
    tally.expect(&[0]);
}

#[test]
fn damaged_kernel_programs() {
    let mut tally = Tally::default();
    for number in 0..20_000 {
        let random = &mut Random::new(35, number);
        let program = generate_kernel::program(random);
        let (mut header, mut rows) = (program.header, program.rows.concat());
        generate_kernel::damage(random, &mut header, &mut rows);
        kernel_program(random, &header, &rows, &mut tally);
    }
    tally.expect(&[0, 1, 2, 3, 4, 5, 6, 7, 12, 13, 19, 23, 24]);
}

/// Translations, whole and damaged, as kernel programs.
#[test]
fn translated_programs() {
    let mut tally = Tally::default();
    for number in 0..1_500 {
        let random = &mut Random::new(40, number);
        let case = generate::case(41, number, Size::Mixed);
        let (header, rows) = interpreter::text::read(Source, &case.text).unwrap();
        let mut kernel_header = vec![0; header.len() + 2];
        let mut kernel_rows = vec![0; 6 * clight::kernel_rows(rows.len() / 6)];
        let tables =
            clight::translate(&header, &rows, &mut kernel_header, &mut kernel_rows).unwrap();
        kernel_rows.truncate(tables.row_words);
        kernel_program(random, &kernel_header, &kernel_rows, &mut tally);
        generate_kernel::damage(random, &mut kernel_header, &mut kernel_rows);
        kernel_program(random, &kernel_header, &kernel_rows, &mut tally);
    }
    tally.expect(&[0, 3, 4, 5, 6, 12, 13]);
}

/// Blocks in blocks, to a depth around the limit; the lowest row over it is named.
#[test]
fn deep_kernel_programs() {
    let mut tally = Tally::default();
    for depth in [1, 2, 511, 512, 513, 514, 5_000] {
        let mut rows: Vec<[i32; 6]> = (1..=depth).map(|next| [42, next, 0, 0, 0, 0]).collect();
        rows[depth as usize - 1][1] = 0;
        kernel_program(&mut Random::new(38, 0), &[1, 1, 1], &rows.concat(), &mut tally);
    }
    tally.expect(&[0, 9, 11]);
}

/// Tables of every length from 0 words on, of small words and of any words.
#[test]
fn random_tables() {
    let mut tally = Tally::default();
    for number in 0..20_000 {
        let random = &mut Random::new(36, number);
        let words = |random: &mut Random, most: usize| -> Vec<i32> {
            let length = random.below(most + 1);
            (0..length)
                .map(|_| match random.below(3) {
                    0 => random.between(0, 6),
                    1 => random.between(-1, 60),
                    _ => random.word() as i32,
                })
                .collect()
        };
        let header = words(random, 5);
        let rows = words(random, 26);
        kernel_program(random, &header, &rows, &mut tally);
        source_tables(&header, &rows, &mut vec![7; random.below(9)], 50, &mut tally);
    }
    tally.expect(&[1, 2, 3]);
}

/// Texts of any bytes that numbers, tabs and newlines are made of.
#[test]
fn random_texts() {
    let mut tally = Tally::default();
    for number in 0..20_000 {
        let random = &mut Random::new(37, number);
        let length = random.below(40);
        let text: Vec<u8> = (0..length).map(|_| random.pick(b"00123\t\t\n\n- +9")).collect();
        reader(&SOURCE, &text, &mut tally);
        reader(&KERNEL, &text, &mut tally);
    }
    tally.expect(&[2, 14]);
}

/// A text that is refused at a line far below, and one with the most rows.
#[test]
fn long_texts() {
    let mut tally = Tally::default();
    let row = "40\t0\t0\t0\t0\t0\n";
    for rows in [2_047, 2_048, 2_049, 40_979, 40_980, 40_981] {
        let text = format!("0\t0\t0\n{}", row.repeat(rows));
        reader(&KERNEL, text.as_bytes(), &mut tally);
        reader(&SOURCE, text[4..].as_bytes(), &mut tally);
        let broken = format!("{text}40\t0\t0\t0\t0\n{row}");
        reader(&KERNEL, broken.as_bytes(), &mut tally);
        reader(&SOURCE, broken[4..].as_bytes(), &mut tally);
    }
    tally.expect(&[0, 2, 14]);
}
