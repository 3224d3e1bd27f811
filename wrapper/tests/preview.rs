//! Previews of the samples, a sample for each ending: what the first line of
//! samples/expected says is told before the run.

use clight::{Cause, Ending, Preview, Refusal, ENDINGS};

/// What stands in a scratch before a call.
const WORD: i32 = 0x5A5A_5A5A;
const BUDGET: u32 = 100_000;

macro_rules! sample {
    ($name:literal) => {
        (
            include_str!(concat!("../../samples/", $name, ".txt")),
            include_str!(concat!("../../samples/expected/", $name, ".out")),
        )
    };
}

const SAMPLES: [(&str, &str); 9] = [
    sample!("worked"),
    sample!("fall-through"),
    sample!("nest"),
    sample!("overflow"),
    sample!("zero"),
    sample!("index"),
    sample!("guarded"),
    sample!("guard"),
    sample!("spent"),
];

fn read(text: &str) -> (Vec<i32>, Vec<i32>) {
    let (mut header, mut rows) = (vec![0; 33], vec![0; 6 * 128]);
    let tables = clight::read_source(text.as_bytes(), &mut header, &mut rows).unwrap();
    header.truncate(tables.header_words);
    rows.truncate(tables.row_words);
    (header, rows)
}

fn refused(cause: Cause) -> Result<Preview, Refusal> {
    Err(Refusal { cause, place: 0 })
}

/// Scratches of just the store's words and of more.
#[test]
fn each_ending_is_told() {
    let mut endings = Vec::new();
    for (text, expected) in SAMPLES {
        let (header, rows) = read(text);
        let words = header.iter().sum::<i32>() as usize;
        let store = vec![0; words];
        for spare in [0, 1, 5] {
            let mut scratch = vec![WORD; words + spare];
            let told = clight::preview(&header, &rows, &store, BUDGET, &mut scratch).unwrap();
            let (left, rest) = scratch.split_at(words);
            let line: String = left.iter().map(|word| format!(" {word}")).collect();
            let line = format!("source {} {}{line}", told.ending, told.count);
            // The trial's line has one field more: how many variables the program can write.
            let trial = expected.lines().next().and_then(|line| line.rsplit_once(' '));
            assert_eq!(Some(line.as_str()), trial.map(|(told, _)| told));
            assert_eq!(told.differing, left.iter().filter(|&&word| word != 0).count());
            assert!(rest.iter().all(|&word| word == WORD));
            endings.push(told.ending);
        }
    }
    assert!(ENDINGS.iter().all(|(ending, _)| endings.contains(ending)));
}

/// 11 for the store comes before 15 for the scratch, and a refusal changes no word.
#[test]
fn a_short_scratch_is_refused() {
    for (text, _) in SAMPLES {
        let (header, rows) = read(text);
        let store = vec![0; header.iter().sum::<i32>() as usize];
        let mut scratch = vec![WORD; store.len() - 1];
        let mut preview = |store: &[i32]| {
            let answer = clight::preview(&header, &rows, store, BUDGET, &mut scratch);
            assert!(scratch.iter().all(|&word| word == WORD));
            answer
        };
        assert_eq!(preview(&store), refused(Cause::Scratch));
        assert_eq!(preview(&store[1..]), refused(Cause::Store));
    }
}

/// `{ int v0 = 5; v1 = v0; }`: the scratch gets the declared word too, which is not counted.
#[test]
fn declared_words_are_told_and_not_counted() {
    let rows: [[i32; 6]; 7] = [
        [42, 1, 0, 0, 0, 0],
        [58, 0, 2, 0, 0, 3],
        [1, 5, 0, 0, 0, 0],
        [41, 4, 0, 0, 0, 0],
        [21, 5, 6, 0, 0, 0],
        [2, 1, 0, 0, 0, 0],
        [2, 0, 0, 0, 0, 0],
    ];
    let told = |store: &[i32], room: usize| {
        let mut scratch = vec![WORD; room];
        let told = clight::preview(&[2], &rows.concat(), store, BUDGET, &mut scratch);
        (told.map(|told| told.differing), scratch)
    };
    assert_eq!(told(&[1, 2, 3], 3), (Ok(1), vec![1, 5, 5]));
    assert_eq!(told(&[1, 2, 3], 5), (Ok(1), vec![1, 5, 5, WORD, WORD]));
    assert_eq!(told(&[1, 5, 3], 3), (Ok(0), vec![1, 5, 5]));
    let refused = |cause| Err(Refusal { cause, place: 0 });
    assert_eq!(told(&[1, 2, 3], 2), (refused(Cause::Scratch), vec![WORD; 2]));
    assert_eq!(told(&[1, 2], 2), (refused(Cause::Store), vec![WORD; 2]));
}

/// `v0 = 1; v0 = 0;`: what is written and restored does not differ at the end, but does between.
#[test]
fn words_that_end_equal_do_not_differ() {
    let rows: [[i32; 6]; 9] = [
        [42, 1, 0, 0, 0, 0],
        [41, 2, 0, 0, 0, 5],
        [21, 3, 4, 0, 0, 0],
        [2, 0, 0, 0, 0, 0],
        [1, 1, 0, 0, 0, 0],
        [41, 6, 0, 0, 0, 0],
        [21, 7, 8, 0, 0, 0],
        [2, 0, 0, 0, 0, 0],
        [1, 0, 0, 0, 0, 0],
    ];
    for (budget, ending, count, left) in [
        (0, Ending::Spent, 0, 0),
        (4, Ending::Spent, 4, 0),
        (5, Ending::Spent, 5, 1),
        (8, Ending::Spent, 8, 1),
        (9, Ending::Ended, 9, 0),
    ] {
        let mut scratch = [WORD];
        let told = clight::preview(&[1], &rows.concat(), &[0], budget, &mut scratch);
        assert_eq!(told, Ok(Preview { ending, count, differing: left as usize }));
        assert_eq!(scratch, [left]);
    }
}
