//! The comparisons of `compare.rs` on as many fresh programs of both forms as are asked for, on two
//! threads: `wrapper/soak` runs it.

mod compared;

use compared::{kernel_program, source_case, Tally};
use interpreter::generate::Size;
use interpreter::random::Random;
use interpreter::{damage, generate, generate_kernel};
use std::sync::atomic::{AtomicU64, Ordering};

/// Programs that a thread takes at a time.
const BATCH: u64 = 500;

/// A number from the environment.
fn asked(name: &str, usual: u64) -> u64 {
    std::env::var(name).map_or(usual, |word| word.parse().expect(name))
}

/// Names the program where the comparison of it fails.
struct Named(&'static str, u64);

impl Drop for Named {
    fn drop(&mut self) {
        if std::thread::panicking() {
            eprintln!("soak: the {} program {} differs", self.0, self.1);
        }
    }
}

/// A program as it is generated, or damaged.
type Compared = fn(u64, u64, &mut Tally);

const SORTS: [(&str, Compared); 4] = [
    ("source", |seed, number, tally| {
        source_case(&generate::case(seed, number, Size::Mixed), tally)
    }),
    ("damaged source", |seed, number, tally| source_case(&damage::case(seed, number), tally)),
    ("kernel", |seed, number, tally| {
        let random = &mut Random::new(seed, number);
        let program = generate_kernel::program(random);
        kernel_program(random, &program.header, &program.rows.concat(), tally);
    }),
    ("damaged kernel", |seed, number, tally| {
        let random = &mut Random::new(!seed, number);
        let program = generate_kernel::program(random);
        let (mut header, mut rows) = (program.header, program.rows.concat());
        generate_kernel::damage(random, &mut header, &mut rows);
        kernel_program(random, &header, &rows, tally);
    }),
];

#[test]
#[ignore = "takes as long as it is asked to: wrapper/soak"]
fn soak() {
    let (seed, count) = (asked("SOAK_SEED", 1), asked("SOAK_COUNT", 1_000));
    let first = asked("SOAK_FIRST", 0);
    let form = std::env::var("SOAK_FORM").unwrap_or_default();
    for (sort, compared) in SORTS.into_iter().filter(|(sort, _)| sort.ends_with(&form)) {
        let next = AtomicU64::new(first);
        std::thread::scope(|scope| {
            for _ in 0..asked("JOBS", 2) {
                scope.spawn(|| batches(sort, compared, seed, first + count, &next));
            }
        });
        println!("{sort}: programs {first} to {} of seed {seed}, none differs", first + count - 1);
    }
}

/// Compares batches from the next one on, and tells how far it came now and then.
fn batches(sort: &'static str, compared: Compared, seed: u64, end: u64, next: &AtomicU64) {
    let mut tally = Tally::default();
    loop {
        let start = next.fetch_add(BATCH, Ordering::Relaxed);
        if start >= end {
            return;
        }
        for number in start..end.min(start + BATCH) {
            let _named = Named(sort, number);
            compared(seed, number, &mut tally);
        }
        if start % (40 * BATCH) == 0 {
            println!("{sort}: at {start}");
        }
    }
}
