//! The kernel check and the kernel run.

use interpreter::generate_kernel::{case, damaged_case, program};
use interpreter::random::Random;
use interpreter::tally::Tally;
use interpreter::Form::Kernel;
use interpreter::{check, run, Ending, Fault, Refusal};

fn refused(header: &[i32], rows: &[[i32; 6]]) -> (u32, u32) {
    match check(Kernel, header, &rows.concat()) {
        Ok(()) => (0, 0),
        Err(Refusal { number, place }) => (number, place),
    }
}

/// Row 0, a block of these items.
fn block(first: i32) -> [i32; 6] {
    [42, first, 0, 0, 0, 0]
}

#[test]
fn generated_programs_are_legal() {
    for i in 0..3_000 {
        let program = program(&mut Random::new(7, i));
        assert_eq!(check(Kernel, &program.header, &program.rows.concat()), Ok(()), "program {i}");
    }
}

#[test]
fn labels() {
    let label = |number, next| [53, number, 0, 0, 0, next];
    let goto = |number, next| [52, number, 0, 0, 0, next];
    assert_eq!(refused(&[0, 0, 0], &[block(1), goto(3, 2), label(3, 0)]), (0, 0));
    assert_eq!(refused(&[0, 0, 0], &[block(1), label(3, 2), goto(3, 0)]), (13, 2));
    assert_eq!(refused(&[0, 0, 0], &[block(1), label(3, 2), label(3, 0)]), (13, 2));
    assert_eq!(refused(&[0, 0, 0], &[block(1), label(3, 2), goto(3, 3), label(3, 0)]), (13, 3));
    assert_eq!(refused(&[0, 0, 0], &[block(1), goto(40_980, 0)]), (6, 1));
    // A label inside a later block is not ahead.
    let inner = [block(1), goto(3, 2), [42, 3, 0, 0, 0, 0], label(3, 0)];
    assert_eq!(refused(&[0, 0, 0], &inner), (13, 1));
    // One outside the block that holds the goto is.
    let outer = [block(1), [42, 2, 0, 0, 0, 3], goto(3, 0), label(3, 0)];
    assert_eq!(refused(&[0, 0, 0], &outer), (0, 0));
}

#[test]
fn forms() {
    // An if without else, and a while with a body that is no block.
    let test = [1, 1, 0, 0, 0, 0];
    assert_eq!(refused(&[0, 0, 0], &[block(1), [43, 2, 3, 0, 0, 0], test, block(0)]), (12, 1));
    assert_eq!(
        refused(&[0, 0, 0], &[block(1), [44, 2, 3, 0, 0, 0], test, [40, 0, 0, 0, 0, 0]]),
        (12, 1)
    );
    assert_eq!(refused(&[0, 0, 0], &[block(1), [44, 2, 3, 0, 0, 0], test, block(0)]), (0, 0));
    assert_eq!(refused(&[0, 0, 0], &[block(1), [41, 2, 0, 0, 0, 0], test]), (12, 1));
    assert_eq!(refused(&[0, 0, 0], &[block(1), [5, 0, 0, 0, 0, 0]]), (3, 1));
    // V to S-1 name nothing; S to S+D-1 are declared words, S+D to S+D+T-1 temporaries.
    let set = |number| {
        [block(1), [41, 2, 0, 0, 0, 0], [21, 3, 4, 0, 0, 0], [2, number, 0, 0, 0, 0], test]
    };
    let outside = (6, 3);
    for (declared, temporaries) in [(0, 2), (1, 1), (2, 0)] {
        let header = [1, declared, temporaries, 3];
        let verdicts: Vec<(u32, u32)> =
            (0..7).map(|number| refused(&header, &set(number))).collect();
        assert_eq!(verdicts, [(0, 0), outside, outside, outside, (0, 0), (0, 0), outside]);
    }
}

/// V, D, T and up to 32 lengths; the limits of D, and the words of the store.
#[test]
fn headers() {
    let lone = |header: &[i32]| refused(header, &[block(0)]);
    assert_eq!(lone(&[0, 0]), (1, 0));
    for declared in [0, 1, 64] {
        assert_eq!(lone(&[0, declared, 0]), (0, 0));
    }
    for declared in [-1, 65, i32::MIN, i32::MAX] {
        assert_eq!(lone(&[0, declared, 0]), (1, 0));
    }
    assert_eq!(lone(&[256, 64, 8_192, 3_968, 3_968]), (0, 0));
    assert_eq!(lone(&[256, 64, 8_192, 3_968, 3_969]), (1, 0));
    assert_eq!(lone(&[1; 35]), (0, 0));
    assert_eq!(lone(&[1; 36]), (1, 0));
    for (words, well) in [(5, false), (8, false), (9, true), (10, false)] {
        let ran = run(Kernel, &[1, 2, 4, 2], &block(0), &mut vec![0; words], 1);
        assert_eq!(ran.is_ok(), well);
        assert_eq!(ran.err().map_or(11, |refusal| refusal.number), 11);
    }
}

#[test]
fn a_goto_goes_on_at_its_label() {
    // { v0 = 1; { goto 5; v0 = 2 } v0 = 3; label 5; }
    let rows = [
        block(1),
        [41, 2, 0, 0, 0, 5],
        [21, 3, 4, 0, 0, 0],
        [2, 0, 0, 0, 0, 0],
        [1, 1, 0, 0, 0, 0],
        [42, 6, 0, 0, 0, 11],
        [52, 5, 0, 0, 0, 7],
        [41, 8, 0, 0, 0, 0],
        [21, 9, 10, 0, 0, 0],
        [2, 0, 0, 0, 0, 0],
        [1, 2, 0, 0, 0, 0],
        [41, 12, 0, 0, 0, 15],
        [21, 13, 14, 0, 0, 0],
        [2, 0, 0, 0, 0, 0],
        [1, 3, 0, 0, 0, 0],
        [53, 5, 0, 0, 0, 0],
    ]
    .concat();
    let mut store = [0];
    let outcome = run(Kernel, &[1, 0, 0], &rows, &mut store, 100).unwrap();
    // The block, four rows of the first item, the inner block, the goto, the label.
    assert_eq!((outcome.ending, outcome.count, store), (Ending::Ended, 8, [1]));
    let mut store = [0];
    let outcome = run(Kernel, &[1, 0, 0], &rows, &mut store, 7).unwrap();
    assert_eq!((outcome.ending, outcome.count, store), (Ending::Spent, 7, [1]));
}

/// An abort is a step, then the fault; what stands behind it is not run.
#[test]
fn an_abort_fails() {
    let abort = |next| [57, 0, 0, 0, 0, next];
    let mut store = [];
    let rows = [block(1), abort(2), [40, 0, 0, 0, 0, 0]].concat();
    for (budget, ending, count) in [
        (1, Ending::Spent, 1),
        (2, Ending::Fault(Fault::Guard), 2),
        (100, Ending::Fault(Fault::Guard), 2),
    ] {
        let outcome = run(Kernel, &[0, 0, 0], &rows, &mut store, budget).unwrap();
        assert_eq!((outcome.ending, outcome.count), (ending, count));
    }
    // { goto 5; abort; label 5; }
    let rows = [block(1), [52, 5, 0, 0, 0, 2], abort(3), [53, 5, 0, 0, 0, 0]].concat();
    let outcome = run(Kernel, &[0, 0, 0], &rows, &mut store, 100).unwrap();
    assert_eq!((outcome.ending, outcome.count), (Ending::Ended, 3));
    assert_eq!(refused(&[0, 0, 0], &[block(1), [57, 0, 0, 0, 1, 0]]), (3, 1));
    for kind in [54, 55, 56] {
        assert_eq!(refused(&[0, 0, 0], &[block(1), [kind, 0, 0, 0, 0, 0]]), (3, 1));
    }
}

#[test]
fn generated_programs_end_in_every_way() {
    let mut seen = [0; 6];
    for i in 0..3_000 {
        let program = program(&mut Random::new(8, i));
        let rows = program.rows.concat();
        let words = Kernel.store_words(&program.header, &rows);
        let outcome = run(Kernel, &program.header, &rows, &mut vec![1; words], 5_000).unwrap();
        seen[match outcome.ending {
            Ending::Ended => 0,
            Ending::Spent => 1,
            Ending::Fault(Fault::Overflow) => 2,
            Ending::Fault(Fault::Zero) => 3,
            Ending::Fault(Fault::Index) => 4,
            Ending::Fault(Fault::Guard) => 5,
        }] += 1;
    }
    assert!(seen.iter().all(|&count| count > 20), "{seen:?}");
}

/// Generated cases end in every way, damaged ones have every cause but 2 and 9,
/// which take a large table.
#[test]
fn shares_of_cases() {
    let mut tally = Tally::default();
    (0..2_000).for_each(|i| tally.add(Kernel, &case(5, i)));
    assert_eq!(tally.accepted, 2_000);
    for ending in ["ended", "spent", "overflow", "zero", "index", "guard"] {
        assert!(tally.answers[ending] >= 10, "{ending}: {:?}", tally.answers);
    }
    let mut tally = Tally::default();
    (0..2_000).for_each(|i| tally.add(Kernel, &damaged_case(5, i)));
    for number in [1, 3, 4, 5, 6, 11, 12, 13, 14] {
        let count = tally.answers.get(&format!("refused {number:2}")).copied().unwrap_or(0);
        assert!(count >= 20, "{number}: {:?}", tally.answers);
    }
    assert!(tally.accepted >= 300);
    // Functions are in a third of the programs, and of their causes 19 takes two parameters.
    (2_000..8_000).for_each(|i| tally.add(Kernel, &damaged_case(5, i)));
    for (number, least) in [(7, 40), (19, 10), (23, 25), (24, 35)] {
        let count = tally.answers.get(&format!("refused {number:2}")).copied().unwrap_or(0);
        assert!(count >= least, "{number}: {:?}", tally.answers);
    }
}
