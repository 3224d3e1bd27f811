//! One comparison for each entry: the answer, and the content of everything
//! lent, with guard words behind it.

mod entries;
mod lists;

pub use entries::{Entries, KERNEL, SOURCE};

use clight::{Cause, Preview, Refusal, Run, Tables};
use interpreter::cases::Case;
use interpreter::check::check_sizes;
use interpreter::machine::run_checked;
use interpreter::random::Random;
use interpreter::Form::{Kernel, Source};
use interpreter::{text, Ending, Fault, Outcome};

/// What stands in tables and texts before a call.
const WORD: i32 = 0x5A5A_5A5A;
const BYTE: u8 = 0xA5;

/// How often each cause was given; 0 is for none.
#[derive(Default)]
pub struct Tally {
    seen: [u32; 26],
}

impl Tally {
    fn note(&mut self, cause: Option<Cause>) {
        self.seen[cause.map_or(0, |cause| cause as usize)] += 1;
    }

    /// Fails where one of these causes never came up, so that no comparison was idle.
    pub fn expect(&self, causes: &[usize]) {
        for &cause in causes {
            assert!(self.seen[cause] > 0, "cause {cause} never came up: {:?}", self.seen);
        }
    }
}

type Plain<T> = Result<T, (u32, usize)>;

fn mine<T>(answer: Result<T, Refusal>, tally: &mut Tally) -> Plain<T> {
    tally.note(answer.as_ref().err().map(|refusal| refusal.cause));
    answer.map_err(|refusal| (refusal.cause as u32, refusal.place))
}

fn theirs<T>(answer: Result<T, interpreter::Refusal>) -> Plain<T> {
    answer.map_err(|refusal| (refusal.number, refusal.place as usize))
}

fn same_run(run: Run) -> Outcome {
    let ending = match run.ending {
        clight::Ending::Ended => Ending::Ended,
        clight::Ending::Spent => Ending::Spent,
        clight::Ending::Overflow => Ending::Fault(Fault::Overflow),
        clight::Ending::ZeroDivisor => Ending::Fault(Fault::Zero),
        clight::Ending::Index => Ending::Fault(Fault::Index),
        clight::Ending::Guard => Ending::Fault(Fault::Guard),
    };
    Outcome { ending, count: run.count }
}

/// A case of the interpreter's: its text, then its tables on its store.
pub fn source_case(case: &Case, tally: &mut Tally) {
    reader(&SOURCE, &case.text, tally);
    let Ok((header, rows)) = text::read_lines(Source, &case.text) else { return };
    let mut store = case.words.clone();
    if store.is_empty() && interpreter::check(Source, &header, &rows).is_ok() {
        store = vec![0; Source.store_words(&header, &rows)];
    }
    source_tables(&header, &rows, &mut store, case.budget, tally);
}

/// Check, run, writer and translation, on tables that may be damaged.
pub fn source_tables(
    header: &[i32],
    rows: &[i32],
    store: &mut Vec<i32>,
    budget: u32,
    tally: &mut Tally,
) {
    let checked = checked(&SOURCE, header, rows, tally);
    for words in [store.len(), store.len() + 1, store.len().saturating_sub(1), 0] {
        store.resize(words, 3);
        preview(header, rows, store, budget, tally);
        run(&SOURCE, header, rows, store, budget, tally);
    }
    writer(&SOURCE, header, rows, tally);
    translation(header, rows, checked, tally);
}

/// Check, run, writer and reader, on tables that may be damaged.
pub fn kernel_program(random: &mut Random, header: &[i32], rows: &[i32], tally: &mut Tally) {
    let words = match checked(&KERNEL, header, rows, tally) {
        Ok(()) => Kernel.header_words(header),
        Err(_) => random.below(9),
    };
    for room in [words, words, words + 1, words.saturating_sub(1)] {
        let mut store: Vec<i32> = (0..room).map(|_| random.between(-1, 4)).collect();
        let budget = random.pick(&[0, 1, 5, 30, 200, 3_000]);
        run(&KERNEL, header, rows, &mut store, budget, tally);
        dispatcher(header, rows, room, budget, tally);
    }
    writer(&KERNEL, header, rows, tally);
    reader(&KERNEL, &text::write(header, rows), tally);
}

/// The answer of both checks.
fn checked(entries: &Entries, header: &[i32], rows: &[i32], tally: &mut Tally) -> Plain<()> {
    let answer = mine((entries.check)(header, rows), tally);
    assert_eq!(answer, theirs(interpreter::check(entries.form, header, rows)));
    answer
}

/// Both runs on equal stores.
fn run(
    entries: &Entries,
    header: &[i32],
    rows: &[i32],
    store: &mut [i32],
    budget: u32,
    tally: &mut Tally,
) {
    let mut other = store.to_vec();
    let ran = mine((entries.run)(header, rows, store, budget), tally).map(same_run);
    assert_eq!(ran, theirs(interpreter::run(entries.form, header, rows, &mut other, budget)));
    assert_eq!(*store, other);
}

/// The dispatcher's run on so many words, beside the kernel run of the interpreter whose declared words
/// and temporaries begin as zeros; 11 where the words are not S.
fn dispatcher(header: &[i32], rows: &[i32], room: usize, budget: u32, tally: &mut Tally) {
    let part = |place: usize| header.get(place).map_or(0, |&words| words.max(0) as usize);
    let behind = part(1) + part(2);
    for count in [room, room.saturating_sub(behind)] {
        let mut words: Vec<i32> = (0..count).map(|place| place as i32 - 2).collect();
        let kept = words.clone();
        let shown = mine(clight::dispatcher_run(header, rows, &mut words, budget), tally);
        let checked = theirs(interpreter::check(Kernel, header, rows));
        let size = checked.map_or(0, |()| Kernel.size(header) as usize);
        let expected = match checked {
            Ok(()) if count == size => {
                let mut store = kept.clone();
                store.resize(size + behind, 0);
                let outcome = run_checked(Kernel, header, rows, &mut store, budget);
                assert_eq!(words, store[..size]);
                Ok(outcome.ending)
            }
            Ok(()) => Err((11, 0)),
            Err(refusal) => Err(refusal),
        };
        let ending = |ending| same_run(Run { ending, count: 0 }).ending;
        assert_eq!(shown.map(ending), expected);
        assert!(shown.is_ok() || words == kept);
    }
}

/// Both previews, with a scratch of just the store's words, of one less, of more and of none; then
/// the run that was previewed, on the same store.
fn preview(header: &[i32], rows: &[i32], store: &[i32], budget: u32, tally: &mut Tally) {
    let words = store.len();
    for room in [words, words.saturating_sub(1), words + 1, words + 7, 0] {
        let (mut scratch, mut other) = (vec![WORD; room], vec![WORD; room]);
        let kept = store.to_vec();
        let told = mine(clight::preview(header, rows, store, budget, &mut scratch), tally);
        let expected = theirs(interpreter::preview(header, rows, store, budget, &mut other));
        let as_run = |told: Preview| Run { ending: told.ending, count: told.count };
        let plain = told.map(|told| (same_run(as_run(told)), told.differing));
        assert_eq!(plain, expected.map(|told| (told.outcome, told.differing)));
        assert_eq!((&scratch, store), (&other, &kept[..]));
        let Ok(told) = told else { continue };
        let mut after = store.to_vec();
        assert_eq!(clight::run(header, rows, &mut after, budget), Ok(as_run(told)));
        let size = Source.size(header) as usize;
        let same = after[..size] == store[..size];
        assert_eq!((&scratch[..words], told.differing == 0), (&after[..], same));
        assert!(scratch[words..].iter().all(|&word| word == WORD));
    }
}

/// The translation with room to spare, with just enough, with a word too few in either table, and with none.
fn translation(header: &[i32], rows: &[i32], checked: Plain<()>, tally: &mut Tally) {
    let most = rows.len() / 6 * 20 + 20;
    let mut kernel_header = vec![WORD; header.len() + 4];
    let mut kernel_rows = vec![WORD; 6 * most];
    let answer = mine(clight::translate(header, rows, &mut kernel_header, &mut kernel_rows), tally);
    assert_eq!(answer.map(|_| ()), checked);
    let (h, r) = answer.map_or((0, 0), |tables| (tables.header_words, tables.row_words));
    assert!(kernel_header[h..].iter().chain(&kernel_rows[r..]).all(|&word| word == WORD));
    kernel_header.truncate(h);
    kernel_rows.truncate(r);
    for (spare_header, spare_rows) in [(0, 0), (2, 5), (-1, 0), (0, -1), (-9, -9999999)] {
        let mut other_header = vec![WORD; h.saturating_add_signed(spare_header)];
        let mut other_rows = vec![WORD; r.saturating_add_signed(spare_rows)];
        let other =
            mine(clight::translate(header, rows, &mut other_header, &mut other_rows), tally);
        let full = if spare_header < 0 || spare_rows < 0 { Err((10, 0)) } else { Ok(()) };
        assert_eq!(other.map(|_| ()), checked.and(full));
        let (h, r) = other.map_or((0, 0), |tables| (tables.header_words, tables.row_words));
        assert_eq!(other_header[..h], kernel_header[..h]);
        assert_eq!(other_rows[..r], kernel_rows[..r]);
        assert!(other_header[h..].iter().chain(&other_rows[r..]).all(|&word| word == WORD));
    }
    if checked.is_ok() {
        kernel_form(header, rows, &kernel_header, &kernel_rows);
    }
}

/// What holds of a translation: its header, its sizes, that it is legal, and that both runs share
/// their fate, from stores of any content; declared words start apart in both. The interpreter
/// checks and runs both.
fn kernel_form(header: &[i32], rows: &[i32], kernel_header: &[i32], kernel_rows: &[i32]) {
    let temporaries = kernel_header[2] as usize;
    assert_eq!(
        (kernel_header[0], kernel_header[1], &kernel_header[3..]),
        (header[0], Source.declared(header, rows) as i32, &header[1..])
    );
    assert!(temporaries <= 4 * rows.len() / 6);
    assert_eq!(interpreter::check(Kernel, kernel_header, kernel_rows), Ok(()));
    let size = Source.size(header) as usize;
    let random = &mut Random::new(39, rows.len() as u64);
    let words: Vec<i32> = (0..size).map(|_| random.between(-2, 4)).collect();
    let mut kernel_store = words.clone();
    kernel_store.extend((0..Kernel.behind(kernel_header)).map(|_| random.word() as i32));
    shown_alike(random, kernel_header, kernel_rows, &words);
    let mut store = words;
    store.extend((0..Source.declared(header, rows)).map(|_| random.word() as i32));
    let source = run_checked(Source, header, rows, &mut store, 20_000);
    if source.ending == Ending::Spent {
        return;
    }
    let most = kernel_rows.len() as u32 / 6 * source.count;
    let kernel = run_checked(Kernel, kernel_header, kernel_rows, &mut kernel_store, most);
    assert_eq!(kernel.ending, source.ending);
    assert_eq!(kernel_store[..size], store[..size]);
}

/// Kernel runs of a translation that start alike but for the words behind the first S show a dispatcher
/// the same, at every budget: words of zeros, of the extremes and of random ones.
fn shown_alike(random: &mut Random, header: &[i32], rows: &[i32], store: &[i32]) {
    let behind = Kernel.behind(header) as usize;
    for _ in 0..6 {
        let budget = random.pick(&[3, 30, 300, 3_000]);
        let budget = random.below(budget) as u32;
        let mut words = store.to_vec();
        let shown = clight::dispatcher_run(header, rows, &mut words, budget);
        for fill in [0, i32::MIN, i32::MAX, random.word() as i32] {
            let mut whole = store.to_vec();
            whole.extend((0..behind).map(|place| fill.wrapping_mul(place as i32 + 1)));
            let run = clight::kernel_run(header, rows, &mut whole, budget);
            assert_eq!(run.map(|run| run.ending), shown);
            assert_eq!(whole[..store.len()], words);
        }
    }
}

/// The writer with room to spare, with just enough, with a byte too few, and with none.
fn writer(entries: &Entries, header: &[i32], rows: &[i32], tally: &mut Tally) {
    let well = theirs(check_sizes(entries.form, header, rows));
    let expected = text::write(header, rows);
    for room in [expected.len() + 9, expected.len(), expected.len() - 1, 0] {
        let mut bytes = vec![BYTE; room];
        let answer = mine((entries.write)(header, rows, &mut bytes), tally);
        let full = if room < expected.len() { Err((10, 0)) } else { Ok(()) };
        assert_eq!(answer, well.and(full).map(|()| expected.len()));
        let written = answer.unwrap_or(0);
        assert_eq!(bytes[..written], expected[..written]);
        assert!(bytes[written..].iter().all(|&byte| byte == BYTE));
    }
}

/// The reader with room to spare, with just enough, and with a word too few in either table.
pub fn reader(entries: &Entries, bytes: &[u8], tally: &mut Tally) {
    let expected = theirs(text::read(entries.form, bytes));
    let (header, rows) = expected.clone().unwrap_or_default();
    let (h, r) = (header.len(), rows.len());
    for (spare_header, spare_rows) in [(3, 8), (0, 0), (-1, 0), (0, -1), (-1, -1)] {
        let room = |words: usize, spare: isize| words.saturating_add_signed(spare);
        let mut own_header = vec![WORD; room(h, spare_header)];
        let mut own_rows = vec![WORD; room(r, spare_rows)];
        let answer = mine((entries.read)(bytes, &mut own_header, &mut own_rows), tally);
        let full = own_header.len() >= h && own_rows.len() >= r;
        let result = match &expected {
            Err(refusal) => Err(*refusal),
            Ok(_) if full => Ok(Tables { header_words: h, row_words: r }),
            Ok(_) => Err((10, 0)),
        };
        assert_eq!(answer, result);
        let (h, r) = answer.map_or((0, 0), |tables| (tables.header_words, tables.row_words));
        assert_eq!((&own_header[..h], &own_rows[..r]), (&header[..h], &rows[..r]));
        assert!(own_header[h..].iter().chain(&own_rows[r..]).all(|&word| word == WORD));
    }
}
