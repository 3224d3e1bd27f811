//! Times of two pieces of work, taken in turn, in processor time of this
//! thread, so that other programs on the machine disturb them little.

#[repr(C)]
struct Time {
    seconds: i64,
    nanoseconds: i64,
}

extern "C" {
    /// The C library's, which every Rust program on Linux is linked with.
    fn clock_gettime(clock: i32, time: *mut Time) -> i32;
}

/// CLOCK_THREAD_CPUTIME_ID of Linux.
const PROCESSOR_TIME: i32 = 3;

/// Seconds of processor time of this thread so far.
fn now() -> f64 {
    let mut time = Time { seconds: 0, nanoseconds: 0 };
    let status = unsafe { clock_gettime(PROCESSOR_TIME, &mut time) };
    assert_eq!(status, 0);
    time.seconds as f64 + time.nanoseconds as f64 / 1e9
}

/// Repetitions of each measurement; the least time counts.
const REPETITIONS: usize = 15;
/// A measurement goes on for at least so long, by doing its work several times.
const SECONDS: f64 = 0.02;

/// Seconds of one piece of work.
fn time(times: usize, work: &mut impl FnMut()) -> f64 {
    let start = now();
    for _ in 0..times {
        work();
    }
    (now() - start) / times as f64
}

/// How often the work is to be done in one measurement.
fn often(work: &mut impl FnMut()) -> usize {
    let once = time(1, work).min(time(1, work));
    (SECONDS / once).ceil().max(1.0) as usize
}

/// The least time of both, in seconds.
pub fn both(mut library: impl FnMut(), mut other: impl FnMut()) -> (f64, f64) {
    let times = (often(&mut library), often(&mut other));
    let mut least = (f64::MAX, f64::MAX);
    for _ in 0..REPETITIONS {
        least.0 = least.0.min(time(times.0, &mut library));
        least.1 = least.1.min(time(times.1, &mut other));
    }
    least
}

/// Seconds per step, row or byte.
pub struct Row {
    name: String,
    pub library: f64,
    other: f64,
}

pub fn per(name: String, units: usize, times: (f64, f64)) -> Row {
    Row { name, library: times.0 / units as f64, other: times.1 / units as f64 }
}

impl Row {
    pub fn print_rate(&self) {
        println!(
            "  {:15} {:7.1} {:7.1} {:6.2}",
            self.name,
            1e-6 / self.library,
            1e-6 / self.other,
            self.other / self.library
        );
    }

    pub fn print_cost(&self, entry: &str) {
        println!(
            "  {:28} {:15} {:8.2} {:8.2} {:6.2}",
            entry,
            self.name,
            1e9 * self.library,
            1e9 * self.other,
            self.other / self.library
        );
    }
}
