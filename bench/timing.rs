//! How long a call takes: runs of the sides in turn, and their medians.

use std::array;
use std::hint::black_box;

const RUNS: usize = 5;

/// Microseconds for a call of ours and of the original, and for making the original's arguments.
#[derive(Clone, Copy)]
pub struct Times {
    pub ours: f64,
    pub rust: f64,
    pub making: f64,
}

impl Times {
    /// Above 1: ours is faster.
    pub fn ratio(self) -> f64 {
        self.rust / self.ours
    }

    /// The original without the making of its arguments, against ours with its reading.
    pub fn ratio_without_reading(self) -> f64 {
        (self.rust - self.making) / self.ours
    }
}

/// The median time of each side's call over several runs: one run of each side in turn.
pub fn medians<T, const N: usize>(inputs: &[T], shortest: f64, mut sides: [&mut dyn FnMut(&T) -> usize; N]) -> [f64; N] {
    let mut turn = || sides.each_mut().map(|side| time(inputs, shortest, side));
    let runs: [[f64; N]; RUNS] = array::from_fn(|_| turn());
    array::from_fn(|side| median(runs.map(|run| run[side])))
}

fn median(mut times: [f64; RUNS]) -> f64 {
    times.sort_by(f64::total_cmp);
    times[RUNS / 2]
}

/// Microseconds for one call, in as many rounds over all inputs as fill `shortest`. The clock is read after more and more rounds,
/// since reading it takes as long as a short call.
fn time<T>(inputs: &[T], shortest: f64, call: &mut dyn FnMut(&T) -> usize) -> f64 {
    let start = clock();
    let mut rounds = 0;
    loop {
        let more = rounds / 4 + 1;
        for input in (0..more).flat_map(|_| inputs) {
            black_box(call(black_box(input)));
        }
        rounds += more;
        let passed = clock() - start;
        if passed >= shortest {
            return passed / (rounds * inputs.len()) as f64;
        }
    }
}

/// Microseconds that this thread has run: other work on the machine does not count.
fn clock() -> f64 {
    let mut now = libc::timespec { tv_sec: 0, tv_nsec: 0 };
    // SAFETY: the call writes to the place that it is lent.
    assert_eq!(unsafe { libc::clock_gettime(libc::CLOCK_THREAD_CPUTIME_ID, &mut now) }, 0, "no clock");
    now.tv_sec as f64 * 1e6 + now.tv_nsec as f64 / 1e3
}
