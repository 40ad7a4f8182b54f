//! How long calls take.

use std::time::{Duration, Instant};

/// Calls that are compared run for so long, but so many times at least.
const LONG: Duration = Duration::from_secs(4);
const RUNS: usize = 3;

/// How long an accepted call takes, or a refused one's number.
pub fn timed(call: impl FnOnce() -> Result<(), u32>) -> Result<Duration, u32> {
    let start = Instant::now();
    let answer = call();
    let time = start.elapsed();
    answer.map(|()| time)
}

/// The least time of each call in many runs, in turn so that all meet the same load of the machine.
pub fn least_times<C: Copy, const N: usize>(
    calls: [C; N],
    mut time: impl FnMut(C) -> Result<Duration, u32>,
) -> [Duration; N] {
    let start = Instant::now();
    let mut least = [Duration::MAX; N];
    let mut runs = 0;
    while runs < RUNS || start.elapsed() < LONG {
        for (least, call) in least.iter_mut().zip(calls) {
            *least = time(call).unwrap().min(*least);
        }
        runs += 1;
    }
    least
}
