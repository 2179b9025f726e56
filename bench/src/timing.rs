//! The best times of pieces of work.

use std::env;
use std::hint::black_box;
use std::time::{Duration, Instant};

use crate::clock::processor_time;
use crate::work::{Lent, Work};

const LEAST_ROUNDS: usize = 9;
/// Seconds, unless the environment's `LEAST_TIME` says how many.
const LEAST_TIME: f64 = 5.0;
/// So many bytes are read between two looks at the clock, a short file again and again.
const LEAST_BYTES: usize = 1_000_000;

/// The best time of each work, in nanoseconds a byte of this thread's processor time. They
/// take turns, so that whatever else the machine does slows all of them alike.
pub fn best_times<const N: usize>(works: [(Work, &[u8]); N]) -> [f64; N] {
    let longest = works.iter().map(|(_, file)| file.len()).max();
    let mut lent = Lent::zero(longest.unwrap_or(0));
    let mut best = [f64::MAX; N];
    let (mut rounds, began, least) = (0, Instant::now(), least_time());
    while rounds < LEAST_ROUNDS || began.elapsed() < least {
        for (best, (work, file)) in best.iter_mut().zip(works) {
            *best = best.min(time_a_byte(work, file, &mut lent));
        }
        rounds += 1;
    }
    best
}

fn time_a_byte(work: Work, file: &[u8], lent: &mut Lent) -> f64 {
    let times = LEAST_BYTES.div_ceil(file.len());
    let start = processor_time();
    for _ in 0..times {
        work(black_box(file), lent);
    }
    let time = processor_time() - start;
    time.as_nanos() as f64 / (times * file.len()) as f64
}

fn least_time() -> Duration {
    let told = env::var("LEAST_TIME").map(|told| told.parse().expect("LEAST_TIME in seconds"));
    Duration::from_secs_f64(told.unwrap_or(LEAST_TIME))
}
