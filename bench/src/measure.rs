//! Median times of one call. Both sides take turns in one run, so that a slow spell of the machine meets
//! both; the buffers are the caller's, made once and not cleared between calls.

use crate::sides::{Side, Task, SIDES};
use desk::ROOM;
use std::hint::black_box;
use std::time::{Duration, Instant};

/// Batches of each side; the median is that of the batches' means.
const BATCHES: usize = 101;

/// A batch is long enough that reading the clock does not count.
const BATCH: Duration = Duration::from_micros(500);

/// Median time of one call in nanoseconds, the proved side first.
pub fn medians(task: &Task) -> [f64; 2] {
    let mut buffer = [0; ROOM];
    let repeats = SIDES.map(|side| repeats(task, side, &mut buffer));
    let mut times = [Vec::new(), Vec::new()];
    for _ in 0..BATCHES {
        for ((side, repeats), times) in SIDES.into_iter().zip(repeats).zip(&mut times) {
            let nanoseconds = batch(task, side, repeats, &mut buffer).as_nanos() as f64;
            times.push(nanoseconds / f64::from(repeats));
        }
    }
    times.map(|mut times| {
        times.sort_unstable_by(f64::total_cmp);
        times[BATCHES / 2]
    })
}

/// How many calls fill a batch; the trials also warm the caches.
fn repeats(task: &Task, side: Side, buffer: &mut [u8; ROOM]) -> u32 {
    let mut repeats = 1;
    while batch(task, side, repeats, buffer) < BATCH {
        repeats *= 2;
    }
    repeats
}

fn batch(task: &Task, side: Side, repeats: u32, buffer: &mut [u8; ROOM]) -> Duration {
    let begin = Instant::now();
    for _ in 0..repeats {
        black_box(task.run(side, buffer));
    }
    begin.elapsed()
}
