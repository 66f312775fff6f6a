//! One call of one side, for a program that counts its instructions. They do not depend on how busy the
//! machine is, as times do.

use crate::sides::{Answer, Side, Task};
use desk::ROOM;
use std::collections::BTreeMap;
use std::hint::black_box;

/// Instruction counts by shape, call and side, as the script wrote them down.
pub type Counts = BTreeMap<(String, String, String), u64>;

/// Calls once beforehand, so that nothing is counted that happens at a first call only.
pub fn count(task: &Task, side: Side) {
    let mut buffer = [0; ROOM];
    black_box(task.run(side, &mut buffer));
    black_box(counted_call(task, side, &mut buffer));
}

/// Counting is switched on by this name when the function is entered, and off when it is left.
#[inline(never)]
pub fn counted_call(task: &Task, side: Side, buffer: &mut [u8; ROOM]) -> Answer {
    task.run(side, buffer)
}

/// Lines of shape, call, side and count.
pub fn read(text: &str) -> Counts {
    let line = |line: &str| {
        let mut words = line.split_whitespace().map(String::from);
        let name = (words.next()?, words.next()?, words.next()?);
        Some((name, words.next()?.parse().ok()?))
    };
    text.lines().filter_map(line).collect()
}
