//! Bytes lent to a call from the middle of a longer stretch. What stands on both sides must stay as it is,
//! and it looks like a sound record, so that a call which reads too far gives another answer.

use std::ops::Range;

/// A piece on desk 0 with duration 1: more of it in front or behind makes another plan.
const GUARD: [u8; 16] = [1, 0, 1, 0, 0, 0, 0, 0, 0, 0, 0, 0, 0, 0, 0, 0];

pub struct Lent {
    bytes: Vec<u8>,
    part: Range<usize>,
}

impl Lent {
    pub fn new(content: &[u8]) -> Lent {
        let part = GUARD.len()..GUARD.len() + content.len();
        Lent { bytes: [&GUARD, content, &GUARD].concat(), part }
    }

    pub fn part(&self) -> &[u8] {
        &self.bytes[self.part.clone()]
    }

    pub fn part_mut(&mut self) -> &mut [u8] {
        &mut self.bytes[self.part.clone()]
    }

    /// Whether nothing around the lent part was written.
    pub fn kept_around(&self) -> bool {
        self.bytes[..self.part.start] == GUARD && self.bytes[self.part.end..] == GUARD
    }
}
