//! The block sheet of one desk as the library answers it.

use super::bytes_of;

unsafe extern "C" {
    fn desk_blocks(
        file: *const u8,
        length: usize,
        desk: u8,
        buffer: *mut u8,
        room: usize,
        answer: *mut i64,
    );
}

/// The answer of the block sheet of one desk; a refused one has nothing but its number and place.
///
/// ```
/// assert_eq!(desk::raw::blocks(&[], 0, &mut []), desk::raw::BlockAnswer::default());
/// ```
#[derive(Clone, Copy, Debug, Default, PartialEq, Eq)]
#[must_use = "an answer may be a refusal"]
pub struct BlockAnswer {
    /// The number of the refusal, 0 if there is none.
    pub number: i64,
    /// The place of the refusal.
    pub place: i64,
    /// How many block records.
    pub blocks: i64,
    /// How many run records.
    pub runs: i64,
    /// The greatest lateness on this desk.
    pub worst: i64,
}

answer!(BlockAnswer, "records of this sheet", |a| bytes_of(a.blocks, a.runs));

/// As [`blocks`](crate::blocks).
///
/// ```
/// assert_eq!(desk::raw::blocks(&[], 32, &mut []).number, 13);
/// ```
pub fn blocks(file: &[u8], desk: u8, buffer: &mut [u8]) -> BlockAnswer {
    let mut answer = [0; 5];
    // Sound for the reasons at the head of `raw`; the answer has the five numbers that the call writes.
    unsafe {
        desk_blocks(
            file.as_ptr(),
            file.len(),
            desk,
            buffer.as_mut_ptr(),
            buffer.len(),
            answer.as_mut_ptr(),
        );
    }
    let [number, place, blocks, runs, worst] = answer;
    BlockAnswer { number, place, blocks, runs, worst }
}
