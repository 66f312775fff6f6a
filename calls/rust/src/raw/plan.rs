//! The plan as the library answers it.

use super::bytes_of;

unsafe extern "C" {
    fn desk_plan(file: *const u8, length: usize, buffer: *mut u8, room: usize, answer: *mut i64);
}

/// The answer of the plan; a refused one has nothing but its number and place.
///
/// ```
/// assert_eq!(desk::raw::plan(&[], &mut []), desk::raw::PlanAnswer::default());
/// ```
#[derive(Clone, Copy, Debug, Default, PartialEq, Eq)]
#[must_use = "an answer may be a refusal"]
pub struct PlanAnswer {
    /// The number of the refusal, 0 if there is none.
    pub number: i64,
    /// The place of the refusal.
    pub place: i64,
    /// How many pieces, and so result records.
    pub pieces: i64,
    /// How many run records.
    pub runs: i64,
    /// The largest finish.
    pub end: i64,
    /// The greatest lateness; below zero where every piece is early.
    pub worst: i64,
}

answer!(PlanAnswer, "records of this plan", |a| bytes_of(a.pieces, a.runs));

/// As [`plan`](crate::plan).
///
/// ```
/// assert_eq!(desk::raw::plan(&[1], &mut []).number, 1);
/// ```
pub fn plan(file: &[u8], buffer: &mut [u8]) -> PlanAnswer {
    let mut answer = [0; 6];
    // Sound for the reasons at the head of `raw`; the answer has the six numbers that the call writes.
    unsafe {
        desk_plan(
            file.as_ptr(),
            file.len(),
            buffer.as_mut_ptr(),
            buffer.len(),
            answer.as_mut_ptr(),
        );
    }
    let [number, place, pieces, runs, end, worst] = answer;
    PlanAnswer { number, place, pieces, runs, end, worst }
}
