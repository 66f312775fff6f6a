//! The plan of a job file: every desk works on its most urgent ready piece. The records stay in the buffer that the
//! caller lent; a plan lends them on as values.

use crate::records::two_parts;
use crate::{PieceResult, Records, Refusal, Run, raw, runs};

/// A plan, whose records stand in the lent buffer.
///
/// ```
/// # let (mut room, mut buffer) = ([0; 64], [0; desk::ROOM]);
/// let file = desk::write(&[[0, 1, 1, 9], [0, 3, 0, 9]], &[], &mut room)?;
/// let plan = desk::plan(file, &mut buffer)?;
/// // The lower number interrupts on equality.
/// let order: Vec<u16> = plan.runs().map(|run| run.piece).collect();
/// assert_eq!(order, [1, 0, 1]);
/// # Ok::<(), desk::Refusal>(())
/// ```
#[derive(Clone, Copy, Debug, PartialEq, Eq)]
#[must_use]
pub struct Plan<'a> {
    results: &'a [u8],
    runs: &'a [u8],
    end: u32,
    worst: i64,
}

/// Plans every desk of a job file. The buffer gets a result record for each piece by number, then the run records by
/// desk and then by start; the bytes after them stay. A refused file leaves the buffer as it was.
///
/// ```
/// let mut buffer = [0; desk::ROOM];
/// assert_eq!(desk::plan(&[], &mut buffer)?.pieces(), 0);
/// assert_eq!(desk::plan(&[7; 16], &mut buffer).unwrap_err().fault, desk::Fault::UnknownKind);
/// # Ok::<(), desk::Refusal>(())
/// ```
pub fn plan<'a>(file: &[u8], buffer: &'a mut [u8]) -> Result<Plan<'a>, Refusal> {
    let answer = raw::plan(file, buffer);
    if let Some(refusal) = answer.refusal() {
        return Err(refusal.into());
    }
    let (results, runs) = two_parts(buffer, answer.pieces, answer.runs);
    // A finish is a number of 32 bits, and the end is one of them.
    Ok(Plan { results, runs, end: answer.end as u32, worst: answer.worst })
}

impl<'a> Plan<'a> {
    /// How many pieces the file has.
    ///
    /// ```
    /// assert_eq!(desk::plan(&[], &mut [])?.pieces(), 0);
    /// # Ok::<(), desk::Refusal>(())
    /// ```
    pub fn pieces(&self) -> usize {
        self.results.len() / crate::RECORD
    }

    /// The largest finish, 0 if there are no pieces.
    ///
    /// ```
    /// # let (mut room, mut buffer) = ([0; 64], [0; desk::ROOM]);
    /// let file = desk::write(&[[0, 4, 10, 20]], &[], &mut room)?;
    /// assert_eq!(desk::plan(file, &mut buffer)?.end(), 14);
    /// # Ok::<(), desk::Refusal>(())
    /// ```
    pub fn end(&self) -> u32 {
        self.end
    }

    /// The greatest lateness, below zero where every piece is early; 0 if there are no pieces.
    ///
    /// ```
    /// # let (mut room, mut buffer) = ([0; 64], [0; desk::ROOM]);
    /// let file = desk::write(&[[0, 4, 10, 20]], &[], &mut room)?;
    /// assert_eq!(desk::plan(file, &mut buffer)?.worst(), -6);
    /// # Ok::<(), desk::Refusal>(())
    /// ```
    pub fn worst(&self) -> i64 {
        self.worst
    }

    /// What the plan says of each piece, by number.
    ///
    /// ```
    /// # let (mut room, mut buffer) = ([0; 64], [0; desk::ROOM]);
    /// let file = desk::write(&[[3, 4, 10, 20]], &[], &mut room)?;
    /// let result = desk::plan(file, &mut buffer)?.results().next();
    /// let expected = desk::PieceResult { desk: 3, piece: 0, start: 10, finish: 14, latest: 20 };
    /// assert_eq!(result, Some(expected));
    /// # Ok::<(), desk::Refusal>(())
    /// ```
    pub fn results(&self) -> Records<'a, PieceResult> {
        Records::of(self.results)
    }

    /// All runs, by desk and then by start.
    ///
    /// ```
    /// # let (mut room, mut buffer) = ([0; 64], [0; desk::ROOM]);
    /// let file = desk::write(&[[3, 4, 10, 20]], &[], &mut room)?;
    /// let run = desk::plan(file, &mut buffer)?.runs().next();
    /// assert_eq!(run, Some(desk::Run { desk: 3, piece: 0, from: 10, until: 14 }));
    /// # Ok::<(), desk::Refusal>(())
    /// ```
    pub fn runs(&self) -> Records<'a, Run> {
        Records::of(self.runs)
    }

    /// The runs of one desk, by start.
    ///
    /// ```
    /// # let (mut room, mut buffer) = ([0; 64], [0; desk::ROOM]);
    /// let file = desk::write(&[[3, 4, 10, 20], [5, 1, 0, 9]], &[], &mut room)?;
    /// let plan = desk::plan(file, &mut buffer)?;
    /// assert_eq!(plan.runs_of(5).map(|run| run.piece).collect::<Vec<_>>(), [1]);
    /// assert_eq!(plan.runs_of(4).next(), None);
    /// # Ok::<(), desk::Refusal>(())
    /// ```
    pub fn runs_of(&self, desk: u8) -> Records<'a, Run> {
        runs(self.runs, desk)
    }
}
