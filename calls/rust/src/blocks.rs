//! The block sheet of one desk, by the published block method. Its records stay in the buffer that the caller lent.

use crate::records::two_parts;
use crate::{Block, Records, Refusal, Run, raw};

/// A block sheet, whose records stand in the lent buffer.
///
/// ```
/// # let (mut room, mut buffer) = ([0; 64], [0; desk::ROOM]);
/// let file = desk::write(&[[0, 2, 0, 9], [0, 1, 2, 9]], &[], &mut room)?;
/// let sheet = desk::blocks(file, 0, &mut buffer)?;
/// // Touching blocks stay two.
/// let ends: Vec<u32> = sheet.blocks().map(|block| block.end).collect();
/// assert_eq!(ends, [2, 3]);
/// # Ok::<(), desk::Refusal>(())
/// ```
#[derive(Clone, Copy, Debug, PartialEq, Eq)]
#[must_use]
pub struct Sheet<'a> {
    blocks: &'a [u8],
    runs: &'a [u8],
    worst: i64,
}

/// Works out the block sheet of one desk. The buffer gets a record for each block by time, then the run records of the
/// block method by time; the bytes after them stay. It asks the same room as [`plan`](crate::plan), whatever the desk
/// has.
///
/// ```
/// let mut buffer = [0; desk::ROOM];
/// assert_eq!(desk::blocks(&[], 31, &mut buffer)?.blocks().next(), None);
/// assert_eq!(desk::blocks(&[], 32, &mut buffer).unwrap_err().fault, desk::Fault::AskedDesk);
/// # Ok::<(), desk::Refusal>(())
/// ```
pub fn blocks<'a>(file: &[u8], desk: u8, buffer: &'a mut [u8]) -> Result<Sheet<'a>, Refusal> {
    let answer = raw::blocks(file, desk, buffer);
    if let Some(refusal) = answer.refusal() {
        return Err(refusal.into());
    }
    let (blocks, runs) = two_parts(buffer, answer.blocks, answer.runs);
    Ok(Sheet { blocks, runs, worst: answer.worst })
}

impl<'a> Sheet<'a> {
    /// The blocks of the first cutting, by time.
    ///
    /// ```
    /// # let (mut room, mut buffer) = ([0; 64], [0; desk::ROOM]);
    /// let file = desk::write(&[[7, 2, 0, 9]], &[], &mut room)?;
    /// let block = desk::blocks(file, 7, &mut buffer)?.blocks().next();
    /// assert_eq!(block, Some(desk::Block { desk: 7, pieces: 1, from: 0, end: 2 }));
    /// # Ok::<(), desk::Refusal>(())
    /// ```
    pub fn blocks(&self) -> Records<'a, Block> {
        Records::of(self.blocks)
    }

    /// The runs of the block method, by time.
    ///
    /// ```
    /// # let (mut room, mut buffer) = ([0; 64], [0; desk::ROOM]);
    /// let file = desk::write(&[[7, 2, 0, 9]], &[], &mut room)?;
    /// let run = desk::blocks(file, 7, &mut buffer)?.runs().next();
    /// assert_eq!(run, Some(desk::Run { desk: 7, piece: 0, from: 0, until: 2 }));
    /// # Ok::<(), desk::Refusal>(())
    /// ```
    pub fn runs(&self) -> Records<'a, Run> {
        Records::of(self.runs)
    }

    /// The greatest lateness on this desk; 0 if it has no pieces.
    ///
    /// ```
    /// # let (mut room, mut buffer) = ([0; 64], [0; desk::ROOM]);
    /// let file = desk::write(&[[7, 2, 0, 9]], &[], &mut room)?;
    /// assert_eq!(desk::blocks(file, 7, &mut buffer)?.worst(), -7);
    /// # Ok::<(), desk::Refusal>(())
    /// ```
    pub fn worst(&self) -> i64 {
        self.worst
    }
}
