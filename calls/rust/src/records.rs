//! The records that the calls write, as values, and iterators over them. Reading them is no part of the proved
//! library: whoever wants the bytes takes the bytes.

use crate::RECORD;
use std::marker::PhantomData;

/// A record of 16 bytes as a value: [`PieceResult`], [`Run`] or [`Block`].
///
/// ```
/// use desk::{Block, Record, Run};
///
/// let bytes = [18, 7, 1, 0, 2, 0, 0, 0, 5, 0, 0, 0, 0, 0, 0, 0];
/// assert_eq!(Run::read(&bytes), Some(Run { desk: 7, piece: 1, from: 2, until: 5 }));
/// assert_eq!(Block::read(&bytes), None);
/// ```
pub trait Record: Sized {
    /// The record in these bytes; nothing if they are of another kind.
    fn read(bytes: &[u8; RECORD]) -> Option<Self>;
}

/// What the plan says of a piece. Moments count in slots of a quarter-hour.
///
/// ```
/// let result = desk::PieceResult { desk: 0, piece: 1, start: 3, finish: 8, latest: 2 };
/// assert_eq!(result.lateness(), 6);
/// ```
#[derive(Clone, Copy, Debug, PartialEq, Eq, Hash)]
pub struct PieceResult {
    /// The desk that the piece is fixed to.
    pub desk: u8,
    /// The number of the piece.
    pub piece: u16,
    /// The first slot worked.
    pub start: u32,
    /// One past the last slot worked.
    pub finish: u32,
    /// The moment by which it should be finished, which may lie below zero.
    pub latest: i32,
}

impl PieceResult {
    /// The finish less the latest moment: below zero early, zero just in time, above zero late.
    ///
    /// ```
    /// let early = desk::PieceResult { desk: 0, piece: 0, start: 0, finish: 3, latest: 4 };
    /// assert_eq!(early.lateness(), -1);
    /// ```
    pub fn lateness(&self) -> i64 {
        i64::from(self.finish) - i64::from(self.latest)
    }
}

/// A longest stretch of slots in which a desk works on one piece.
///
/// ```
/// let run = desk::Run { desk: 0, piece: 1, from: 3, until: 8 };
/// assert_eq!(run.until - run.from, 5);
/// ```
#[derive(Clone, Copy, Debug, PartialEq, Eq, Hash)]
pub struct Run {
    /// The desk that works.
    pub desk: u8,
    /// The piece that it works on.
    pub piece: u16,
    /// The first slot worked.
    pub from: u32,
    /// The slot after the last one worked.
    pub until: u32,
}

/// A block of the first cutting of a desk's pieces.
///
/// ```
/// let block = desk::Block { desk: 0, pieces: 2, from: 0, end: 6 };
/// assert_eq!(block.end - block.from, 6);
/// ```
#[derive(Clone, Copy, Debug, PartialEq, Eq, Hash)]
pub struct Block {
    /// The desk that the block is of.
    pub desk: u8,
    /// How many pieces it has.
    pub pieces: u16,
    /// Its first slot.
    pub from: u32,
    /// The slot after its last one.
    pub end: u32,
}

/// The bytes that all kinds share: kind, desk, a number of two bytes and three of four.
fn parts(bytes: &[u8; RECORD]) -> (u8, u8, u16, [u32; 3]) {
    let [kind, desk, low, high, rest @ ..] = *bytes;
    let field = |at: usize| u32::from_le_bytes([0, 1, 2, 3].map(|byte| rest[at + byte]));
    (kind, desk, u16::from_le_bytes([low, high]), [field(0), field(4), field(8)])
}

impl Record for PieceResult {
    fn read(bytes: &[u8; RECORD]) -> Option<PieceResult> {
        let (kind, desk, piece, [start, finish, latest]) = parts(bytes);
        // A latest moment is in two's complement, which is what the cast undoes.
        (kind == 17).then_some(PieceResult { desk, piece, start, finish, latest: latest as i32 })
    }
}

impl Record for Run {
    fn read(bytes: &[u8; RECORD]) -> Option<Run> {
        let (kind, desk, piece, [from, until, _]) = parts(bytes);
        (kind == 18).then_some(Run { desk, piece, from, until })
    }
}

impl Record for Block {
    fn read(bytes: &[u8; RECORD]) -> Option<Block> {
        let (kind, desk, pieces, [from, end, _]) = parts(bytes);
        (kind == 19).then_some(Block { desk, pieces, from, end })
    }
}

/// The records of one kind at the front of some bytes, up to the first of another kind or the first cut short.
///
/// ```
/// use desk::{Records, Run};
///
/// let run = [18, 7, 1, 0, 2, 0, 0, 0, 5, 0, 0, 0, 0, 0, 0, 0];
/// let bytes = [run, run, [0; 16]].concat();
/// assert_eq!(Records::<Run>::of(&bytes).count(), 2);
/// ```
#[derive(Debug)]
#[must_use]
pub struct Records<'a, T> {
    left: &'a [u8],
    kind: PhantomData<T>,
}

impl<'a, T> Records<'a, T> {
    /// The records at the front of these bytes.
    ///
    /// ```
    /// assert_eq!(desk::Records::<desk::Block>::of(&[]).next(), None);
    /// ```
    pub fn of(bytes: &'a [u8]) -> Records<'a, T> {
        Records { left: bytes, kind: PhantomData }
    }

    /// The bytes that were not given out yet, a part of the caller's own slice.
    ///
    /// ```
    /// let bytes = [18; 48];
    /// let mut runs = desk::Records::<desk::Run>::of(&bytes);
    /// runs.next();
    /// assert_eq!(runs.bytes().len(), 32);
    /// ```
    pub fn bytes(&self) -> &'a [u8] {
        self.left
    }
}

impl<T> Clone for Records<'_, T> {
    fn clone(&self) -> Self {
        Records { left: self.left, kind: PhantomData }
    }
}

impl<T: Record> Iterator for Records<'_, T> {
    type Item = T;

    fn next(&mut self) -> Option<T> {
        let (bytes, after) = self.left.split_first_chunk()?;
        let record = T::read(bytes);
        // After a record of another kind nothing more is given, however often one asks.
        self.left = if record.is_some() { after } else { &[] };
        record
    }

    fn size_hint(&self) -> (usize, Option<usize>) {
        (0, Some(self.left.len() / RECORD))
    }
}

impl<T: Record> std::iter::FusedIterator for Records<'_, T> {}

/// The first so many records of a buffer and the so many after them, as far as it goes.
pub(crate) fn two_parts(buffer: &[u8], first: i64, second: i64) -> (&[u8], &[u8]) {
    let bytes = |records: i64| usize::try_from(records).unwrap_or(0).saturating_mul(RECORD);
    let (front, after) = buffer.split_at_checked(bytes(first)).unwrap_or((buffer, &[]));
    (front, after.get(..bytes(second)).unwrap_or(after))
}
