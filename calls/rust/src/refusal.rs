//! Refusals with their names. The numbers are those of the rules page; a number that is not on this list, as a newer
//! library may give one, is kept as it is.

use crate::raw;
use std::fmt::{self, Display, Formatter};

/// What a call has against its file, form, desk or buffer, by the list of the rules page.
///
/// ```
/// use desk::{plan, Fault};
///
/// // Kind 7 is unknown.
/// assert_eq!(plan(&[7; 16], &mut []).unwrap_err().fault, Fault::UnknownKind);
/// ```
#[derive(Clone, Copy, Debug, PartialEq, Eq, Hash)]
#[non_exhaustive]
pub enum Fault {
    /// 1: bytes after the last whole record. The place counts the whole records.
    BytesLeft,
    /// 2: a record of unknown kind. The place of this and of all up to 10 is the record, counted from 0.
    UnknownKind,
    /// 3: a piece after a link.
    PieceAfterLink,
    /// 4: a 257th piece or a 1,025th link.
    TooMany,
    /// 5: the desk of a piece is above 31.
    Desk,
    /// 6: a duration of 0 or above 960.
    Duration,
    /// 7: a release or due above 40,000.
    ReleaseOrDue,
    /// 8: a byte that must be zero is not.
    NotZero,
    /// 9: a link names a piece that is not there.
    NoSuchPiece,
    /// 10: a handover above 480.
    Handover,
    /// 11: a piece leads by links back to itself. The place is the lowest such piece.
    Ring,
    /// 12: the lent buffer is shorter than 48 bytes for each piece. The place of this and of the next two is 0.
    BufferTooShort,
    /// 13: the block sheet was asked for a desk above 31.
    AskedDesk,
    /// 14: the lent buffer is too short for the file to be written.
    NoRoomForFile,
    /// A number that is not on this list.
    Unlisted(i64),
}

/// By number, from 1 on.
const LISTED: [Fault; 14] = [
    Fault::BytesLeft,
    Fault::UnknownKind,
    Fault::PieceAfterLink,
    Fault::TooMany,
    Fault::Desk,
    Fault::Duration,
    Fault::ReleaseOrDue,
    Fault::NotZero,
    Fault::NoSuchPiece,
    Fault::Handover,
    Fault::Ring,
    Fault::BufferTooShort,
    Fault::AskedDesk,
    Fault::NoRoomForFile,
];

impl Fault {
    /// The fault of a number.
    ///
    /// ```
    /// assert_eq!(desk::Fault::of(11), desk::Fault::Ring);
    /// assert_eq!(desk::Fault::of(-1), desk::Fault::Unlisted(-1));
    /// ```
    pub fn of(number: i64) -> Fault {
        let listed = (1..).zip(LISTED).find(|&(its, _)| its == number);
        listed.map_or(Fault::Unlisted(number), |(_, fault)| fault)
    }

    /// Its number on the list.
    ///
    /// ```
    /// assert_eq!(desk::Fault::Ring.number(), 11);
    /// ```
    pub fn number(self) -> i64 {
        match self {
            Fault::Unlisted(number) => number,
            listed => (1..).zip(LISTED).find(|&(_, its)| its == listed).map_or(0, |(its, _)| its),
        }
    }
}

/// A refused call: why, and at which place.
///
/// ```
/// let refusal = desk::plan(&[0; 17], &mut []).unwrap_err();
/// assert_eq!((refusal.fault, refusal.place), (desk::Fault::UnknownKind, 0));
/// assert_eq!(refusal.to_string(), "refused 2 at 0: record 0 is of an unknown kind");
/// ```
#[derive(Clone, Copy, Debug, PartialEq, Eq, Hash)]
#[must_use]
pub struct Refusal {
    /// What is wrong.
    pub fault: Fault,
    /// The place that the fault names: for most a record, counted from 0.
    pub place: u64,
}

impl From<raw::Refusal> for Refusal {
    /// No place lies below zero; one that did would be 0 here.
    fn from(raw::Refusal { number, place }: raw::Refusal) -> Refusal {
        Refusal { fault: Fault::of(number), place: u64::try_from(place).unwrap_or(0) }
    }
}

impl Display for Refusal {
    fn fmt(&self, to: &mut Formatter) -> fmt::Result {
        let place = self.place;
        write!(to, "refused {} at {place}: ", self.fault.number())?;
        match self.fault {
            Fault::BytesLeft => write!(to, "bytes are left after {place} whole records"),
            Fault::UnknownKind => write!(to, "record {place} is of an unknown kind"),
            Fault::PieceAfterLink => write!(to, "record {place} is a piece after a link"),
            Fault::TooMany => write!(to, "record {place} is one piece or one link too many"),
            Fault::Desk => write!(to, "the desk in record {place} is above 31"),
            Fault::Duration => write!(to, "the duration in record {place} is 0 or above 960"),
            Fault::ReleaseOrDue => {
                write!(to, "the release or due in record {place} is above 40,000")
            }
            Fault::NotZero => write!(to, "a byte in record {place} should be zero and is not"),
            Fault::NoSuchPiece => write!(to, "record {place} links a piece that is not there"),
            Fault::Handover => write!(to, "the handover in record {place} is above 480"),
            Fault::Ring => write!(to, "piece {place} leads by links back to itself"),
            Fault::BufferTooShort => {
                write!(to, "the buffer is shorter than 48 bytes for each piece")
            }
            Fault::AskedDesk => write!(to, "the desk asked for is above 31"),
            Fault::NoRoomForFile => write!(to, "the buffer is too short for the file"),
            Fault::Unlisted(_) => write!(to, "see the planner's list of refusals"),
        }
    }
}

impl std::error::Error for Refusal {}
