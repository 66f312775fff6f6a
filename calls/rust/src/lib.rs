//! The proved calls of the desk planner as safe functions: [`plan`] for every desk of a job file, the block sheet of
//! one desk ([`blocks`]), the [`runs`] of one desk, the [`listing`], and a job file of typed rows ([`write()`]). Every
//! file, form, desk number and buffer may be given: nothing has to be checked first and nothing panics. What a call
//! has against its file is an [`Err`] with a [`Refusal`], so that none passes unseen.
//!
//! ```
//! # fn main() -> Result<(), desk::Refusal> {
//! // Two pieces on one desk, each desk, duration, release, due; the first before the second, no handover.
//! let mut room = [0; desk::FILE_ROOM];
//! let file = desk::write(&[[0, 3, 0, 0], [0, 5, 0, 2]], &[[0, 1, 0]], &mut room)?;
//! let mut buffer = [0; desk::ROOM];
//! let plan = desk::plan(file, &mut buffer)?;
//! assert_eq!((plan.pieces(), plan.end(), plan.worst()), (2, 8, 6));
//! for result in plan.results() {
//!     println!("piece {} is {} slots late", result.piece, result.lateness());
//! }
//! # Ok(())
//! # }
//! ```
//!
//! The module [`raw`] has the same calls with all their numbers as the library answers them. A call takes room on the
//! stack, [`blocks`] the most with up to 77 KB; a thread of Rust has 2 MB.

#![deny(unsafe_code)]
#![deny(missing_docs)]

mod blocks;
mod listing;
mod plan;
pub mod raw;
mod records;
mod refusal;
mod runs;
mod write;

pub use blocks::{Sheet, blocks};
pub use listing::listing;
pub use plan::{Plan, plan};
pub use records::{Block, PieceResult, Record, Records, Run};
pub use refusal::{Fault, Refusal};
pub use runs::runs;
pub use write::write;

/// Bytes of a record, in the file and in the buffers.
///
/// ```
/// assert_eq!(desk::plan(&[7; desk::RECORD - 1], &mut []).unwrap_err().fault, desk::Fault::BytesLeft);
/// ```
pub const RECORD: usize = 16;

/// Bytes of buffer that [`plan`] and [`blocks`] ask for each piece of the file.
///
/// ```
/// let mut room = [0; desk::RECORD];
/// let file = desk::write(&[[0, 1, 0, 1]], &[], &mut room)?;
/// assert!(desk::plan(file, &mut [0; desk::ROOM_FOR_A_PIECE]).is_ok());
/// assert!(desk::plan(file, &mut [0; desk::ROOM_FOR_A_PIECE - 1]).is_err());
/// # Ok::<(), desk::Refusal>(())
/// ```
pub const ROOM_FOR_A_PIECE: usize = 48;

/// Bytes of buffer that are enough for [`plan`] and [`blocks`] on every file.
///
/// ```
/// assert_eq!(desk::ROOM, 256 * desk::ROOM_FOR_A_PIECE);
/// ```
pub const ROOM: usize = 256 * ROOM_FOR_A_PIECE;

/// Bytes of the longest file that [`write()`] makes: 256 pieces and 1,024 links.
///
/// ```
/// let (pieces, links) = ([[0, 1, 0, 0]; 256], [[0, 1, 0]; 1024]);
/// let mut room = [0; desk::FILE_ROOM];
/// assert_eq!(desk::write(&pieces, &links, &mut room)?.len(), desk::FILE_ROOM);
/// # Ok::<(), desk::Refusal>(())
/// ```
pub const FILE_ROOM: usize = (256 + 1024) * RECORD;

/// Bytes that [`listing`] asks for, enough for every file.
///
/// ```
/// let mut text = Box::new([0; desk::LISTING_ROOM]);
/// assert!(desk::listing(&[], &mut text).is_ok());
/// ```
pub const LISTING_ROOM: usize = 131_072;
