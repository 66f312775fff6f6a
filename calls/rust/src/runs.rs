//! The runs of one desk out of the records of a plan. This call refuses nothing.

use crate::{Records, Run, raw};

/// The runs of one desk out of the records of a plan, over a part of the caller's own slice. Any bytes and any desk
/// number may be given. Lend only the records written, not the room after them.
///
/// ```
/// let run = |desk: u8| [18, desk, 1, 0, 2, 0, 0, 0, 5, 0, 0, 0, 0, 0, 0, 0];
/// let records = [run(3), run(4), run(4)].concat();
/// assert_eq!(desk::runs(&records, 4).count(), 2);
/// assert_eq!(desk::runs(&records, 4).bytes(), &records[16..]);
/// assert_eq!(desk::runs(&records, 255).next(), None);
/// ```
pub fn runs(records: &[u8], desk: u8) -> Records<'_, Run> {
    Records::of(raw::runs(records, desk))
}
