//! The runs of one desk out of a finished plan. The call takes any bytes whatever, so it looks at
//! nothing but the first two bytes of each whole record.

use crate::job::RECORD;
use crate::records::RUN;

/// The byte offsets of the stretch, its first and one past its last; (0, 0) if there is none. A
/// second stretch of the same desk further back is no part of the answer.
pub fn runs(records: &[u8], desk: u8) -> (u64, u64) {
    let wanted = |record: &[u8]| record[0] == RUN && record[1] == desk;
    let whole = || records.chunks_exact(RECORD);
    let Some(first) = whole().position(wanted) else {
        return (0, 0);
    };
    let count = whole().skip(first).take_while(|record| wanted(record)).count();
    ((first * RECORD) as u64, ((first + count) * RECORD) as u64)
}
