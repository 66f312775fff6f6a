//! The runs of one desk as a stretch of the lent records.

unsafe extern "C" {
    fn desk_runs(records: *const u8, length: usize, desk: u8, stretch: *mut u64);
}

/// The run records of one desk as a part of the caller's own slice, as [`runs`](crate::runs) reads them.
///
/// ```
/// let records = [[17; 16], [18; 16]].concat();
/// assert_eq!(desk::raw::runs(&records, 18), &records[16..]);
/// ```
#[must_use]
pub fn runs(records: &[u8], desk: u8) -> &[u8] {
    let mut stretch = [0; 2];
    // Sound for the reasons at the head of `raw`; the stretch has the two numbers that the call writes.
    unsafe { desk_runs(records.as_ptr(), records.len(), desk, stretch.as_mut_ptr()) };
    // The first byte and the byte after the last are at most the length of the slice, so no bit is lost.
    let [first, past] = stretch.map(|byte| byte as usize);
    records.get(first..past).unwrap_or_default()
}
