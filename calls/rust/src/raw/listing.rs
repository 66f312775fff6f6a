//! The listing as the library writes it.

use crate::LISTING_ROOM;

unsafe extern "C" {
    fn desk_listing(file: *const u8, length: usize, text: *mut u8, room: usize, written: *mut u64);
}

/// The bytes of the listing, of a refused file too; see [`listing`](crate::listing). The type of the text is the room
/// that the call asks for.
///
/// ```
/// let mut text = Box::new([0; desk::LISTING_ROOM]);
/// assert_eq!(desk::raw::listing(&[0; 17], &mut text), b"refused 2 at 0\n");
/// ```
#[must_use]
pub fn listing<'a>(file: &[u8], text: &'a mut [u8; LISTING_ROOM]) -> &'a [u8] {
    let mut written = 0;
    // Sound for the reasons at the head of `raw`; the call writes the one number.
    unsafe {
        desk_listing(file.as_ptr(), file.len(), text.as_mut_ptr(), text.len(), &mut written);
    }
    text.get(..written as usize).unwrap_or_default()
}
