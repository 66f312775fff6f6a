//! The listing of a job file: the text that the program `deskplan` prints. It tells a refusal in its one line, which is
//! read back here, so that it does not pass for a plan.

use crate::{LISTING_ROOM, Refusal, raw};

/// The text that the program `deskplan` prints for a job file that it plans. The room is lent, as everywhere here.
///
/// ```
/// let mut text = Box::new([0; desk::LISTING_ROOM]);
/// assert_eq!(desk::listing(&[], &mut text)?, "total pieces 0 runs 0 end 0 worst 0\n");
/// assert_eq!(desk::listing(&[7; 16], &mut text).unwrap_err().fault, desk::Fault::UnknownKind);
/// # Ok::<(), desk::Refusal>(())
/// ```
pub fn listing<'a>(file: &[u8], text: &'a mut [u8; LISTING_ROOM]) -> Result<&'a str, Refusal> {
    // It is made of plain letters, digits, spaces, minus signs and newlines.
    let text = std::str::from_utf8(raw::listing(file, text)).unwrap_or_default();
    match refused(text) {
        Some(refusal) => Err(refusal.into()),
        None => Ok(text),
    }
}

/// A refused file prints one line, as `refused 2 at 0`.
fn refused(text: &str) -> Option<raw::Refusal> {
    let (number, place) = text.strip_prefix("refused ")?.trim_end().split_once(" at ")?;
    Some(raw::Refusal { number: number.parse().ok()?, place: place.parse().ok()? })
}
