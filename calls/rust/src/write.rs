//! The writer: a job file of pieces and links that were typed into a form.

use crate::{Refusal, raw};

/// Makes a job file of typed pieces and links, in their order. A piece is a row of desk, duration, release and due, a
/// link a row of the piece before, the piece after and the handover. The file stands at the front of the buffer; the
/// bytes after it stay. Each number is judged as the plan would judge it in the file; a number too large for its field
/// is refused, never cut. Rings are left to [`plan`](crate::plan).
///
/// ```
/// use desk::Fault;
///
/// let mut room = [0; desk::FILE_ROOM];
/// let file = desk::write(&[[0, 4, 0, 20]], &[], &mut room)?;
/// assert_eq!(file, [1, 0, 4, 0, 0, 0, 0, 0, 20, 0, 0, 0, 0, 0, 0, 0]);
/// let refusal = desk::write(&[[0, 4, 0, 20], [32, 1, 0, 0]], &[], &mut room).unwrap_err();
/// assert_eq!((refusal.fault, refusal.place), (Fault::Desk, 1));
/// # Ok::<(), desk::Refusal>(())
/// ```
pub fn write<'a>(
    pieces: &[[u32; 4]],
    links: &[[u32; 3]],
    buffer: &'a mut [u8],
) -> Result<&'a [u8], Refusal> {
    let answer = raw::write(pieces.as_flattened(), links.as_flattened(), buffer);
    match answer.refusal() {
        Some(refusal) => Err(refusal.into()),
        None => Ok(buffer.get(..answer.written()).unwrap_or_default()),
    }
}
