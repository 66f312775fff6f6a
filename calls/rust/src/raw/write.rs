//! The writer as the library answers it.

unsafe extern "C" {
    fn desk_write(
        pieces: *const u32,
        piece_numbers: usize,
        links: *const u32,
        link_numbers: usize,
        buffer: *mut u8,
        room: usize,
        answer: *mut i64,
    );
}

/// The answer of the writer; a refused one has nothing but its number and place.
///
/// ```
/// assert_eq!(desk::raw::write(&[], &[], &mut []), desk::raw::WriteAnswer::default());
/// ```
#[derive(Clone, Copy, Debug, Default, PartialEq, Eq)]
#[must_use = "an answer may be a refusal"]
pub struct WriteAnswer {
    /// The number of the refusal, 0 if there is none.
    pub number: i64,
    /// The place of the refusal.
    pub place: i64,
    /// How many bytes at the front of the buffer are the file.
    pub bytes: i64,
}

answer!(WriteAnswer, "the file", |a| a.bytes);

/// As [`write`](crate::write()), with the rows one after the other: four numbers for a piece and three for a link.
/// Numbers left after the last whole row are refused by 1; its place counts the whole rows of both lists together.
///
/// ```
/// let answer = desk::raw::write(&[0, 4, 0, 20, 1], &[], &mut [0; 16]);
/// assert_eq!((answer.number, answer.place), (1, 1));
/// ```
pub fn write(pieces: &[u32], links: &[u32], buffer: &mut [u8]) -> WriteAnswer {
    let mut answer = [0; 3];
    // Sound for the reasons at the head of `raw`; the answer has the three numbers that the call writes.
    unsafe {
        desk_write(
            pieces.as_ptr(),
            pieces.len(),
            links.as_ptr(),
            links.len(),
            buffer.as_mut_ptr(),
            buffer.len(),
            answer.as_mut_ptr(),
        );
    }
    let [number, place, bytes] = answer;
    WriteAnswer { number, place, bytes }
}
