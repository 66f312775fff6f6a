//! Null pointers where a length is 0, as C may give them, for each call of the library. A slice of Rust never has one,
//! so the calls are declared here as in `deskplan.h`.

use std::ptr::{null, null_mut};

// The package links the library; this has the linker see it.
use desk as _;

unsafe extern "C" {
    fn desk_plan(
        file: *const u8,
        length: usize,
        buffer: *mut u8,
        room: usize,
        answer: *mut [i64; 6],
    );
    fn desk_blocks(
        file: *const u8,
        length: usize,
        desk: u8,
        buffer: *mut u8,
        room: usize,
        answer: *mut [i64; 5],
    );
    fn desk_runs(records: *const u8, length: usize, desk: u8, stretch: *mut [u64; 2]);
    fn desk_listing(file: *const u8, length: usize, text: *mut u8, room: usize, written: *mut u64);
    fn desk_write(
        pieces: *const u32,
        piece_numbers: usize,
        links: *const u32,
        link_numbers: usize,
        buffer: *mut u8,
        room: usize,
        answer: *mut [i64; 3],
    );
}

const PIECE: [u8; 16] = [1, 0, 1, 0, 0, 0, 0, 0, 0, 0, 0, 0, 0, 0, 0, 0];

// Each call below is sound: what is not null holds for its length, and nothing written overlaps anything.

#[test]
fn a_plan() {
    let mut answer = [7; 6];
    unsafe { desk_plan(null(), 0, null_mut(), 0, &mut answer) };
    assert_eq!(answer, [0; 6]);
    unsafe { desk_plan(PIECE.as_ptr(), 16, null_mut(), 0, &mut answer) };
    assert_eq!(answer, [12, 0, 0, 0, 0, 0]);
}

#[test]
fn a_block_sheet() {
    let mut answer = [7; 5];
    unsafe { desk_blocks(null(), 0, 0, null_mut(), 0, &mut answer) };
    assert_eq!(answer, [0; 5]);
    unsafe { desk_blocks(PIECE.as_ptr(), 16, 0, null_mut(), 0, &mut answer) };
    assert_eq!(answer, [12, 0, 0, 0, 0]);
}

#[test]
fn runs() {
    let mut stretch = [7; 2];
    unsafe { desk_runs(null(), 0, 0, &mut stretch) };
    assert_eq!(stretch, [0; 2]);
}

#[test]
fn a_listing() {
    let (mut text, mut written) = (vec![0; desk::LISTING_ROOM], 7);
    unsafe { desk_listing(null(), 0, text.as_mut_ptr(), text.len(), &mut written) };
    assert_eq!(&text[..written as usize], b"total pieces 0 runs 0 end 0 worst 0\n");
    unsafe { desk_listing(PIECE.as_ptr(), 16, null_mut(), 0, &mut written) };
    assert_eq!(written, 0);
}

#[test]
fn a_form() {
    let mut answer = [7; 3];
    unsafe { desk_write(null(), 0, null(), 0, null_mut(), 0, &mut answer) };
    assert_eq!(answer, [0; 3]);
    let row = [0, 1, 0, 0];
    unsafe { desk_write(row.as_ptr(), 4, null(), 0, null_mut(), 0, &mut answer) };
    assert_eq!(answer, [14, 0, 0]);
    unsafe { desk_write(null(), 0, row.as_ptr(), 3, null_mut(), 0, &mut answer) };
    assert_eq!(answer, [9, 0, 0]);
}
