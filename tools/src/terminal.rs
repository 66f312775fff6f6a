//! How wide the terminal is: what COLUMNS says, or else what the terminal on standard output says of itself. This is
//! the only unsafe code of the tools: one function of the C library that std links anyway.

#![allow(unsafe_code)]

use std::ffi::{c_int, c_ulong};
use std::io::{stdout, IsTerminal};
use std::os::fd::AsRawFd;

/// Rows, columns, and the size in points, as Linux lays them out.
#[repr(C)]
#[derive(Default)]
struct Size {
    rows: u16,
    columns: u16,
    points: [u16; 2],
}

/// Linux's number for "tell the size of the window".
const TELL_SIZE: c_ulong = 0x5413;

extern "C" {
    fn ioctl(file: c_int, request: c_ulong, ...) -> c_int;
}

/// The columns of the terminal, if there is one or COLUMNS names a number.
pub fn columns() -> Option<i64> {
    let told = std::env::var("COLUMNS").ok().and_then(|columns| columns.parse().ok());
    told.filter(|&columns| columns > 0).or_else(of_terminal)
}

fn of_terminal() -> Option<i64> {
    let out = stdout();
    let mut size = Size::default();
    // Sound: the file is open, and the call writes no more than a size of this layout.
    let told = out.is_terminal() && unsafe { ioctl(out.as_raw_fd(), TELL_SIZE, &mut size) } == 0;
    (told && size.columns > 0).then_some(size.columns.into())
}
