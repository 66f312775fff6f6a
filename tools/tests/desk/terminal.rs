//! The chart in a terminal of a known width. A terminal is made here, with the functions of the C library that std
//! links anyway, and the program writes into it.

use crate::{ruler, P1_LISTING};
use std::ffi::{c_char, c_int, c_ulong, CStr};
use std::fs::File;
use std::io::{Read, Write};
use std::os::fd::FromRawFd;
use std::process::{Command, Stdio};

extern "C" {
    fn posix_openpt(flags: c_int) -> c_int;
    fn grantpt(file: c_int) -> c_int;
    fn unlockpt(file: c_int) -> c_int;
    fn ptsname(file: c_int) -> *const c_char;
    fn ioctl(file: c_int, request: c_ulong, ...) -> c_int;
}

/// Both ends of a terminal of so many columns: what is written to the second is read from the first.
fn terminal(columns: u16) -> (File, File) {
    let (read_and_write, set_size): (c_int, c_ulong) = (2, 0x5414);
    let size = [24, columns, 0, 0];
    // Sound: the file is new and this one's own, the name is copied at once, and the size has Linux's layout. Tests
    // that make terminals do so in this one test alone, so no other asks for a name meanwhile.
    unsafe {
        let end = posix_openpt(read_and_write);
        assert!(end >= 0 && grantpt(end) == 0 && unlockpt(end) == 0);
        assert_eq!(ioctl(end, set_size, &size), 0);
        let name = CStr::from_ptr(ptsname(end)).to_str().unwrap().to_string();
        (File::from_raw_fd(end), File::options().read(true).write(true).open(name).unwrap())
    }
}

/// Where the ruler of the first sheet's chart ends, in a terminal of so many columns.
fn ruler_in(columns: u16, told: Option<&str>) -> usize {
    let (mut ours, theirs) = terminal(columns);
    let mut command = Command::new(env!("CARGO_BIN_EXE_desk"));
    command.arg("chart").env_remove("COLUMNS").stdin(Stdio::piped()).stdout(theirs);
    if let Some(told) = told {
        command.env("COLUMNS", told);
    }
    let mut child = command.spawn().unwrap();
    // The command holds the other end of the terminal; while it does, what is read does not end.
    drop(command);
    child.stdin.take().unwrap().write_all(P1_LISTING.as_bytes()).unwrap();
    let mut drawn = Vec::new();
    // A terminal whose other end is closed ends with an error, after all that was written.
    let _ = ours.read_to_end(&mut drawn);
    assert!(child.wait().unwrap().success());
    ruler(&String::from_utf8(drawn).unwrap().replace('\r', ""))
}

/// 11 slots of four, three and two columns after 8 for the label; a terminal narrower than 40 is drawn for as 40 wide.
#[test]
fn the_chart_goes_by_the_width_of_the_terminal() {
    assert_eq!(ruler_in(52, None), 52);
    assert_eq!(ruler_in(51, None), 41);
    assert_eq!(ruler_in(40, None), 30);
    assert_eq!(ruler_in(20, None), 30);
    // A terminal that does not know its width says 0.
    assert_eq!(ruler_in(0, None), 52);
    assert_eq!(ruler_in(51, Some("52")), 52);
    assert_eq!(ruler_in(51, Some("wide")), 41);
    assert_eq!(ruler_in(51, Some("0")), 41);
}
