//! The program as a person calls it. Good output goes to one stream and complaints to the other;
//! both come only where a file is made that the planner would refuse.

use crate::{P1_BYTES, P1_LISTING, P1_TEXT};
use std::io::{Read, Write};
use std::process::{Command, Stdio};

/// Exit code, standard output and standard error.
fn desk(arguments: &[&str], columns: Option<&str>, input: &[u8]) -> (i32, Vec<u8>, String) {
    let mut command = Command::new(env!("CARGO_BIN_EXE_desk"));
    command.args(arguments).env_remove("COLUMNS");
    if let Some(columns) = columns {
        command.env("COLUMNS", columns);
    }
    let streams = command.stdin(Stdio::piped()).stdout(Stdio::piped()).stderr(Stdio::piped());
    let mut child = streams.spawn().unwrap();
    // A call that is refused does not read its input; that is no fault here.
    let _ = child.stdin.take().unwrap().write_all(input);
    let output = child.wait_with_output().unwrap();
    let told = String::from_utf8(output.stderr).unwrap();
    (output.status.code().unwrap(), output.stdout, told)
}

/// What a call prints that works and has nothing to complain of.
fn printed(arguments: &[&str], columns: Option<&str>, input: &[u8]) -> Vec<u8> {
    let (code, output, told) = desk(arguments, columns, input);
    assert_eq!((code, told.as_str()), (0, ""));
    output
}

/// The complaint of a call that prints nothing.
fn told(arguments: &[&str], input: &[u8]) -> String {
    let (code, output, told) = desk(arguments, None, input);
    assert_eq!((code, output), (1, Vec::new()));
    told
}

fn ruler(chart: &[u8]) -> usize {
    crate::ruler(std::str::from_utf8(chart).unwrap())
}

/// The name of a file of the tests.
fn file(name: &str) -> String {
    format!("{}/tests/{name}", env!("CARGO_MANIFEST_DIR"))
}

#[test]
fn make_and_show() {
    assert_eq!(printed(&["make"], None, P1_TEXT.as_bytes()), P1_BYTES);
    let text = printed(&["show"], None, &P1_BYTES);
    assert!(text.starts_with(b"piece 0 desk 0 duration 4 release 0 due 20\n"));
    assert_eq!(printed(&["make"], None, &text), P1_BYTES);
}

#[test]
fn files_are_named_or_come_in() {
    let (text, listing) = (file("p1.txt"), file("p1.listing"));
    assert_eq!(printed(&["make", &text], None, b"piece"), P1_BYTES);
    assert_eq!(printed(&["make", "-"], None, P1_TEXT.as_bytes()), P1_BYTES);
    let drawn = printed(&["chart"], None, P1_LISTING.as_bytes());
    assert_eq!(printed(&["chart", &listing], None, b""), drawn);
    assert_eq!(printed(&["chart", "-"], None, P1_LISTING.as_bytes()), drawn);
    let picture = printed(&["svg"], None, P1_LISTING.as_bytes());
    assert_eq!(printed(&["svg", &listing], None, b""), picture);
    // A file shown as bytes, since it is no job file: the text itself.
    assert!(printed(&["show", &text], None, b"").starts_with(b"bytes 23 20 54 68 65 20"));
    let missing = told(&["make", "no/such\u{1b}file"], b"");
    assert_eq!(missing, "desk: no/such\\u{1b}file: No such file or directory (os error 2)\n");
}

#[test]
fn a_byte_order_mark_is_passed_over() {
    let marked = |text: &str| format!("\u{feff}{text}").into_bytes();
    assert_eq!(printed(&["make"], None, &marked(P1_TEXT)), P1_BYTES);
    let text = "piece a desk 0 duration 1 due 1";
    assert_eq!(printed(&["make"], None, &marked(text))[..4], [1, 0, 1, 0]);
    let drawn = printed(&["chart"], None, P1_LISTING.as_bytes());
    assert_eq!(printed(&["chart"], None, &marked(P1_LISTING)), drawn);
    // A second one is no mark but a letter.
    let twice = told(&["make"], &marked(&format!("\u{feff}{text}")));
    assert_eq!(
        twice,
        "desk: line 1: '\\u{feff}piece' is not known; a line begins with piece, link or bytes\n"
    );
}

/// The file is made, since refusals are to be tried out, and what the planner would say is told.
#[test]
fn a_faulty_file_is_made_with_a_warning() {
    let text = "piece a desk 0 duration 1 due 1\n\nlink a > a handover 500\n";
    let (code, output, warned) = desk(&["make"], None, text.as_bytes());
    let words = "desk: warning: line 3, link a > a: the handover 500 is above 480 \
                 (the planner refuses the file: 10 at 1)\n";
    assert_eq!((code, warned.as_str()), (0, words));
    assert_eq!(output[16..], [2, 0, 0, 0, 0, 0, 0xF4, 1, 0, 0, 0, 0, 0, 0, 0, 0]);
    let (code, output, warned) = desk(&["make"], None, text.replace("500", "5").as_bytes());
    let words = "desk: warning: line 3, link a > a: a ring: a > a (the planner refuses the file: 11 at 0)\n";
    assert_eq!((code, output.len(), warned.as_str()), (0, 32, words));
}

#[test]
fn the_chart_goes_by_the_width() {
    let input = P1_LISTING.as_bytes();
    // 11 slots of 4, 3, 2 and again 4 columns after 8 for the label.
    assert_eq!(ruler(&printed(&["chart"], None, input)), 52);
    assert_eq!(ruler(&printed(&["chart"], Some("41"), input)), 41);
    assert_eq!(ruler(&printed(&["chart", "--width", "40"], Some("41"), input)), 30);
    assert_eq!(ruler(&printed(&["chart", "--width=40"], Some("41"), input)), 30);
    assert_eq!(ruler(&printed(&["chart"], Some("wide"), input)), 52);
    assert_eq!(ruler(&printed(&["chart"], Some("7"), input)), 30);
    assert_eq!(ruler(&printed(&["chart"], Some("100000"), input)), 52);
}

#[test]
fn svg_is_a_picture() {
    let picture = printed(&["svg"], None, P1_LISTING.as_bytes());
    assert!(picture.starts_with(b"<svg xmlns=\"http://www.w3.org/2000/svg\""));
    assert!(picture.ends_with(b"</svg>\n"));
}

#[test]
fn a_refused_listing_gives_one_line() {
    let words =
        "desk: the job file was refused 6 at 2: the duration in record 2 is 0 or above 960\n";
    assert_eq!(told(&["chart"], b"refused 6 at 2\n"), words);
    assert_eq!(told(&["svg"], b"refused 6 at 2\n"), words);
}

#[test]
fn mistakes_print_nothing_else() {
    assert_eq!(told(&["make"], b"piece a desk 0\n"), "desk: line 1: the piece has no duration\n");
    assert_eq!(told(&["make"], &[0xFF]), "desk: the input is not a text (UTF-8)\n");
    let cut = "desk: the listing is cut short: it has no line 'total'\n";
    assert_eq!(told(&["chart"], b""), cut);
    assert_eq!(told(&["svg"], b""), cut);
    let forged = P1_LISTING.replace("finish 6 latest 7", "finish 9223372036854775807 latest 7");
    let words = "desk: line 1: finish '9223372036854775807' is beyond every plan\n";
    assert_eq!(told(&["chart"], forged.as_bytes()), words);
    assert_eq!(told(&["svg"], forged.as_bytes()), words);
    let width = "desk: the width '39' is not a number from 40 to 1000\n";
    assert_eq!(told(&["chart", "--width", "39"], P1_LISTING.as_bytes()), width);
}

#[test]
fn unknown_calls_show_how_it_is_called() {
    for arguments in
        [&[][..], &["draw"], &["make", "a", "b"], &["chart", "--width"], &["svg", "-o"]]
    {
        let (code, output, told) = desk(arguments, None, b"");
        assert_eq!((code, output), (2, Vec::new()));
        assert!(told.starts_with("usage: desk make [TEXT] > JOBFILE"));
    }
    assert!(printed(&["help"], None, b"").starts_with(b"usage: desk make"));
}

/// A reader that has seen enough closes the pipe; that is no failure and nothing is said. The text is longer than
/// what a pipe holds, so that the program cannot be done before.
#[test]
fn a_closed_pipe_is_no_failure() {
    let text = "piece desk 0 duration 1 due 1\n".repeat(8_192);
    let mut command = Command::new(env!("CARGO_BIN_EXE_desk"));
    let streams =
        command.arg("show").stdin(Stdio::piped()).stdout(Stdio::piped()).stderr(Stdio::piped());
    let mut child = streams.spawn().unwrap();
    let mut reader = child.stdout.take().unwrap();
    child.stdin.take().unwrap().write_all(text.as_bytes()).unwrap();
    let mut first = [0; 5];
    reader.read_exact(&mut first).unwrap();
    assert_eq!(&first, b"bytes");
    drop(reader);
    let output = child.wait_with_output().unwrap();
    let told = String::from_utf8(output.stderr).unwrap();
    assert_eq!((output.status.code(), told.as_str()), (Some(0), ""));
}

/// Where nobody reads the complaints, the exit status still tells of them.
#[test]
fn complaints_that_nobody_reads() {
    let mut command = Command::new(env!("CARGO_BIN_EXE_desk"));
    let streams =
        command.arg("make").stdin(Stdio::piped()).stdout(Stdio::null()).stderr(Stdio::piped());
    let mut child = streams.spawn().unwrap();
    drop(child.stderr.take());
    child.stdin.take().unwrap().write_all(b"piece").unwrap();
    assert_eq!(child.wait().unwrap().code(), Some(1));
}
