//! The two programs as a person runs them. One is the naive twin of `deskplan`, the other the maker
//! of random files.

use crate::notation::sheet;
use second::make;
use std::io::Write;
use std::process::{Command, Output, Stdio};

fn run(program: &str, arguments: &[&str], input: &[u8]) -> Output {
    let mut child = Command::new(program)
        .args(arguments)
        .stdin(Stdio::piped())
        .stdout(Stdio::piped())
        .stderr(Stdio::piped())
        .spawn()
        .unwrap();
    // A program may stop reading before the input ends; that is no fault here.
    let _ = child.stdin.take().unwrap().write_all(input);
    child.wait_with_output().unwrap()
}

fn second(input: &[u8]) -> String {
    let output = run(env!("CARGO_BIN_EXE_second"), &[], input);
    assert!(output.status.success());
    String::from_utf8(output.stdout).unwrap()
}

#[test]
fn second_prints_the_listing() {
    let text = second(&sheet("0/1/1/9, 0/3/0/9"));
    let expected = "\
piece 0 desk 0 start 1 finish 2 latest 9 late -7
piece 1 desk 0 start 0 finish 4 latest 9 late -5
run desk 0 piece 1 from 0 until 1
run desk 0 piece 0 from 1 until 2
run desk 0 piece 1 from 2 until 4
total pieces 2 runs 3 end 4 worst -5
";
    assert_eq!(text, expected);
}

#[test]
fn second_prints_refusals_and_the_empty_plan() {
    assert_eq!(second(&[0; 17]), "refused 2 at 0\n");
    assert_eq!(second(&[]), "total pieces 0 runs 0 end 0 worst 0\n");
    let long = [sheet("0/1/0/0").repeat(256), vec![7; 50_000]].concat();
    assert_eq!(second(&long), "refused 2 at 256\n");
}

#[test]
fn make_writes_the_random_file() {
    for index in ["0", "1", "77"] {
        let output = run(env!("CARGO_BIN_EXE_make"), &["5", index], &[]);
        assert!(output.status.success());
        assert_eq!(output.stdout, make::file(5, index.parse().unwrap()));
    }
}

#[test]
fn make_says_what_it_needs() {
    for arguments in [&[][..], &["1"], &["1", "two"], &["1", "2", "3"]] {
        let output = run(env!("CARGO_BIN_EXE_make"), arguments, &[]);
        assert!(!output.status.success() && output.stdout.is_empty());
        assert!(String::from_utf8(output.stderr).unwrap().starts_with("usage: make SEED INDEX"));
    }
}
