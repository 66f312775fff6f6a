//! The words of a call. Every way to say a thing is tried, and ways that say nothing known.

use desktools::arguments::{asked, Asked, Command, Wrong};

fn right(words: &[&str]) -> (Command, Option<String>, Option<i64>) {
    let Asked { command, file, width } = asked(words).unwrap();
    (command, file, width)
}

#[test]
fn commands_and_files() {
    let file = || Some("p1.txt".to_string());
    assert_eq!(right(&["make"]), (Command::Make, None, None));
    assert_eq!(right(&["make", "p1.txt"]), (Command::Make, file(), None));
    assert_eq!(right(&["show", "-"]), (Command::Show, Some("-".to_string()), None));
    assert_eq!(right(&["svg", "p1.txt"]), (Command::Svg, file(), None));
    for words in [["chart", "--width", "60", "p1.txt"], ["chart", "p1.txt", "--width", "60"]] {
        assert_eq!(right(&words), (Command::Chart, file(), Some(60)));
    }
    assert_eq!(right(&["chart", "--width=60"]), (Command::Chart, None, Some(60)));
    assert_eq!(right(&["chart", "p1.txt", "--width=1000"]), (Command::Chart, file(), Some(1000)));
    for help in ["help", "--help", "-h"] {
        assert_eq!(right(&[help]), (Command::Help, None, None));
    }
}

#[test]
fn calls_that_are_not_known() {
    for words in [
        &[][..],
        &["draw"],
        &["make", "a", "b"],
        &["make", "--width", "60"],
        &["svg", "--width=60"],
        &["svg", "-o"],
        &["chart", "--width"],
        &["chart", "--widthe", "60"],
        &["chart", "--width60"],
        &["chart", "--width", "60", "--width=60"],
    ] {
        assert_eq!(asked(words), Err(Wrong::Call), "{words:?}");
    }
}

#[test]
fn widths_that_cannot_be() {
    for width in ["39", "1001", "-80", "wide", "", "9999999999999999999999"] {
        let words = format!("the width '{width}' is not a number from 40 to 1000");
        let wrong = Err(Wrong::Value(words));
        assert_eq!(asked(&["chart", "--width", width]), wrong);
        assert_eq!(asked(&["chart", &format!("--width={width}")]), wrong);
    }
}
