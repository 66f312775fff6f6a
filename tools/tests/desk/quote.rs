//! What a person gave, told back: nothing of it moves the cursor, and it stays short.

use desktools::listing;
use desktools::make::make;
use desktools::quote::{quoted, shown};

#[test]
fn plain_words_stay() {
    for word in ["translate", "o'neill", "\"a\"", "c:\\x", "Prüfung", "検査", "a b"] {
        assert_eq!(shown(word), word);
    }
    assert_eq!(quoted("four"), "'four'");
}

#[test]
fn what_would_move_the_cursor_is_shown_by_its_code() {
    assert_eq!(shown("\u{1b}[31mred"), "\\u{1b}[31mred");
    assert_eq!(shown("a\u{7}\r\u{8}b\u{0}"), "a\\u{7}\\r\\u{8}b\\0");
    // Turns the direction of what follows.
    assert_eq!(shown("\u{202e}txt"), "\\u{202e}txt");
}

#[test]
fn forty_letters_are_the_most() {
    assert_eq!(shown(&"é".repeat(40)), "é".repeat(40));
    assert_eq!(shown(&"é".repeat(41)), "é".repeat(40) + "...");
}

#[test]
fn messages_tell_words_so() {
    let (long, cut) = ("9".repeat(1_000), "9".repeat(40) + "...");
    let told = |text: &str| make(text).unwrap_err().to_string();
    assert_eq!(
        told("p\u{1b}iece a"),
        "line 1: 'p\\u{1b}iece' is not known; a line begins with piece, link or bytes"
    );
    assert_eq!(
        told(&format!("piece desk {long}")),
        format!("line 1: desk {cut} does not fit in its 1 byte (at most 255)")
    );
    assert_eq!(
        told("piece a desk \u{7} duration 1 due 1"),
        "line 1: desk '\\u{7}' is not a whole number from 0 on"
    );
    assert_eq!(
        told("piece a desk 0 duration 1 due 1\nlink a > \u{1b}b"),
        "line 2: no piece has the name \\u{1b}b"
    );
    assert_eq!(told("bytes \u{1b}1"), "line 1: '\\u{1b}1' is not a byte of two hexadecimal digits");
    let line = listing::read(&format!("\u{1b}{long}")).unwrap_err().to_string();
    let shown = format!("\\u{{1b}}{}...", "9".repeat(39));
    assert_eq!(
        line,
        format!("line 1: '{shown}' is no line of a listing (piece, run, total, refused)")
    );
}
