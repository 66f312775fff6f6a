//! Times and sentences that both charts use. Each is expected word by word.

use desktools::time::{hour, length, marks};
use desktools::words::{count, lateness, refusal, wrapped};

#[test]
fn lengths_and_hours() {
    let lengths: Vec<String> = [0, 1, 3, 4, 6, 11, 96].map(length).into();
    assert_eq!(lengths, ["0 min", "15 min", "45 min", "1 h", "1 h 30 min", "2 h 45 min", "24 h"]);
    assert_eq!([0, 1, 2, 3, 4, 9].map(hour), ["0h", "0.25h", "0.5h", "0.75h", "1h", "2.25h"]);
}

#[test]
fn marks_are_no_more_than_asked_for() {
    assert_eq!(marks(10, 5), [0, 4, 8]);
    assert_eq!(marks(10, 6), [0, 2, 4, 6, 8, 10]);
    assert_eq!(marks(3, 4), [0, 1, 2, 3]);
    assert_eq!(marks(99, 3), [0, 48, 96]);
    assert_eq!(marks(0, 0), [0]);
    assert_eq!(marks(1_000_000, 1), [0]);
    assert_eq!(marks(408_160, 12).len(), 7);
}

#[test]
fn counts_and_lateness() {
    assert_eq!([0, 1, 2].map(|number| count(number, "desk")), ["0 desks", "1 desk", "2 desks"]);
    let words: Vec<String> = [-2, -1, 0, 1, 7].map(lateness).into();
    let expected =
        ["2 slots early", "1 slot early", "just in time", "LATE by 1 slot", "LATE by 7 slots"];
    assert_eq!(words, expected);
}

#[test]
fn refusals_are_told_in_the_words_of_the_calls() {
    let words = "the job file was refused 6 at 2: the duration in record 2 is 0 or above 960";
    assert_eq!(refusal(6, 2), words);
    let words = "the job file was refused 99 at 0: see the planner's list of refusals";
    assert_eq!(refusal(99, 0), words);
}

#[test]
fn sentences_are_broken_between_words() {
    assert_eq!(wrapped("one two three", 13), ["one two three"]);
    assert_eq!(wrapped("one two three", 12), ["one two", "three"]);
    assert_eq!(wrapped("one two three", 3), ["one", "two", "three"]);
}
