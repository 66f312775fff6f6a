//! What the planner would refuse in a file that was made, told by the line, the piece or link, and the value. The
//! texts have one fault each; the words were written by hand from the planner's rules.

use desktools::judge::warning;
use desktools::make::made;
use desktools::ring::through;

const PIECES: &str = "\
# Three pieces, the second without a name.
piece translate desk 0 duration 4 due 20
piece desk 0 duration 2 release 1 due 5

piece set desk 1 duration 3 due 12
";

/// The warning for the three pieces with these lines after them, from line 6 on.
fn after(lines: &str) -> Option<String> {
    warning(&made(&format!("{PIECES}{lines}")).unwrap_or_else(|mistake| panic!("{mistake}")))
}

fn told(words: &str, number: u64, place: u64) -> Option<String> {
    Some(format!("{words} (the planner refuses the file: {number} at {place})"))
}

#[test]
fn nothing_is_told_of_a_good_file() {
    assert_eq!(after("link translate > set handover 480\nlink 1 > set\n"), None);
    assert_eq!(warning(&made("").unwrap()), None);
}

#[test]
fn values_of_pieces() {
    let piece = |fields: &str| after(&format!("piece check {fields}\n"));
    let line = |what: &str| format!("line 6, piece check: {what}");
    let desk = piece("desk 32 duration 1 due 1");
    assert_eq!(desk, told(&line("the desk 32 is above 31"), 5, 3));
    let none = piece("desk 0 duration 0 due 1");
    assert_eq!(none, told(&line("the duration 0 is below 1"), 6, 3));
    let long = piece("desk 0 duration 961 due 1");
    assert_eq!(long, told(&line("the duration 961 is above 960"), 6, 3));
    let release = piece("desk 0 duration 1 release 40001 due 50000");
    assert_eq!(release, told(&line("the release 40001 is above 40000"), 7, 3));
    let due = piece("desk 0 duration 1 due 40001");
    assert_eq!(due, told(&line("the due 40001 is above 40000"), 7, 3));
    let unnamed = after("piece desk 99 duration 1 due 1\n");
    assert_eq!(unnamed, told("line 6, piece 3: the desk 99 is above 31", 5, 3));
}

#[test]
fn values_of_links() {
    let handover = after("link translate > 1\nlink 1 > set handover 500\n");
    assert_eq!(handover, told("line 7, link 1 > set: the handover 500 is above 480", 10, 4));
    let missing = after("link translate > 3\n");
    assert_eq!(missing, told("line 6, link translate > 3: there is no piece 3 above it", 9, 3));
    let early = warning(
        &made("link b > a\npiece a desk 0 duration 1 due 1\npiece b desk 0 duration 1 due 1")
            .unwrap(),
    );
    assert_eq!(early, told("line 1, link b > a: there is no piece 1 above it", 9, 0));
}

#[test]
fn order_and_number() {
    let late = after("link 0 > 1\npiece check desk 0 duration 1 due 1\n");
    assert_eq!(late, told("line 7, piece check: a piece after a link", 3, 4));
    let pieces = "piece desk 0 duration 1 due 1\n".repeat(257);
    let words = "line 257, piece 256: the 257th piece, and 256 are the most";
    assert_eq!(warning(&made(&pieces).unwrap()), told(words, 4, 256));
    let words = "line 1030, link 0 > 1: the 1,025th link, and 1,024 are the most";
    assert_eq!(after(&"link 0 > 1\n".repeat(1_025)), told(words, 4, 1_027));
}

#[test]
fn bytes() {
    let zeros = " 00".repeat(15);
    let kind = after(&format!("bytes 07{zeros}\n"));
    assert_eq!(kind, told("line 6, bytes: the kind 7 is unknown", 2, 3));
    let byte = after("bytes 01 00 01 00 00 00 00 00 00 00 00 00 00 00 00 01\n");
    assert_eq!(byte, told("line 6, bytes: a byte that must be zero is not", 8, 3));
    let left = after("bytes 01 00\n");
    assert_eq!(left, told("line 6, bytes: 2 bytes after the last whole record", 1, 3));
    let left = after("bytes 01\n");
    assert_eq!(left, told("line 6, bytes: 1 byte after the last whole record", 1, 3));
}

#[test]
fn a_ring_is_shown_whole() {
    let two = after("link translate > 1\nlink 1 > set handover 3\nlink set > 1\n");
    assert_eq!(two, told("line 7, link 1 > set: a ring: 1 > set > 1", 11, 1));
    let own = after("link set > set\n");
    assert_eq!(own, told("line 6, link set > set: a ring: set > set", 11, 2));
    let all = after("link set > translate\nlink 1 > set\nlink translate > 1\n");
    let words = "line 8, link translate > 1: a ring: translate > 1 > set > translate";
    assert_eq!(all, told(words, 11, 0));
    // The link given by its bytes closes it.
    let bytes = after(&format!("link 0 > 1\nbytes 02 00 01{}\n", " 00".repeat(13)));
    assert_eq!(bytes, told("line 6, link 0 > 1: a ring: translate > 1 > translate", 11, 0));
}

#[test]
fn names_are_told_escaped() {
    let odd = after("piece \u{1b}[2J desk 32 duration 1 due 1\n");
    assert_eq!(odd, told("line 6, piece \\u{1b}[2J: the desk 32 is above 31", 5, 3));
}

#[test]
fn rings_in_tables_of_links() {
    assert_eq!(through(0, &[]), None);
    assert_eq!(through(0, &[(0, 1), (1, 2)]), None);
    assert_eq!(through(1, &[(0, 1), (1, 2), (2, 2)]), None);
    assert_eq!(through(2, &[(0, 1), (1, 2), (2, 2)]), Some(vec![2, 2]));
    // The way by 3 is shorter than the way by 1 and 2.
    let links = [(0, 1), (1, 2), (2, 0), (0, 3), (3, 0)];
    assert_eq!(through(0, &links), Some(vec![0, 3, 0]));
    assert_eq!(through(1, &links), Some(vec![1, 2, 0, 1]));
    // As many pieces as there may be, in one ring.
    let links: Vec<(usize, usize)> = (0..256).map(|piece| (piece, (piece + 1) % 256)).collect();
    assert_eq!(through(7, &links).unwrap().len(), 257);
}
