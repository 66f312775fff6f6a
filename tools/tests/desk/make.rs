//! Job files out of the text form. The tests say what is written where, and what is told about
//! mistakes.

use crate::{P1_BYTES, P1_TEXT};
use desktools::make::make;

fn bytes(text: &str) -> Vec<u8> {
    make(text).unwrap_or_else(|mistake| panic!("{mistake}"))
}

#[test]
fn the_first_sheet() {
    assert_eq!(bytes(P1_TEXT), P1_BYTES);
}

#[test]
fn numbers_serve_as_well_as_names() {
    let numbered = "piece 0 desk 0 duration 4 due 20\npiece 1 desk 0 duration 2 release 1 due 5\n\
                    piece 2 desk 1 duration 3 due 12\nlink 0 > 2 handover 2\n";
    assert_eq!(bytes(numbered), P1_BYTES);
    let mixed = "piece desk 0 duration 4 due 20\npiece desk 0 duration 2 release 1 due 5\n\
                 piece check desk 1 duration 3 due 12\nlink 0 > check handover 2\n";
    assert_eq!(bytes(mixed), P1_BYTES);
}

#[test]
fn fields_come_in_any_order_and_lines_as_one_likes() {
    let text = "\n   # nothing\n piece  a due 20\tduration 4 desk 0\r\n#piece\n\
                piece b release 1 due 5 desk 0 duration 2 # last\npiece c desk 1 duration 3 due 12\n\
                link a>c handover 2";
    assert_eq!(bytes(text), P1_BYTES);
    assert_eq!(bytes(""), []);
    assert_eq!(bytes("# only a word\n\n"), []);
}

#[test]
fn a_handover_not_given_is_none() {
    let link = &bytes("piece a desk 0 duration 1 due 0\nlink a > a\n")[16..];
    assert_eq!(link, [2, 0, 0, 0, 0, 0, 0, 0, 0, 0, 0, 0, 0, 0, 0, 0]);
}

#[test]
fn every_field_has_its_bytes() {
    let text = "piece desk 33 duration 772 release 134678021 due 202050057\nlink 3597 > 4111 handover 4625";
    let expected = [
        1, 33, 4, 3, 5, 6, 7, 8, 9, 10, 11, 12, 0, 0, 0, 0, // the piece
        2, 0, 13, 14, 15, 16, 17, 18, 0, 0, 0, 0, 0, 0, 0, 0, // the link
    ];
    assert_eq!(bytes(text), expected);
}

#[test]
fn what_the_planner_refuses_is_written_if_it_fits() {
    let piece = bytes("piece desk 255 duration 65535 release 4294967295 due 4294967295");
    assert_eq!(piece, [1, 255, 255, 255, 255, 255, 255, 255, 255, 255, 255, 255, 0, 0, 0, 0]);
    let zero = bytes("piece desk 32 duration 0 due 40001");
    assert_eq!(zero, [1, 32, 0, 0, 0, 0, 0, 0, 0x41, 0x9C, 0, 0, 0, 0, 0, 0]);
    // A link to no piece, a link before its pieces, a ring.
    assert_eq!(bytes("link 65535 > 9 handover 65535")[..8], [2, 0, 255, 255, 9, 0, 255, 255]);
    let late =
        bytes("link b > a\npiece a desk 0 duration 1 due 0\npiece b desk 0 duration 1 due 0");
    assert_eq!(late[..8], [2, 0, 1, 0, 0, 0, 0, 0]);
    assert_eq!((late[16], late[32]), (1, 1));
}

#[test]
fn bytes_are_taken_over() {
    let text = "bytes 01 00 01 00 00 00 00 00 00 00 00 00 00 00 00 fF\n\
                piece second desk 0 duration 1 due 0\nlink second > 0\nbytes 07 aB";
    let file = bytes(text);
    assert_eq!(file.len(), 50);
    assert_eq!(file[..16], [1, 0, 1, 0, 0, 0, 0, 0, 0, 0, 0, 0, 0, 0, 0, 255]);
    // The record given by its bytes is piece 0, so the other is piece 1.
    assert_eq!(file[32..38], [2, 0, 1, 0, 0, 0]);
    assert_eq!(file[48..], [7, 0xAB]);
}

#[test]
fn mistakes_are_told_with_their_line() {
    let piece = "piece a desk 0 duration 1 due 0\n";
    let told = |text: &str| make(text).unwrap_err().to_string();
    let after = |text: &str| told(&format!("{piece}{text}"));
    assert_eq!(
        after("\npeice b desk 0"),
        "line 3: 'peice' is not known; a line begins with piece, link or bytes"
    );
    assert_eq!(
        after("piece b desk 0 lenght 4 due 1"),
        "line 2: 'lenght' is no field of a piece (desk, duration, release, due)"
    );
    assert_eq!(after("piece b desk 0 duration 4 due"), "line 2: due is without its number");
    assert_eq!(
        after("piece b desk 0 duration four due 1"),
        "line 2: duration 'four' is not a whole number from 0 on"
    );
    assert_eq!(after("piece b desk 0 due -1"), "line 2: due '-1' is not a whole number from 0 on");
    assert_eq!(after("piece b desk 0 due 1 desk 0"), "line 2: desk is given twice");
    assert_eq!(after("piece b desk 0 due 1"), "line 2: the piece has no duration");
    assert_eq!(after("piece b desk 0 duration 1"), "line 2: the piece has no due");
    assert_eq!(told("piece"), "line 1: the piece has no desk");
    assert_eq!(after(piece), "line 2: the name a was given before, in line 1");
    assert_eq!(
        after("piece 3 desk 0 duration 1 due 0"),
        "line 2: this is piece 1 and not 3; they count from 0 line by line"
    );
    assert_eq!(after("piece b>c desk 0 duration 1 due 0"), "line 2: a name must not contain '>'");
    let form = "line 2: a link reads: link BEFORE > AFTER handover N";
    for link in ["link", "link a", "link a >", "link > a", "link a a handover 2"] {
        assert_eq!(after(link), form);
    }
    assert_eq!(after("link a > a 2"), "line 2: '2' is no field of a link (handover)");
    assert_eq!(after("link a > c handover 2"), "line 2: no piece has the name c");
}

#[test]
fn what_does_not_fit_is_told() {
    let told = |text: &str| make(text).unwrap_err().to_string();
    let fit = |field: &str, limit: &str| format!("line 1: {field} does not fit in its {limit}");
    assert_eq!(told("piece desk 256 duration 1 due 0"), fit("desk 256", "1 byte (at most 255)"));
    let two = "2 bytes (at most 65535)";
    assert_eq!(told("piece desk 0 duration 65536 due 0"), fit("duration 65536", two));
    assert_eq!(told("link 65536 > 0"), fit("before 65536", two));
    assert_eq!(told("link 0 > 70000"), fit("after 70000", two));
    assert_eq!(told("link 0 > 0 handover 65536"), fit("handover 65536", two));
    let four = "4 bytes (at most 4294967295)";
    let long = "99999999999999999999999";
    assert_eq!(
        told(&format!("piece desk 0 release {long}")),
        fit(&format!("release {long}"), four)
    );
    assert_eq!(told("piece desk 0 due 4294967296"), fit("due 4294967296", four));
}

#[test]
fn mistakes_in_bytes_are_told() {
    let told = |text: &str| make(text).unwrap_err().to_string();
    assert_eq!(told("bytes"), "line 1: a line of bytes has 1 to 16 of them, here are 0");
    let seventeen = format!("bytes{}", " 00".repeat(17));
    assert_eq!(told(&seventeen), "line 1: a line of bytes has 1 to 16 of them, here are 17");
    for word in ["0", "000", "+1", "0x", "gg"] {
        let expected = format!("line 1: '{word}' is not a byte of two hexadecimal digits");
        assert_eq!(told(&format!("bytes {word}")), expected);
    }
    assert_eq!(
        told("bytes 01\nbytes 02"),
        "line 1: fewer than 16 bytes can stand in the last line only"
    );
}
