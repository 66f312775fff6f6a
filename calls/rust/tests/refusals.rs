//! Refusals by name. Number, name and sentence of each are those of the rules page's list.

use desk::raw::{self, BlockAnswer, PlanAnswer, WriteAnswer};
use desk::{Fault, Refusal};
use std::error::Error;

#[test]
fn every_refusal_has_its_name_and_its_words() {
    let listed = [
        (Fault::BytesLeft, "bytes are left after 5 whole records"),
        (Fault::UnknownKind, "record 5 is of an unknown kind"),
        (Fault::PieceAfterLink, "record 5 is a piece after a link"),
        (Fault::TooMany, "record 5 is one piece or one link too many"),
        (Fault::Desk, "the desk in record 5 is above 31"),
        (Fault::Duration, "the duration in record 5 is 0 or above 960"),
        (Fault::ReleaseOrDue, "the release or due in record 5 is above 40,000"),
        (Fault::NotZero, "a byte in record 5 should be zero and is not"),
        (Fault::NoSuchPiece, "record 5 links a piece that is not there"),
        (Fault::Handover, "the handover in record 5 is above 480"),
        (Fault::Ring, "piece 5 leads by links back to itself"),
        (Fault::BufferTooShort, "the buffer is shorter than 48 bytes for each piece"),
        (Fault::AskedDesk, "the desk asked for is above 31"),
        (Fault::NoRoomForFile, "the buffer is too short for the file"),
    ];
    for (number, (fault, words)) in (1..).zip(listed) {
        assert_eq!((Fault::of(number), fault.number()), (fault, number));
        let refusal: Refusal = raw::Refusal { number, place: 5 }.into();
        assert_eq!(refusal, Refusal { fault, place: 5 });
        assert_eq!(refusal.to_string(), format!("refused {number} at 5: {words}"));
    }
}

#[test]
fn numbers_that_are_not_listed_are_kept() {
    for number in [i64::MIN, -1, 0, 15, 27, i64::MAX] {
        assert_eq!(Fault::of(number), Fault::Unlisted(number));
        assert_eq!(Fault::of(number).number(), number);
    }
    let refusal: Refusal = raw::Refusal { number: 99, place: -1 }.into();
    assert_eq!(refusal.to_string(), "refused 99 at 0: see the planner's list of refusals");
}

#[test]
fn a_refusal_is_an_error() {
    fn end() -> Result<u32, Box<dyn Error>> {
        Ok(desk::plan(&[7; 16], &mut [])?.end())
    }
    let words = "refused 2 at 0: record 0 is of an unknown kind";
    assert_eq!(end().unwrap_err().to_string(), words);
}

/// Each refusal that a call can give, brought about: a record with one fault, or two of them.
#[test]
fn every_refusal_as_a_call_gives_it() {
    let piece = [1, 0, 1, 0, 0, 0, 0, 0, 0, 0, 0, 0, 0, 0, 0, 0];
    let link = [2, 0, 0, 0, 0, 0, 0, 0, 0, 0, 0, 0, 0, 0, 0, 0];
    let with = |mut record: [u8; 16], at: usize, byte: u8| {
        record[at] = byte;
        record
    };
    let of = |records: &[[u8; 16]]| desk::plan(&records.concat(), &mut []).unwrap_err();
    let at = |fault, place| Refusal { fault, place };
    assert_eq!(desk::plan(&piece[..15], &mut []).unwrap_err(), at(Fault::BytesLeft, 0));
    assert_eq!(of(&[piece, with(piece, 0, 3)]), at(Fault::UnknownKind, 1));
    assert_eq!(of(&[piece, link, piece]), at(Fault::PieceAfterLink, 2));
    assert_eq!(of(&[piece; 257]), at(Fault::TooMany, 256));
    assert_eq!(of(&[with(piece, 1, 32)]), at(Fault::Desk, 0));
    assert_eq!(of(&[with(piece, 2, 0)]), at(Fault::Duration, 0));
    assert_eq!(of(&[with(piece, 10, 1)]), at(Fault::ReleaseOrDue, 0));
    assert_eq!(of(&[with(piece, 12, 1)]), at(Fault::NotZero, 0));
    assert_eq!(of(&[piece, with(link, 2, 1)]), at(Fault::NoSuchPiece, 1));
    assert_eq!(of(&[piece, with(link, 7, 2)]), at(Fault::Handover, 1));
    assert_eq!(of(&[piece, link]), at(Fault::Ring, 0));
    assert_eq!(of(&[piece]), at(Fault::BufferTooShort, 0));
    assert_eq!(desk::blocks(&piece, 32, &mut []).unwrap_err(), at(Fault::AskedDesk, 0));
    assert_eq!(
        desk::write(&[[0, 1, 0, 0]], &[], &mut []).unwrap_err(),
        at(Fault::NoRoomForFile, 0)
    );
}

/// An answer is a plain value that anybody may make up.
#[test]
fn made_up_answers_do_no_harm() {
    for odd in [i64::MIN, -1, i64::MAX] {
        let plan = PlanAnswer { pieces: odd, runs: odd, ..PlanAnswer::default() };
        let sheet = BlockAnswer { blocks: odd, runs: odd, ..BlockAnswer::default() };
        let file = WriteAnswer { bytes: odd, ..WriteAnswer::default() };
        let most = if odd > 0 { i64::MAX as usize } else { 0 };
        assert_eq!([plan.written(), sheet.written(), file.written()], [most; 3]);
    }
}
