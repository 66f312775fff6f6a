//! The writer through the library: the first sheet from its typed rows, every bound from both sides, the order of
//! judgement, and buffers of just the room and one byte less.

use crate::notation::{file, MARK};
use desk::raw::{plan, write, Refusal, WriteAnswer};
use desk::FILE_ROOM;

/// The refusal with room enough, if there is one; then no byte was touched.
fn refusal(pieces: &[[u32; 4]], links: &[[u32; 3]]) -> Option<Refusal> {
    let mut buffer = vec![MARK; FILE_ROOM];
    let answer = write(pieces.as_flattened(), links.as_flattened(), &mut buffer);
    assert!(
        buffer[answer.written()..].iter().all(|&byte| byte == MARK),
        "bytes behind were touched"
    );
    answer.refusal()
}

fn refused(number: i64, place: i64) -> Option<Refusal> {
    Some(Refusal { number, place })
}

#[test]
fn the_first_sheet_is_made_of_its_rows() {
    let sheet = file(&[(0, 4, 0, 20), (0, 2, 1, 5), (1, 3, 0, 12)], &[(0, 2, 2)]);
    let pieces = [0, 4, 0, 20, 0, 2, 1, 5, 1, 3, 0, 12];
    let mut buffer = [MARK; 70];
    let answer = write(&pieces, &[0, 2, 2], &mut buffer);
    assert_eq!(answer, WriteAnswer { number: 0, place: 0, bytes: 64 });
    assert_eq!((&buffer[..64], &buffer[64..]), (&sheet[..], &[MARK; 6][..]));
    let (mut just, mut short) = ([MARK; 64], [MARK; 63]);
    assert_eq!(write(&pieces, &[0, 2, 2], &mut just).refusal(), None);
    assert_eq!(just[..], sheet);
    assert_eq!(write(&pieces, &[0, 2, 2], &mut short).refusal(), refused(14, 0));
    assert_eq!(short, [MARK; 63]);
    assert_eq!(write(&[], &[], &mut []), WriteAnswer::default());
}

#[test]
fn values_at_their_bounds_and_beyond() {
    let good = [0, 1, 0, 0];
    assert_eq!(refusal(&[[31, 960, 40_000, 40_000], good], &[[1, 0, 480]]), None);
    for beyond in [32, 255, 256, 65_536, u32::MAX] {
        assert_eq!(refusal(&[good, [beyond, 0, 0, 0]], &[]), refused(5, 1));
    }
    for beyond in [0, 961, 65_536, 65_537, u32::MAX] {
        assert_eq!(refusal(&[[0, beyond, u32::MAX, 0]], &[]), refused(6, 0));
    }
    for beyond in [40_001, 65_536, u32::MAX] {
        assert_eq!(refusal(&[[0, 1, beyond, 0]], &[[9, 9, 9]]), refused(7, 0));
        assert_eq!(refusal(&[[0, 1, 0, beyond]], &[]), refused(7, 0));
    }
    for beyond in [1, 256, 65_536, u32::MAX] {
        assert_eq!(refusal(&[good], &[[0, 0, 0], [beyond, 0, 481]]), refused(9, 2));
        assert_eq!(refusal(&[good], &[[0, beyond, 0]]), refused(9, 1));
    }
    for beyond in [481, 65_535, 65_536, u32::MAX] {
        assert_eq!(refusal(&[good], &[[0, 0, beyond]]), refused(10, 1));
    }
}

#[test]
fn as_many_as_there_may_be_and_one_more() {
    let (good, tie) = ([0, 1, 0, 0], [0, 255, 0]);
    assert_eq!(refusal(&[good; 256], &[tie; 1024]), None);
    assert_eq!(refusal(&[good; 257], &[tie; 1025]), refused(4, 256));
    assert_eq!(refusal(&[good; 256], &[tie; 1025]), refused(4, 1280));
    let mut short = vec![MARK; FILE_ROOM - 1];
    let answer = write([good; 256].as_flattened(), [tie; 1024].as_flattened(), &mut short);
    assert_eq!(answer.refusal(), refused(14, 0));
    assert!(short.iter().all(|&byte| byte == MARK));
}

#[test]
fn rows_cut_short_come_behind_the_values_and_before_the_room() {
    assert_eq!(write(&[0, 1, 0, 0, 0], &[0, 0, 0], &mut []).refusal(), refused(1, 2));
    assert_eq!(write(&[0, 1, 0, 0], &[0, 0, 0, 7, 7], &mut []).refusal(), refused(1, 2));
    assert_eq!(write(&[0, 1, 0, 0, 7], &[1, 0, 0], &mut []).refusal(), refused(9, 1));
    assert_eq!(write(&[32, 1, 0, 0], &[], &mut []).refusal(), refused(5, 0));
}

/// A ring is no fault of a record: it is written, and the plan refuses it.
#[test]
fn a_ring_is_written() {
    let mut file = [MARK; 32];
    assert_eq!(write(&[0, 1, 0, 0], &[0, 0, 0], &mut file).refusal(), None);
    assert_eq!(plan(&file, &mut [0; 48]).refusal(), refused(11, 0));
}
