//! Every refusal number with its place, as all calls give it. A refused call touches no byte and
//! has every other number zero.

use crate::notation::{link, marked, piece, sheet, with};
use second::{blocks, listing, plan, read, BlockAnswer, PlanAnswer, Refusal};

/// The refusal of a file as the plan gives it, after making sure that the block sheet, the
/// listing and (for 1 to 10) the reader alone say the same.
pub fn refusal(file: &[u8]) -> (i64, i64) {
    let untouched = marked(300, 0);
    let mut buffer = untouched.clone();
    let answer = plan(file, &mut buffer);
    let (number, place) = (answer.number, answer.place);
    assert_ne!(number, 0, "accepted");
    assert_eq!(answer, PlanAnswer { number, place, ..PlanAnswer::default() });
    for desk in [0, 31, 32, 255] {
        let expected = BlockAnswer { number, place, ..BlockAnswer::default() };
        assert_eq!(blocks(file, desk, &mut buffer), expected);
    }
    assert_eq!(buffer, untouched);
    assert_eq!(listing(file), format!("refused {number} at {place}\n").into_bytes());
    match read(file) {
        Err(refusal) => assert_eq!(refusal, Refusal { number, place }),
        Ok(_) => assert_eq!(number, 11),
    }
    (number, place)
}

pub fn accepted(file: &[u8]) -> bool {
    let answer = plan(file, &mut marked(file.len() / 16, 0));
    assert_eq!(answer.number == 0, read(file).is_ok());
    answer.number == 0
}

fn one() -> Vec<u8> {
    piece(0, 1, 0, 0)
}

fn file(records: &[Vec<u8>]) -> Vec<u8> {
    records.concat()
}

#[test]
fn number_1_bytes_left() {
    assert_eq!(refusal(&[1]), (1, 0));
    assert_eq!(refusal(&file(&[one(), one(), vec![1; 15]])), (1, 2));
    assert_eq!(refusal(&file(&[one(), link(0, 0, 0)[..1].to_vec()])), (1, 1));
}

#[test]
fn number_2_every_unknown_kind() {
    for kind in (0..=255).filter(|kind| ![1, 2].contains(kind)) {
        assert_eq!(refusal(&file(&[one(), with(one(), 0, kind)])), (2, 1));
        assert_eq!(refusal(&file(&[one(), one(), with(link(0, 1, 0), 0, kind)])), (2, 2));
    }
}

#[test]
fn number_3_a_piece_after_a_link() {
    assert_eq!(refusal(&file(&[one(), one(), link(0, 1, 0), one()])), (3, 3));
    assert_eq!(refusal(&file(&[one(), one(), link(0, 1, 0), link(0, 1, 0), one()])), (3, 4));
}

#[test]
fn number_5_a_desk_above_31() {
    for desk in 32..=255 {
        assert_eq!(refusal(&file(&[one(), piece(desk, 1, 0, 0)])), (5, 1));
    }
}

#[test]
fn number_9_a_link_to_no_piece() {
    let two = file(&[one(), one()]);
    assert_eq!(refusal(&file(&[two.clone(), link(2, 0, 0)])), (9, 2));
    assert_eq!(refusal(&file(&[two.clone(), link(0, 2, 0)])), (9, 2));
    assert_eq!(refusal(&file(&[two.clone(), link(0, 1, 0), link(1, 65_535, 0)])), (9, 3));
    assert_eq!(refusal(&file(&[two, link(256, 1, 0)])), (9, 2));
    assert_eq!(refusal(&link(0, 0, 0)), (9, 0));
}

#[test]
fn number_8_each_byte_that_must_be_zero() {
    for place in 12..16 {
        for byte in [1, 128, 255] {
            assert_eq!(refusal(&file(&[one(), with(one(), place, byte)])), (8, 1));
        }
    }
    for place in [1, 8, 9, 10, 11, 12, 13, 14, 15] {
        let bad = with(link(0, 1, 0), place, 7);
        assert_eq!(refusal(&file(&[one(), one(), bad])), (8, 2));
    }
}

#[test]
fn number_11_the_lowest_piece_on_a_ring() {
    let four = "0/1/0/0, 0/1/0/0, 1/1/0/0, 1/1/0/0";
    let ring = |links: &str| refusal(&sheet(&format!("{four}; {links}")));
    assert_eq!(ring("0>0+0"), (11, 0));
    assert_eq!(ring("3>3+5"), (11, 3));
    assert_eq!(ring("3>2+0, 2>3+0"), (11, 2));
    assert_eq!(ring("0>3+0, 3>2+0, 2>1+0, 1>3+0"), (11, 1));
    assert_eq!(ring("3>0+0, 2>2+0, 1>1+0"), (11, 1));
    assert_eq!(ring("1>3+0, 3>1+0, 1>0+0, 0>2+0"), (11, 1));
    assert_eq!(ring("3>1+0, 1>2+0, 2>0+0, 0>3+0"), (11, 0));
}

#[test]
fn many_ways_to_one_piece_are_no_ring() {
    let four = "0/1/0/0, 0/1/0/0, 1/1/0/0, 1/1/0/0";
    for links in ["3>1+0, 3>2+0, 1>0+0, 2>0+0, 3>0+0", "0>1+0, 0>1+3, 0>1+0", ""] {
        assert!(accepted(&sheet(&format!("{four}; {links}"))));
    }
}

#[test]
fn number_12_and_13_only_where_the_file_is_sound() {
    let sound = sheet("0/1/0/0, 5/1/0/0");
    let untouched = marked(2, 0);
    let mut buffer = untouched.clone();
    let mut ask = |desk, length| {
        let answer = blocks(&sound, desk, &mut buffer[..length]);
        assert_eq!(buffer, untouched);
        assert_eq!((answer.blocks, answer.runs, answer.worst), (0, 0, 0));
        (answer.number, answer.place)
    };
    assert_eq!(ask(32, 96), (13, 0));
    assert_eq!(ask(255, 0), (13, 0));
    assert_eq!(ask(0, 95), (12, 0));
    assert_eq!(ask(5, 0), (12, 0));
    // A desk without pieces asks for the same room as any other.
    assert_eq!(ask(31, 95), (12, 0));
    assert_eq!(ask(31, 96), (0, 0));
}
