//! Which of two faults is the refusal. The order of judgement is tried inside one record, between
//! records and after the last of them.

use crate::notation::{link, marked, piece, with};
use crate::refusals::refusal;
use second::{blocks, plan};

fn one() -> Vec<u8> {
    piece(0, 1, 0, 0)
}

/// The refusal of the record behind two good pieces, at its place.
fn behind_two(record: Vec<u8>) -> i64 {
    let (number, place) = refusal(&[one(), one(), record].concat());
    assert_eq!(place, 2);
    number
}

#[test]
fn inside_a_piece_record() {
    let all_bad = |desk, duration, release, due| with(piece(desk, duration, release, due), 13, 1);
    assert_eq!(behind_two(with(all_bad(32, 0, 40_001, 40_001), 0, 0)), 2);
    assert_eq!(behind_two(with(all_bad(32, 0, 40_001, 40_001), 0, 3)), 2);
    assert_eq!(behind_two(all_bad(32, 0, 40_001, 40_001)), 5);
    assert_eq!(behind_two(all_bad(31, 0, 40_001, 40_001)), 6);
    assert_eq!(behind_two(all_bad(31, 961, 40_001, 40_001)), 6);
    assert_eq!(behind_two(all_bad(31, 960, 40_001, 40_000)), 7);
    assert_eq!(behind_two(all_bad(31, 960, 40_000, 40_001)), 7);
    assert_eq!(behind_two(all_bad(31, 960, 40_000, 40_000)), 8);
}

#[test]
fn inside_a_link_record() {
    let all_bad = |before, after, handover| with(link(before, after, handover), 1, 32);
    assert_eq!(behind_two(with(all_bad(2, 2, 481), 0, 255)), 2);
    assert_eq!(behind_two(all_bad(2, 0, 481)), 9);
    assert_eq!(behind_two(all_bad(0, 2, 481)), 9);
    assert_eq!(behind_two(all_bad(0, 1, 481)), 10);
    assert_eq!(behind_two(all_bad(0, 1, 480)), 8);
    // Byte 1 of a link is no desk and bytes 8 to 11 are no due: 5 and 7 are not meant for links.
    assert_eq!(behind_two(with(link(0, 1, 0), 1, 255)), 8);
    assert_eq!(behind_two(with(link(0, 1, 0), 11, 255)), 8);
}

#[test]
fn a_late_piece_before_its_own_faults() {
    let two_and_link = [one(), one(), link(0, 1, 0)].concat();
    let late = |record: Vec<u8>| refusal(&[two_and_link.clone(), record].concat());
    assert_eq!(late(with(piece(32, 0, 40_001, 0), 15, 1)), (3, 3));
    assert_eq!(late(with(piece(32, 0, 40_001, 0), 0, 9)), (2, 3));
}

#[test]
fn too_many_before_the_faults_of_the_record() {
    let full = vec![one(); 256].concat();
    assert_eq!(refusal(&[full.clone(), with(piece(32, 0, 40_001, 0), 15, 1)].concat()), (4, 256));
    assert_eq!(refusal(&[full.clone(), with(one(), 0, 0)].concat()), (2, 256));
    // The 257th piece stands after a link: 3 is judged before 4.
    assert_eq!(refusal(&[full, link(0, 1, 0), one()].concat()), (3, 257));

    let links = [one(), one(), vec![link(0, 1, 0); 1024].concat()].concat();
    assert_eq!(refusal(&[links.clone(), with(link(9, 9, 481), 1, 1)].concat()), (4, 1026));
    assert_eq!(refusal(&[links.clone(), with(link(0, 1, 0), 0, 3)].concat()), (2, 1026));
    assert_eq!(refusal(&[links, one()].concat()), (3, 1026));
}

#[test]
fn the_earlier_record_before_the_later_one() {
    let eight = with(one(), 12, 1);
    let two = with(one(), 0, 0);
    assert_eq!(refusal(&[one(), eight.clone(), two.clone()].concat()), (8, 1));
    assert_eq!(refusal(&[one(), two, eight].concat()), (2, 1));
    // A link counts the pieces read before it, not those that follow.
    assert_eq!(refusal(&[one(), link(0, 1, 0), one()].concat()), (9, 1));
}

#[test]
fn records_before_bytes_left_before_rings() {
    let ring = [one(), link(0, 0, 0)].concat();
    assert_eq!(refusal(&ring), (11, 0));
    assert_eq!(refusal(&[ring.clone(), vec![0; 3]].concat()), (1, 2));
    assert_eq!(refusal(&[ring.clone(), link(0, 0, 481), vec![0; 3]].concat()), (10, 2));
    assert_eq!(refusal(&[ring, link(0, 0, 481)].concat()), (10, 2));
}

#[test]
fn rings_before_the_desk_before_the_room() {
    let ring = [one(), link(0, 0, 0)].concat();
    assert_eq!(plan(&ring, &mut []).number, 11);
    assert_eq!(blocks(&ring, 32, &mut []).number, 11);
    assert_eq!(blocks(&one(), 32, &mut []).number, 13);
    assert_eq!(blocks(&one(), 31, &mut []).number, 12);
    assert_eq!(plan(&one(), &mut marked(1, 0)[1..]).number, 12);
    // Bytes left win over both.
    assert_eq!(blocks(&one()[..15], 32, &mut []).number, 1);
}
