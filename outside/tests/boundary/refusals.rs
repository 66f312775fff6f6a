//! The order in which faults are judged: in one record, in two records, and between the records and what
//! comes after them. A later fault alone gives its own number, so each line shows which one is preferred.

use crate::notation::{link, piece, planned, refusal, sheet};

/// The record with some of its bytes put in.
fn with(mut record: Vec<u8>, bytes: &[(usize, u8)]) -> Vec<u8> {
    for &(place, byte) in bytes {
        record[place] = byte;
    }
    record
}

#[test]
fn every_kind_but_two_is_unknown() {
    for kind in (0..=255).filter(|kind| ![1, 2].contains(kind)) {
        assert_eq!(refusal(&with(piece(0, 1, 0, 0), &[(0, kind)])), (2, 0));
    }
}

#[test]
fn one_fault_in_a_piece() {
    let sound = piece(0, 1, 0, 0);
    assert_eq!(refusal(&with(sound.clone(), &[(1, 32)])), (5, 0));
    assert_eq!(refusal(&with(sound.clone(), &[(2, 0)])), (6, 0));
    // Release is one number in bytes 4-7: its upper half counts.
    assert_eq!(refusal(&with(sound.clone(), &[(6, 1)])), (7, 0));
    assert_eq!(refusal(&with(sound.clone(), &[(7, 128)])), (7, 0));
    assert_eq!(refusal(&with(sound.clone(), &[(11, 1)])), (7, 0));
    for place in 12..16 {
        assert_eq!(refusal(&with(sound.clone(), &[(place, 128)])), (8, 0));
    }
}

#[test]
fn one_fault_in_a_link() {
    let before = piece(0, 1, 0, 0).repeat(2);
    let judged = |bytes: &[(usize, u8)]| {
        let link = with(link(0, 1, 0), bytes);
        refusal(&[&before[..], &link].concat())
    };
    for (place, byte, number) in
        [(1, 1, 8), (2, 2, 9), (3, 1, 9), (4, 2, 9), (5, 255, 9), (7, 2, 10)]
    {
        assert_eq!(judged(&[(place, byte)]), (number, 2));
    }
    for place in 8..16 {
        assert_eq!(judged(&[(place, 1)]), (8, 2));
    }
}

#[test]
fn of_two_faults_in_a_record_the_earlier_on_the_list() {
    let faults = [(1, 32, 5), (2, 0, 6), (11, 1, 7), (15, 1, 8)];
    for (earlier, &(place, byte, number)) in faults.iter().enumerate() {
        for &(other, value, _) in &faults[earlier + 1..] {
            let record = with(piece(0, 1, 0, 0), &[(place, byte), (other, value)]);
            assert_eq!(refusal(&record), (number, 0));
            // Behind a link all of them are 3, and an unknown kind is 2 with any of them.
            let behind = [piece(0, 1, 0, 0), piece(0, 1, 0, 0), link(0, 1, 0), record.clone()];
            assert_eq!(refusal(&behind.concat()), (3, 3));
            assert_eq!(refusal(&with(record, &[(0, 3)])), (2, 0));
        }
    }
    let two = piece(0, 1, 0, 0).repeat(2);
    let both = with(link(2, 0, 481), &[(1, 1)]);
    assert_eq!(refusal(&[&two[..], &both].concat()), (9, 2));
    let both = with(link(1, 0, 481), &[(15, 1)]);
    assert_eq!(refusal(&[&two[..], &both].concat()), (10, 2));
}

#[test]
fn one_too_many_comes_before_its_own_faults() {
    let full = piece(0, 1, 0, 0).repeat(256);
    assert_eq!(refusal(&[&full[..], &piece(32, 0, 0, 0)].concat()), (4, 256));
    let links = link(0, 1, 0).repeat(1024);
    assert_eq!(refusal(&[&full[..], &links, &link(999, 0, 481)].concat()), (4, 1280));
    // A 257th piece behind a link is in the wrong place before it is too many.
    assert_eq!(refusal(&[&full[..], &link(0, 1, 0), &piece(0, 1, 0, 0)].concat()), (3, 257));
}

#[test]
fn of_two_bad_records_the_first() {
    let worse = [piece(0, 1, 0, 0), with(piece(0, 1, 0, 0), &[(15, 1)]), vec![0; 16]].concat();
    assert_eq!(refusal(&worse), (8, 1));
    assert_eq!(refusal(&[&worse[..], &[1]].concat()), (8, 1));
}

#[test]
fn after_the_records() {
    let ring = [piece(0, 1, 0, 0), link(0, 0, 0)].concat();
    assert_eq!(refusal(&ring), (11, 0));
    assert_eq!(refusal(&[&ring[..], &[2]].concat()), (1, 2));
    // A ring comes before the desk asked for, and this before the room.
    assert_eq!(desk::raw::blocks(&ring, 32, &mut []).number, 11);
    assert_eq!(desk::raw::blocks(&piece(0, 1, 0, 0), 32, &mut []).number, 13);
    assert_eq!(desk::raw::blocks(&piece(0, 1, 0, 0), 31, &mut []).number, 12);
    assert_eq!(desk::raw::plan(&ring, &mut []).number, 11);
    assert_eq!(desk::raw::plan(&piece(0, 1, 0, 0), &mut []).number, 12);
}

#[test]
fn the_lowest_piece_on_a_ring() {
    let pieces = piece(0, 1, 0, 0).repeat(6);
    let at = |links: &[(u16, u16)]| {
        let links: Vec<u8> = links.iter().flat_map(|&(from, to)| link(from, to, 0)).collect();
        refusal(&[&pieces[..], &links].concat())
    };
    // Pieces before a ring, behind it and between two rings are on none.
    assert_eq!(at(&[(0, 4), (4, 5), (5, 4), (4, 1)]), (11, 4));
    assert_eq!(at(&[(4, 5), (5, 4), (4, 1), (1, 2), (2, 3), (3, 2)]), (11, 2));
    assert_eq!(at(&[(5, 5), (5, 0), (0, 3), (3, 3)]), (11, 3));
    assert_eq!(at(&[(0, 1), (1, 2), (2, 3), (3, 4), (4, 5), (5, 1)]), (11, 1));
    let doubled = [&pieces[..], &link(1, 0, 0), &link(1, 0, 0), &link(2, 1, 0)].concat();
    assert_eq!((planned(&doubled).0.number, sheet(&doubled, 0).0.number), (0, 0));
}
