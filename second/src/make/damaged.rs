//! Job files with faults. One fault alone shows that it is found, two in one record or in two
//! records show which of them is judged first.

use super::chance::Chance;
use super::draft::{link, piece, put, Draft, Record};
use super::shapes;
use crate::job::{MOST_LINKS, MOST_PIECES};

/// A sound file with one to three faults, now and then with bytes left at the end too.
pub fn file(chance: &mut Chance) -> Vec<u8> {
    let mut draft = shapes::draft(chance);
    match chance.below(12) {
        0 => crowd_pieces(chance, &mut draft),
        1 => crowd_links(chance, &mut draft),
        2..=5 => close_rings(chance, &mut draft),
        _ => {}
    }
    let mut records = draft.records();
    if chance.one_in(8) {
        late_piece(chance, &mut records);
    }
    let faults = chance.below(4);
    let mut place = hurtable(chance, &records);
    for _ in 0..faults {
        if let Some(record) = place.and_then(|place| records.get_mut(place)) {
            hurt(chance, record);
        }
        if chance.one_in(2) {
            place = hurtable(chance, &records);
        }
    }
    let mut file = records.concat();
    if chance.one_in(5) {
        let left = chance.between(1, 15) as usize;
        file.extend(chance.bytes(left));
    }
    file
}

/// Mostly any record, now and then one of the last, where faults compete with too many records.
fn hurtable(chance: &mut Chance, records: &[Record]) -> Option<usize> {
    let count = records.len() as u64;
    match count {
        0 => None,
        _ if chance.one_in(4) => Some(chance.between(count.saturating_sub(3), count - 1) as usize),
        _ => Some(chance.below(count) as usize),
    }
}

/// Up to a 260th piece, or 256 without one too many.
fn crowd_pieces(chance: &mut Chance, draft: &mut Draft) {
    let count = MOST_PIECES + chance.below(5) as usize;
    while draft.pieces.len() < count {
        draft.pieces.push(piece(chance.below(32), 1, 0, 9));
    }
}

/// Up to a 1,028th link, or 1,024 without one too many.
fn crowd_links(chance: &mut Chance, draft: &mut Draft) {
    while draft.pieces.len() < 2 {
        draft.piece(0, 1, 0, 0);
    }
    let count = MOST_LINKS + chance.below(5) as usize;
    while draft.links.len() < count {
        draft.link(0, 1, 0);
    }
}

/// A few links of any direction: rings of one piece, of two and of many.
fn close_rings(chance: &mut Chance, draft: &mut Draft) {
    let pieces = draft.pieces.len() as u64;
    if pieces == 0 {
        return;
    }
    for _ in 0..chance.between(1, 3) {
        let (before, after) = (chance.below(pieces), chance.below(pieces));
        draft.links.push(match (chance.below(4), draft.links.last()) {
            (0, _) => link(before, before, 0),
            (1, Some(&last)) => turned(last),
            _ => link(before, after, chance.below(9)),
        });
    }
}

fn turned(record: Record) -> Record {
    let mut record = record;
    record.swap(2, 4);
    record.swap(3, 5);
    record
}

/// A piece somewhere behind the first link, itself with a fault now and then.
fn late_piece(chance: &mut Chance, records: &mut Vec<Record>) {
    let Some(first_link) = records.iter().position(|record| record[0] == 2) else {
        return;
    };
    let place = chance.between(first_link as u64 + 1, records.len() as u64) as usize;
    records.insert(place, piece(chance.between(0, 33), chance.between(0, 3), 0, 0));
}

/// Puts one fault, or a value at its bound, into the record.
fn hurt(chance: &mut Chance, record: &mut Record) {
    let beyond_moment =
        *chance.pick(&[40_000, 40_001, 65_535, 65_541, 1 << 31, u64::from(u32::MAX)]);
    let any_byte = chance.between(1, 255);
    match (record[0], chance.below(6)) {
        (_, 0) => record[0] = *chance.pick(&[0, 3, 4, 5, 17, 18, 19, 128, 254, 255]),
        (1, 1) => put(&mut record[1..2], *chance.pick(&[31, 32, 33, 255])),
        (1, 2) => put(&mut record[2..4], *chance.pick(&[0, 960, 961, 1 << 15, 65_535])),
        (1, 3) => put(&mut record[4..8], beyond_moment),
        (1, 4) => put(&mut record[8..12], beyond_moment),
        (1, _) => put(&mut record[12 + chance.below(4) as usize..], any_byte),
        (2, 1) => put(&mut record[2..4], *chance.pick(&[0, 255, 256, 65_535])),
        (2, 2) => put(&mut record[4..6], *chance.pick(&[0, 255, 256, 65_535])),
        (2, 3) => put(&mut record[6..8], *chance.pick(&[480, 481, 512, 65_535])),
        (2, 4) => put(&mut record[1..2], any_byte),
        (2, _) => put(&mut record[8 + chance.below(8) as usize..], any_byte),
        _ => record[chance.below(16) as usize] = any_byte as u8,
    }
}
