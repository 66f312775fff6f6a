//! Forms for the writer: the rows of a sound file, and about half of them hurt. Numbers too large for their
//! field in a record come as well, since a form takes them and a file cannot.

use super::chance::Chance;
use super::draft::Record;
use super::shapes;
use crate::job::{MOST_LINKS, MOST_PIECES};

/// The rows of pieces and of links.
pub fn rows(chance: &mut Chance) -> (Vec<u32>, Vec<u32>) {
    let draft = shapes::draft(chance);
    let mut pieces: Vec<u32> = draft.pieces.iter().flat_map(piece_row).collect();
    let mut links: Vec<u32> = draft.links.iter().flat_map(link_row).collect();
    match chance.below(16) {
        0 => crowd(chance, &mut pieces, &[0, 1, 0, 9], MOST_PIECES),
        1 => crowd(chance, &mut links, &[0, 0, 0], MOST_LINKS),
        _ => {}
    }
    if chance.one_in(2) {
        for _ in 0..chance.below(4) {
            match chance.one_in(2) {
                true => hurt(chance, &mut pieces, piece_value),
                false => hurt(chance, &mut links, link_value),
            }
        }
    }
    for rows in [&mut pieces, &mut links] {
        if chance.one_in(16) {
            rows.truncate(rows.len().saturating_sub(chance.below(5) as usize));
        }
    }
    (pieces, links)
}

fn piece_row(record: &Record) -> [u32; 4] {
    [u32::from(record[1]), half(record, 2), word(record, 4), word(record, 8)]
}

fn link_row(record: &Record) -> [u32; 3] {
    [half(record, 2), half(record, 4), half(record, 6)]
}

fn half(record: &Record, at: usize) -> u32 {
    u32::from(u16::from_le_bytes([record[at], record[at + 1]]))
}

fn word(record: &Record, at: usize) -> u32 {
    half(record, at) + 65_536 * half(record, at + 2)
}

/// Up to three rows too many, or just as many as there may be.
fn crowd(chance: &mut Chance, rows: &mut Vec<u32>, row: &[u32], most: usize) {
    let count = most + chance.below(4) as usize;
    while rows.len() < count * row.len() {
        rows.extend(row);
    }
}

/// Puts another number into one place of the rows, mostly of the last ones.
fn hurt(chance: &mut Chance, rows: &mut [u32], value: fn(&mut Chance, usize) -> u32) {
    let count = rows.len() as u64;
    if count == 0 {
        return;
    }
    let place = match chance.one_in(3) {
        true => chance.below(count),
        false => chance.between(count.saturating_sub(9), count - 1),
    } as usize;
    rows[place] = value(chance, place);
}

fn piece_value(chance: &mut Chance, place: usize) -> u32 {
    match place % 4 {
        0 => *chance.pick(&[31, 32, 255, 256, 287, 65_536, u32::MAX]),
        1 => *chance.pick(&[0, 1, 960, 961, 65_535, 65_536, 65_537, u32::MAX]),
        _ => *chance.pick(&[40_000, 40_001, 65_541, 1 << 31, u32::MAX]),
    }
}

fn link_value(chance: &mut Chance, place: usize) -> u32 {
    match place % 3 {
        2 => *chance.pick(&[480, 481, 65_535, 65_536, 65_537, u32::MAX]),
        _ => *chance.pick(&[0, 1, 255, 256, 65_535, 65_536, 65_537, u32::MAX]),
    }
}
