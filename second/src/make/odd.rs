//! Files that were hardly meant as job files: noise, half noise, files cut off in the middle and
//! files with bytes changed by accident. Files longer than the deciding bytes come here too.

use super::chance::Chance;
use super::draft::{link, piece, Draft};
use super::shapes;
use crate::job::{MOST_LINKS, MOST_PIECES, RECORD};

pub fn file(chance: &mut Chance) -> Vec<u8> {
    match chance.below(10) {
        0 => noise(chance),
        1..=2 => half_noise(chance),
        3..=5 => cut_off(chance),
        6..=8 => changed(chance),
        _ => too_long(chance),
    }
}

fn noise(chance: &mut Chance) -> Vec<u8> {
    let length = chance.below(200) as usize;
    chance.bytes(length)
}

/// Kinds are good and most bytes zero, so that reading gets further than the first record.
fn half_noise(chance: &mut Chance) -> Vec<u8> {
    let length = chance.below(200) as usize;
    let mut file = vec![0; length];
    let pieces = chance.below(6) as usize;
    for (place, record) in file.chunks_mut(RECORD).enumerate() {
        record[0] = if place < pieces { 1 } else { 2 };
        for byte in record.iter_mut().skip(1).take(7) {
            *byte = if chance.one_in(3) { chance.below(4) as u8 } else { 0 };
        }
    }
    file
}

fn cut_off(chance: &mut Chance) -> Vec<u8> {
    let mut file = shapes::draft(chance).bytes();
    file.truncate(chance.below(file.len() as u64 + 1) as usize);
    file
}

fn changed(chance: &mut Chance) -> Vec<u8> {
    let mut file = shapes::draft(chance).bytes();
    let length = file.len() as u64;
    for _ in 0..chance.between(1, 3).min(length) {
        let change = *chance.pick(&[1, 2, 4, 8, 16, 32, 64, 128, 255]);
        file[chance.below(length) as usize] ^= change;
    }
    file
}

/// A full file and more behind it: records, or fewer bytes than a record.
fn too_long(chance: &mut Chance) -> Vec<u8> {
    let mut full = Draft::default();
    for number in 0..MOST_PIECES {
        full.piece(number as u64 % 32, 1, 0, 9);
    }
    for _ in 0..MOST_LINKS {
        let after = chance.between(1, MOST_PIECES as u64 - 1) as usize;
        full.link(after - 1, after, 0);
    }
    let mut file = full.bytes();
    match chance.below(4) {
        0 => file.extend(link(0, 1, 0)),
        1 => file.extend(piece(0, 1, 0, 0)),
        _ => {
            let more = chance.below(3000) as usize;
            file.extend(chance.bytes(more));
        }
    }
    file
}
