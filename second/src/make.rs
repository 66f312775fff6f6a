//! Random job files for the tests, always the same ones for a seed and an index, so that a file
//! that shows a fault can be made again. About half of them are sound; the others are damaged so
//! that every refusal is met, also where two faults compete.

mod chance;
mod damaged;
mod draft;
mod forms;
mod mixed;
mod odd;
mod shapes;

use crate::job::{self, LAST_DESK, RECORD};
use crate::records::RUN;
use chance::Chance;

/// One question to the calls: a file, a desk to ask for and a lent buffer with marks in it.
#[derive(Clone, Debug, PartialEq, Eq)]
pub struct Case {
    pub file: Vec<u8>,
    pub desk: u8,
    pub buffer: Vec<u8>,
}

/// The random file of this seed and index.
pub fn file(seed: u64, index: u64) -> Vec<u8> {
    random_file(&mut Chance::new(seed, index))
}

/// The same file with a desk and a buffer; some buffers are too short (refusal 12) and some desks
/// above 31 (refusal 13).
pub fn case(seed: u64, index: u64) -> Case {
    let mut chance = Chance::new(seed, index);
    let file = random_file(&mut chance);
    let desk = desk(&mut chance, &file);
    let length = buffer_length(&mut chance, &file);
    Case { file, desk, buffer: chance.bytes(length) }
}

/// One question to the writer: the rows of a form, and a lent buffer with marks in it.
#[derive(Clone, Debug, PartialEq, Eq)]
pub struct Form {
    pub pieces: Vec<u32>,
    pub links: Vec<u32>,
    pub buffer: Vec<u8>,
}

/// The random form of this seed and index; some buffers are too short (refusal 14).
pub fn form(seed: u64, index: u64) -> Form {
    let mut chance = Chance::new(seed, index);
    let (pieces, links) = forms::rows(&mut chance);
    let file = RECORD * (pieces.len() / 4 + links.len() / 3);
    let length = match chance.below(12) {
        0 => file.saturating_sub(1),
        1 => chance.between(0, file as u64) as usize,
        2 => 0,
        3..=6 => file,
        _ => file + chance.below(100) as usize,
    };
    Form { pieces, links, buffer: chance.bytes(length) }
}

/// Random bytes for the runs call, and a desk. Most records are runs of few desks, so that
/// stretches of more than one record, second stretches and broken ones all come.
pub fn records(seed: u64, index: u64) -> (Vec<u8>, u8) {
    let mut chance = Chance::new(seed, index);
    let count = chance.below(12) as usize;
    let left = chance.below(RECORD as u64) as usize;
    let mut bytes = chance.bytes(count * RECORD + left);
    let desk = chance.byte();
    for record in bytes.chunks_mut(RECORD) {
        let kind = *chance.pick(&[RUN, RUN, RUN, RUN, RUN, 17, 19, 0]);
        let of_desk = desk.wrapping_add(u8::from(chance.one_in(3)));
        for (byte, value) in record.iter_mut().zip([kind, of_desk]) {
            *byte = value;
        }
    }
    (bytes, desk)
}

fn random_file(chance: &mut Chance) -> Vec<u8> {
    match chance.below(20) {
        0..=10 => shapes::draft(chance).bytes(),
        11..=17 => damaged::file(chance),
        _ => odd::file(chance),
    }
}

/// Mostly a desk that has pieces.
fn desk(chance: &mut Chance, file: &[u8]) -> u8 {
    match (chance.below(10), file.len() / RECORD) {
        (0, _) => chance.between(u64::from(LAST_DESK) + 1, 255) as u8,
        (1, _) | (_, 0) => chance.between(0, u64::from(LAST_DESK)) as u8,
        (_, whole) => file[RECORD * chance.below(whole as u64) as usize + 1],
    }
}

/// Mostly just enough or a little more.
fn buffer_length(chance: &mut Chance, file: &[u8]) -> usize {
    let enough = 48 * job::read(file).map_or(file.len() / RECORD, |job| job.pieces.len());
    match chance.below(24) {
        0 => enough.saturating_sub(1),
        1 => chance.between(0, enough as u64) as usize,
        2 => 0,
        3..=12 => enough,
        _ => enough + chance.below(100) as usize,
    }
}
