//! A job file in the making: its records, pieces and links apart. Values are written as given,
//! so that records beyond the bounds can be made as well.

use crate::job::RECORD;

pub type Record = [u8; RECORD];

#[derive(Default)]
pub struct Draft {
    pub pieces: Vec<Record>,
    pub links: Vec<Record>,
}

impl Draft {
    pub fn piece(&mut self, desk: u64, duration: u64, release: u64, due: u64) {
        self.pieces.push(piece(desk, duration, release, due));
    }

    pub fn link(&mut self, before: usize, after: usize, handover: u64) {
        self.links.push(link(before as u64, after as u64, handover));
    }

    pub fn records(&self) -> Vec<Record> {
        self.pieces.iter().chain(&self.links).copied().collect()
    }

    pub fn bytes(&self) -> Vec<u8> {
        self.records().concat()
    }
}

pub fn piece(desk: u64, duration: u64, release: u64, due: u64) -> Record {
    let mut record = [0; RECORD];
    record[0] = 1;
    put(&mut record[1..2], desk);
    put(&mut record[2..4], duration);
    put(&mut record[4..8], release);
    put(&mut record[8..12], due);
    record
}

pub fn link(before: u64, after: u64, handover: u64) -> Record {
    let mut record = [0; RECORD];
    record[0] = 2;
    put(&mut record[2..4], before);
    put(&mut record[4..6], after);
    put(&mut record[6..8], handover);
    record
}

/// Writes the low bytes of a value into a field, lowest first.
pub fn put(field: &mut [u8], value: u64) {
    for (byte, of_value) in field.iter_mut().zip(value.to_le_bytes()) {
        *byte = of_value;
    }
}
