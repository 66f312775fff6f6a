//! The job file into tables, or the first refusal met. Piece numbers are bytes, since there are at most 256,
//! so that no access to a table needs a check of its index.

use desk::raw::Refusal;

pub struct Job {
    pub pieces: usize,
    pub links: usize,
    pub desk: [u8; 256],
    pub duration: [u32; 256],
    pub release: [u32; 256],
    pub due: [i32; 256],
    pub before: [u8; 1024],
    pub after: [u8; 1024],
    pub handover: [u16; 1024],
}

/// Fills the tables of an empty job.
pub fn read(file: &[u8], job: &mut Job) -> Result<(), Refusal> {
    let records = file.chunks_exact(16);
    let left = records.remainder().len();
    for (place, record) in records.enumerate() {
        let record = record.try_into().expect("a chunk of just this length");
        if let Err(number) = job.take(record) {
            return Err(Refusal { number, place: place as i64 });
        }
    }
    match left {
        0 => Ok(()),
        _ => Err(Refusal { number: 1, place: (file.len() / 16) as i64 }),
    }
}

impl Job {
    pub const EMPTY: Job = Job {
        pieces: 0,
        links: 0,
        desk: [0; 256],
        duration: [0; 256],
        release: [0; 256],
        due: [0; 256],
        before: [0; 1024],
        after: [0; 1024],
        handover: [0; 1024],
    };

    fn take(&mut self, record: &[u8; 16]) -> Result<(), i64> {
        match record[0] {
            1 => self.take_piece(record),
            2 => self.take_link(record),
            _ => Err(2),
        }
    }

    fn take_piece(&mut self, record: &[u8; 16]) -> Result<(), i64> {
        let at = self.pieces;
        let (desk, duration) = (record[1], u32::from(two_bytes(record, 2)));
        let (release, due) = (four_bytes(record, 4), four_bytes(record, 8));
        if self.links > 0 {
            return Err(3);
        }
        if at >= 256 {
            return Err(4);
        }
        if desk > 31 {
            return Err(5);
        }
        if duration == 0 || duration > 960 {
            return Err(6);
        }
        if release > 40_000 || due > 40_000 {
            return Err(7);
        }
        if four_bytes(record, 12) != 0 {
            return Err(8);
        }
        self.desk[at] = desk;
        self.duration[at] = duration;
        self.release[at] = release;
        self.due[at] = due as i32;
        self.pieces += 1;
        Ok(())
    }

    fn take_link(&mut self, record: &[u8; 16]) -> Result<(), i64> {
        let at = self.links;
        let (before, after) = (two_bytes(record, 2), two_bytes(record, 4));
        let handover = two_bytes(record, 6);
        if at >= 1024 {
            return Err(4);
        }
        if usize::from(before) >= self.pieces || usize::from(after) >= self.pieces {
            return Err(9);
        }
        if handover > 480 {
            return Err(10);
        }
        if record[1] != 0 || four_bytes(record, 8) | four_bytes(record, 12) != 0 {
            return Err(8);
        }
        // Both are below the count of pieces, so below 256.
        self.before[at] = before as u8;
        self.after[at] = after as u8;
        self.handover[at] = handover;
        self.links += 1;
        Ok(())
    }
}

fn two_bytes(record: &[u8; 16], at: usize) -> u16 {
    u16::from_le_bytes([record[at], record[at + 1]])
}

fn four_bytes(record: &[u8; 16], at: usize) -> u32 {
    u32::from_le_bytes([record[at], record[at + 1], record[at + 2], record[at + 3]])
}
