//! The job file: how its records are judged and what an accepted file holds. The faults of a
//! record stand in one table in the order of judgement, so that it can be held against the page
//! line by line.

pub const RECORD: usize = 16;
pub const MOST_PIECES: usize = 256;
pub const MOST_LINKS: usize = 1024;
pub const LAST_DESK: u8 = 31;

const PIECE: u8 = 1;
const LINK: u8 = 2;

/// A refusal by its number on the list, with the place that the list names for it.
#[derive(Clone, Copy, Debug, PartialEq, Eq)]
pub struct Refusal {
    pub number: i64,
    pub place: i64,
}

#[derive(Clone, Copy, Debug, PartialEq, Eq)]
pub struct Piece {
    pub desk: u8,
    pub duration: i64,
    pub release: i64,
    pub due: i64,
}

#[derive(Clone, Copy, Debug, PartialEq, Eq)]
pub struct Link {
    pub before: usize,
    pub after: usize,
    pub handover: i64,
}

/// The contents of a job file, pieces by number and links in file order.
#[derive(Clone, Debug, Default, PartialEq, Eq)]
pub struct Job {
    pub pieces: Vec<Piece>,
    pub links: Vec<Link>,
}

impl Job {
    /// Whether the link joins two pieces of one desk.
    pub fn on_one_desk(&self, link: &Link) -> bool {
        self.pieces[link.before].desk == self.pieces[link.after].desk
    }

    /// How long the piece after waits once the piece before is finished.
    pub fn delay(&self, link: &Link) -> i64 {
        if self.on_one_desk(link) {
            0
        } else {
            link.handover
        }
    }
}

/// Reads a file as far as its records and its length go (refusals 1 to 10). Rings are not looked
/// for here, since a reader judges records one at a time and a ring needs them all.
pub fn read(file: &[u8]) -> Result<Job, Refusal> {
    let mut job = Job::default();
    let records = file.chunks_exact(RECORD);
    let left = records.remainder().len();
    for (place, record) in records.enumerate() {
        if let Some(number) = fault(&job, record) {
            return Err(Refusal { number, place: place as i64 });
        }
        match record[0] {
            PIECE => job.pieces.push(piece(record)),
            _ => job.links.push(link(record)),
        }
    }
    if left > 0 {
        return Err(Refusal { number: 1, place: (file.len() / RECORD) as i64 });
    }
    Ok(job)
}

/// Reads a file and refuses rings as well (refusals 1 to 11).
pub fn accept(file: &[u8]) -> Result<Job, Refusal> {
    let job = read(file)?;
    match lowest_on_a_ring(&job) {
        Some(piece) => Err(Refusal { number: 11, place: piece as i64 }),
        None => Ok(job),
    }
}

/// The first fault of a record after the records already read, in the order of judgement.
fn fault(job: &Job, record: &[u8]) -> Option<i64> {
    let is_piece = record[0] == PIECE;
    let is_link = record[0] == LINK;
    let (read_piece, read_link) = (piece(record), link(record));
    let pieces = job.pieces.len();
    let links = job.links.len();
    let faults = [
        (2, !is_piece && !is_link),
        (3, is_piece && links > 0),
        (4, is_piece && pieces == MOST_PIECES || is_link && links == MOST_LINKS),
        (5, is_piece && read_piece.desk > LAST_DESK),
        (6, is_piece && !(1..=960).contains(&read_piece.duration)),
        (7, is_piece && (read_piece.release > 40_000 || read_piece.due > 40_000)),
        (9, is_link && (read_link.before >= pieces || read_link.after >= pieces)),
        (10, is_link && read_link.handover > 480),
        (8, is_piece && record[12..].iter().any(|&byte| byte != 0)),
        (8, is_link && (record[1] != 0 || record[8..].iter().any(|&byte| byte != 0))),
    ];
    faults.iter().find(|(_, found)| *found).map(|(number, _)| *number)
}

/// The bytes of a record read as a piece, whether they make a good one or not.
fn piece(record: &[u8]) -> Piece {
    Piece {
        desk: record[1],
        duration: number(&record[2..4]),
        release: number(&record[4..8]),
        due: number(&record[8..12]),
    }
}

/// The bytes of a record read as a link, whether they make a good one or not.
fn link(record: &[u8]) -> Link {
    Link {
        before: number(&record[2..4]) as usize,
        after: number(&record[4..6]) as usize,
        handover: number(&record[6..8]),
    }
}

/// A little-endian number of any length up to seven bytes.
fn number(bytes: &[u8]) -> i64 {
    bytes.iter().rev().fold(0, |value, &byte| value * 256 + i64::from(byte))
}

/// The lowest piece that leads by links back to itself.
fn lowest_on_a_ring(job: &Job) -> Option<usize> {
    let mut after = vec![Vec::new(); job.pieces.len()];
    for link in &job.links {
        after[link.before].push(link.after);
    }
    (0..job.pieces.len()).find(|&piece| leads_back(piece, &after))
}

/// Whether the piece is among those met by following links from it, one link at least.
fn leads_back(piece: usize, after: &[Vec<usize>]) -> bool {
    let mut met = vec![false; after.len()];
    let mut to_follow = vec![piece];
    while let Some(from) = to_follow.pop() {
        for &next in &after[from] {
            if !met[next] {
                met[next] = true;
                to_follow.push(next);
            }
        }
    }
    met[piece]
}
