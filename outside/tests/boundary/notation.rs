//! Short ways to write files and records by hand, and calls whose buffers are looked at to the last byte.
//! Each call gets a marked buffer; all bytes behind the records must keep their mark.

use desk::raw::{self, BlockAnswer, PlanAnswer};

pub const MARK: u8 = 0xA5;

/// A piece of a sheet: desk, duration, release and due.
pub fn piece(desk: u8, duration: u16, release: u32, due: u32) -> Vec<u8> {
    let mut record = vec![1, desk];
    record.extend(duration.to_le_bytes());
    record.extend(release.to_le_bytes());
    record.extend(due.to_le_bytes());
    record.extend([0; 4]);
    record
}

/// A link of a sheet: before > after + handover.
pub fn link(before: u16, after: u16, handover: u16) -> Vec<u8> {
    let mut record = vec![2, 0];
    record.extend(before.to_le_bytes());
    record.extend(after.to_le_bytes());
    record.extend(handover.to_le_bytes());
    record.extend([0; 8]);
    record
}

pub fn file(pieces: &[(u8, u16, u32, u32)], links: &[(u16, u16, u16)]) -> Vec<u8> {
    let pieces = pieces
        .iter()
        .flat_map(|&(desk, duration, release, due)| piece(desk, duration, release, due));
    let links = links.iter().flat_map(|&(before, after, handover)| link(before, after, handover));
    pieces.chain(links).collect()
}

/// A record as a call writes it: kind, desk, number and three fields.
pub type Row = (u8, u8, u16, i32, i32, i32);

pub fn result(desk: u8, piece: u16, start: i32, finish: i32, latest: i32) -> Row {
    (17, desk, piece, start, finish, latest)
}

pub fn run(desk: u8, piece: u16, from: i32, until: i32) -> Row {
    (18, desk, piece, from, until, 0)
}

pub fn block(desk: u8, pieces: u16, from: i32, end: i32) -> Row {
    (19, desk, pieces, from, end, 0)
}

/// The plan in a buffer with room for every file and some bytes more.
pub fn planned(file: &[u8]) -> (PlanAnswer, Vec<Row>) {
    let mut buffer = vec![MARK; 48 * 256 + 5];
    let answer = raw::plan(file, &mut buffer);
    (answer, rows(&buffer, answer.pieces + answer.runs))
}

pub fn sheet(file: &[u8], desk: u8) -> (BlockAnswer, Vec<Row>) {
    let mut buffer = vec![MARK; 48 * 256 + 5];
    let answer = raw::blocks(file, desk, &mut buffer);
    (answer, rows(&buffer, answer.blocks + answer.runs))
}

/// Number and place, the same for the plan and the block sheet; nothing else is in the answers.
pub fn refusal(file: &[u8]) -> (i64, i64) {
    let (answer, rows) = planned(file);
    let (number, place) = (answer.number, answer.place);
    assert_eq!(answer, PlanAnswer { number, place, ..PlanAnswer::default() });
    assert_eq!(rows, []);
    // Judged before the desk asked for, so a desk above 31 gets the same refusal.
    for desk in [0, 31, 32, 255] {
        let (answer, rows) = sheet(file, desk);
        assert_eq!(answer, BlockAnswer { number, place, ..BlockAnswer::default() });
        assert_eq!(rows, []);
    }
    (number, place)
}

pub fn accepted(file: &[u8]) -> bool {
    let number = planned(file).0.number;
    assert_eq!(number, sheet(file, 0).0.number);
    number == 0
}

pub fn plan_answer(pieces: i64, runs: i64, end: i64, worst: i64) -> PlanAnswer {
    PlanAnswer { number: 0, place: 0, pieces, runs, end, worst }
}

pub fn block_answer(blocks: i64, runs: i64, worst: i64) -> BlockAnswer {
    BlockAnswer { number: 0, place: 0, blocks, runs, worst }
}

fn rows(buffer: &[u8], count: i64) -> Vec<Row> {
    let (front, behind) = buffer.split_at(16 * count as usize);
    assert!(behind.iter().all(|&byte| byte == MARK), "bytes behind the records changed");
    front.chunks_exact(16).map(row).collect()
}

fn row(record: &[u8]) -> Row {
    let field = |at: usize| i32::from_le_bytes(record[at..at + 4].try_into().unwrap());
    let number = u16::from_le_bytes([record[2], record[3]]);
    (record[0], record[1], number, field(4), field(8), field(12))
}
