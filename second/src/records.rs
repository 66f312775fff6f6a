//! The byte layout of what the calls write: result, run and block records. All three have the
//! same shape, a kind, a desk, a number of two bytes and three numbers of four bytes.

use crate::blocks::Sheet;
use crate::job::{Job, RECORD};
use crate::plan::{Plan, Run};

pub const RESULT: u8 = 17;
pub const RUN: u8 = 18;
pub const BLOCK: u8 = 19;

pub type Record = [u8; RECORD];

/// The records of a plan: results by piece, then runs by desk and start.
pub fn of_plan(job: &Job, plan: &Plan) -> Vec<Record> {
    let result = |number: usize| {
        let fields = [plan.start[number], plan.finish[number], plan.latest[number]];
        record(RESULT, job.pieces[number].desk, number, fields)
    };
    let results = (0..job.pieces.len()).map(result);
    results.chain(plan.runs.iter().map(run)).collect()
}

/// The records of a block sheet: blocks of the first cutting by time, then runs by time.
pub fn of_sheet(desk: u8, sheet: &Sheet) -> Vec<Record> {
    let blocks = sheet.blocks.iter();
    let blocks =
        blocks.map(|block| record(BLOCK, desk, block.entries.len(), [block.from, block.end, 0]));
    blocks.chain(sheet.runs.iter().map(run)).collect()
}

/// Lays the records at the front of the buffer; the bytes behind them stay. There is always room
/// in 48 bytes for each piece: m pieces give m results or at most m blocks, and at most 2m - 1
/// runs.
pub fn lay(records: &[Record], buffer: &mut [u8]) {
    for (place, record) in records.iter().enumerate() {
        buffer[place * RECORD..(place + 1) * RECORD].copy_from_slice(record);
    }
}

fn run(run: &Run) -> Record {
    record(RUN, run.desk, run.piece, [run.from, run.until, 0])
}

/// Every field is within 32 signed bits by the page's ranges, so a latest moment below zero comes
/// out in two's complement and all other fields as they are.
fn record(kind: u8, desk: u8, number: usize, fields: [i64; 3]) -> Record {
    let mut bytes = [0; RECORD];
    bytes[0] = kind;
    bytes[1] = desk;
    bytes[2..4].copy_from_slice(&(number as u16).to_le_bytes());
    for (place, field) in fields.into_iter().enumerate() {
        let field = i32::try_from(field).expect("the page bounds every field");
        bytes[4 + 4 * place..8 + 4 * place].copy_from_slice(&field.to_le_bytes());
    }
    bytes
}
