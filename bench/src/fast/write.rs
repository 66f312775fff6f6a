//! The records of a plan and of a block sheet into the lent buffer, of which nothing else is touched.

use super::file::Job;
use super::plan::Plan;
use super::sheet::Sheet;

/// Results by number, then runs by desk and start. The log is by start, so counting by desk puts it in order.
pub fn plan(job: &Job, plan: &Plan, buffer: &mut [u8]) {
    let (results, runs) = buffer.split_at_mut(16 * job.pieces);
    for (piece, place) in results.chunks_exact_mut(16).enumerate() {
        let fields = [plan.start[piece], plan.finish[piece], plan.latest[piece] as u32];
        record(place, 17, job.desk[piece], piece as u16, fields);
    }
    let mut next = [0; 33];
    for run in plan.runs() {
        next[usize::from(run.desk) + 1] += 1;
    }
    for desk in 0..32 {
        next[desk + 1] += next[desk];
    }
    for run in plan.runs() {
        let place = &mut next[usize::from(run.desk)];
        let fields = [run.from, run.until, 0];
        record(&mut runs[16 * *place..][..16], 18, run.desk, run.piece.into(), fields);
        *place += 1;
    }
}

/// Blocks by time, then runs by time, as the sheet has them.
pub fn sheet(desk: u8, sheet: &Sheet, buffer: &mut [u8]) {
    let (blocks, runs) = buffer.split_at_mut(16 * sheet.blocks().len());
    for (place, block) in blocks.chunks_exact_mut(16).zip(sheet.blocks()) {
        record(place, 19, desk, block.number, [block.from, block.until, 0]);
    }
    for (place, run) in runs.chunks_exact_mut(16).zip(sheet.runs()) {
        record(place, 18, desk, run.number, [run.from, run.until, 0]);
    }
}

fn record(place: &mut [u8], kind: u8, desk: u8, number: u16, fields: [u32; 3]) {
    let [low, high] = number.to_le_bytes();
    place[..4].copy_from_slice(&[kind, desk, low, high]);
    for (field, bytes) in fields.into_iter().zip(place[4..].chunks_exact_mut(4)) {
        bytes.copy_from_slice(&field.to_le_bytes());
    }
}
