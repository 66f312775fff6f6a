//! A fast planner in plain Rust, by the method of the proved one: decision moments with one pass over the
//! pieces each, an order of the pieces by Kahn's rule, blocks cut and solved in turn. Where the rules leave
//! it open it does less: latest moments in one pass over that order, only open pieces looked at, and of a
//! block only its choice asked for followers. It is the benchmark's yardstick, tested by the second planner.

mod file;
mod links;
mod plan;
mod rings;
mod sheet;
mod write;

use desk::raw::{BlockAnswer, PlanAnswer, Refusal};
use desk::ROOM_FOR_A_PIECE;
use file::Job;
use links::Links;
use plan::Plan;
use sheet::Sheet;

/// Plans every desk of the file and lays the records into the buffer.
pub fn plan(file: &[u8], buffer: &mut [u8]) -> PlanAnswer {
    try_plan(file, buffer).unwrap_or_else(|Refusal { number, place }| PlanAnswer {
        number,
        place,
        ..PlanAnswer::default()
    })
}

/// Works out the block sheet of one desk and lays its records into the buffer.
pub fn blocks(file: &[u8], desk: u8, buffer: &mut [u8]) -> BlockAnswer {
    try_blocks(file, desk, buffer).unwrap_or_else(|Refusal { number, place }| BlockAnswer {
        number,
        place,
        ..BlockAnswer::default()
    })
}

/// The run records of one desk, as a part of the caller's own slice.
pub fn runs(records: &[u8], desk: u8) -> &[u8] {
    let is_run = |record: &[u8]| record[0] == 18 && record[1] == desk;
    let mut whole = records.chunks_exact(16);
    let Some(first) = whole.position(is_run) else { return &records[..0] };
    let count = 1 + whole.take_while(|record| is_run(record)).count();
    &records[16 * first..16 * (first + count)]
}

fn try_plan(file: &[u8], buffer: &mut [u8]) -> Result<PlanAnswer, Refusal> {
    let mut tables = Tables::EMPTY;
    tables.accept(file)?;
    let Tables { job, links, order } = &tables;
    ask_room(job, buffer)?;
    let mut plan = Plan::EMPTY;
    plan::make(job, links, order, &mut plan);
    write::plan(job, &plan, buffer);
    let (pieces, runs) = (job.pieces as i64, plan.runs().len() as i64);
    let (end, worst) = (plan.end(job).into(), plan.worst(job).into());
    Ok(PlanAnswer { number: 0, place: 0, pieces, runs, end, worst })
}

fn try_blocks(file: &[u8], desk: u8, buffer: &mut [u8]) -> Result<BlockAnswer, Refusal> {
    let mut tables = Tables::EMPTY;
    tables.accept(file)?;
    let Tables { job, links, order } = &tables;
    if desk > 31 {
        return Err(Refusal { number: 13, place: 0 });
    }
    ask_room(job, buffer)?;
    let mut plan = Plan::EMPTY;
    plan::make(job, links, order, &mut plan);
    let mut sheet = Sheet::EMPTY;
    sheet::make(job, links, order, &plan, desk, &mut sheet);
    write::sheet(desk, &sheet, buffer);
    let (blocks, runs) = (sheet.blocks().len() as i64, sheet.runs().len() as i64);
    Ok(BlockAnswer { number: 0, place: 0, blocks, runs, worst: sheet.worst().into() })
}

/// What a file holds. All tables are filled in place, since moving them costs more than a small plan.
struct Tables {
    job: Job,
    links: Links,
    /// All pieces, each behind the pieces before it.
    order: [u8; 256],
}

impl Tables {
    const EMPTY: Tables = Tables { job: Job::EMPTY, links: Links::EMPTY, order: [0; 256] };

    /// Takes in a file without a fault and without a ring.
    fn accept(&mut self, file: &[u8]) -> Result<(), Refusal> {
        file::read(file, &mut self.job)?;
        self.links.fill(&self.job);
        let on_a_ring = |lowest: u8| Refusal { number: 11, place: lowest.into() };
        rings::order(self.job.pieces, &self.links, &mut self.order).map_err(on_a_ring)
    }
}

fn ask_room(job: &Job, buffer: &[u8]) -> Result<(), Refusal> {
    match buffer.len() < ROOM_FOR_A_PIECE * job.pieces {
        true => Err(Refusal { number: 12, place: 0 }),
        false => Ok(()),
    }
}
