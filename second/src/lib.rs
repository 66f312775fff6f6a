//! A second desk planner, written from the rules page alone and kept naive. Its worth is that it
//! shares nothing with the proved planner: where the two differ on a file, one of them is wrong.
//! The calls answer as the page says, `write` as the first request beyond it, and `listing` is what `deskplan`
//! prints.

pub mod blocks;
pub mod job;
pub mod listing;
pub mod make;
pub mod plan;
pub mod records;
pub mod runs;
pub mod write;

pub use job::{read, Job, Link, Piece, Refusal};
pub use listing::listing;
pub use runs::runs;
pub use write::{write, WriteAnswer};

/// The answer of the plan call; a refused one has nothing but its number and place.
#[derive(Clone, Copy, Debug, Default, PartialEq, Eq)]
pub struct PlanAnswer {
    pub number: i64,
    pub place: i64,
    pub pieces: i64,
    pub runs: i64,
    pub end: i64,
    pub worst: i64,
}

/// The answer of the block sheet; a refused one has nothing but its number and place.
#[derive(Clone, Copy, Debug, Default, PartialEq, Eq)]
pub struct BlockAnswer {
    pub number: i64,
    pub place: i64,
    pub blocks: i64,
    pub runs: i64,
    pub worst: i64,
}

/// Plans every desk of the file and lays the records into the buffer.
pub fn plan(file: &[u8], buffer: &mut [u8]) -> PlanAnswer {
    match try_plan(file, buffer) {
        Ok(answer) => answer,
        Err(Refusal { number, place }) => PlanAnswer { number, place, ..PlanAnswer::default() },
    }
}

/// Works out the block sheet of one desk and lays its records into the buffer.
pub fn blocks(file: &[u8], desk: u8, buffer: &mut [u8]) -> BlockAnswer {
    match try_blocks(file, desk, buffer) {
        Ok(answer) => answer,
        Err(Refusal { number, place }) => BlockAnswer { number, place, ..BlockAnswer::default() },
    }
}

fn try_plan(file: &[u8], buffer: &mut [u8]) -> Result<PlanAnswer, Refusal> {
    let job = job::accept(file)?;
    ask_room(&job, buffer)?;
    let plan = plan::make(&job);
    records::lay(&records::of_plan(&job, &plan), buffer);
    Ok(PlanAnswer {
        number: 0,
        place: 0,
        pieces: job.pieces.len() as i64,
        runs: plan.runs.len() as i64,
        end: plan.end(),
        worst: plan.worst(),
    })
}

fn try_blocks(file: &[u8], desk: u8, buffer: &mut [u8]) -> Result<BlockAnswer, Refusal> {
    let job = job::accept(file)?;
    if desk > job::LAST_DESK {
        return Err(Refusal { number: 13, place: 0 });
    }
    ask_room(&job, buffer)?;
    let sheet = blocks::sheet(&job, &plan::make(&job), desk);
    records::lay(&records::of_sheet(desk, &sheet), buffer);
    Ok(BlockAnswer {
        number: 0,
        place: 0,
        blocks: sheet.blocks.len() as i64,
        runs: sheet.runs.len() as i64,
        worst: sheet.worst,
    })
}

/// Both calls ask room for all pieces of the file, the block sheet too, whatever its desk holds.
fn ask_room(job: &Job, buffer: &[u8]) -> Result<(), Refusal> {
    if buffer.len() < 48 * job.pieces.len() {
        return Err(Refusal { number: 12, place: 0 });
    }
    Ok(())
}
