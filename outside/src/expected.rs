//! What the second planner answers, with its slow plan worked out once for all calls on a file. The answers
//! are put together here as the second planner's own calls do it; a test holds the two together.

use desk::raw::{BlockAnswer, PlanAnswer};
use second::blocks::sheet;
use second::job::{accept, LAST_DESK};
use second::plan::{make, Plan};
use second::records::{lay, of_plan, of_sheet};
use second::{Job, Refusal};

pub struct Expected {
    planned: Result<(Job, Plan), Refusal>,
}

impl Expected {
    pub fn of(file: &[u8]) -> Expected {
        let planned = accept(file).map(|job| {
            let plan = make(&job);
            (job, plan)
        });
        Expected { planned }
    }

    /// The number of the refusal for the file alone, 0 if it is accepted.
    pub fn number(&self) -> i64 {
        self.planned.as_ref().map_or_else(|refusal| refusal.number, |_| 0)
    }

    /// How many pieces and links an accepted file has; none for a refused one.
    pub fn size(&self) -> (usize, usize) {
        self.planned.as_ref().map_or((0, 0), |(job, _)| (job.pieces.len(), job.links.len()))
    }

    /// Whether the desk has pieces in an accepted file.
    pub fn has_pieces(&self, desk: u8) -> bool {
        let on_desk = |(job, _): &(Job, Plan)| job.pieces.iter().any(|piece| piece.desk == desk);
        self.planned.as_ref().is_ok_and(on_desk)
    }

    pub fn plan(&self, buffer: &mut [u8]) -> PlanAnswer {
        self.try_plan(buffer).unwrap_or_else(|Refusal { number, place }| PlanAnswer {
            number,
            place,
            ..PlanAnswer::default()
        })
    }

    pub fn blocks(&self, desk: u8, buffer: &mut [u8]) -> BlockAnswer {
        self.try_blocks(desk, buffer).unwrap_or_else(|Refusal { number, place }| BlockAnswer {
            number,
            place,
            ..BlockAnswer::default()
        })
    }

    fn try_plan(&self, buffer: &mut [u8]) -> Result<PlanAnswer, Refusal> {
        let (job, plan) = self.planned.as_ref().map_err(|&refusal| refusal)?;
        ask_room(job, buffer)?;
        lay(&of_plan(job, plan), buffer);
        let (pieces, runs) = (job.pieces.len() as i64, plan.runs.len() as i64);
        let (end, worst) = (plan.end(), plan.worst());
        Ok(PlanAnswer { number: 0, place: 0, pieces, runs, end, worst })
    }

    fn try_blocks(&self, desk: u8, buffer: &mut [u8]) -> Result<BlockAnswer, Refusal> {
        let (job, plan) = self.planned.as_ref().map_err(|&refusal| refusal)?;
        if desk > LAST_DESK {
            return Err(Refusal { number: 13, place: 0 });
        }
        ask_room(job, buffer)?;
        let sheet = sheet(job, plan, desk);
        lay(&of_sheet(desk, &sheet), buffer);
        let (blocks, runs) = (sheet.blocks.len() as i64, sheet.runs.len() as i64);
        Ok(BlockAnswer { number: 0, place: 0, blocks, runs, worst: sheet.worst })
    }
}

fn ask_room(job: &Job, buffer: &[u8]) -> Result<(), Refusal> {
    match buffer.len() < 48 * job.pieces.len() {
        true => Err(Refusal { number: 12, place: 0 }),
        false => Ok(()),
    }
}
