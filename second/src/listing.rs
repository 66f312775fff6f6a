//! The text that `deskplan` prints for a job file. The room for the plan is always long enough
//! there, so refusal 12 never comes, and nothing behind the deciding bytes is looked at.

use crate::job::{self, Job};
use crate::plan::{self, Plan};

/// 256 pieces, 1,024 links and one record more: the last of these is refused in any case.
pub const DECIDING_BYTES: usize = 20_496;

/// The whole text; every line ends in a newline, the last as well.
pub fn listing(file: &[u8]) -> Vec<u8> {
    let deciding = &file[..file.len().min(DECIDING_BYTES)];
    let lines = match job::accept(deciding) {
        Ok(job) => plan_lines(&job, &plan::make(&job)),
        Err(refusal) => vec![format!("refused {} at {}", refusal.number, refusal.place)],
    };
    lines.into_iter().flat_map(|line| (line + "\n").into_bytes()).collect()
}

fn plan_lines(job: &Job, plan: &Plan) -> Vec<String> {
    let mut lines = Vec::new();
    for (number, piece) in job.pieces.iter().enumerate() {
        lines.push(format!(
            "piece {} desk {} start {} finish {} latest {} late {}",
            number,
            piece.desk,
            plan.start[number],
            plan.finish[number],
            plan.latest[number],
            plan.lateness(number),
        ));
    }
    for run in &plan.runs {
        lines.push(format!(
            "run desk {} piece {} from {} until {}",
            run.desk, run.piece, run.from, run.until,
        ));
    }
    lines.push(format!(
        "total pieces {} runs {} end {} worst {}",
        job.pieces.len(),
        plan.runs.len(),
        plan.end(),
        plan.worst(),
    ));
    lines
}
