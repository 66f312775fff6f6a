//! The block sheet of one desk: ready moments out of the finished plan, raised along the desk's
//! own links, and the block method on them. Cutting a set and solving a block call each other,
//! and every block gives away one piece before it is cut again.

use crate::job::{Job, Link};
use crate::plan::{Plan, Run};

/// What the block method knows of a piece; `ready` is the raised ready moment.
#[derive(Clone, Copy, Debug, PartialEq, Eq)]
pub struct Entry {
    pub number: usize,
    pub ready: i64,
    pub duration: i64,
    pub latest: i64,
}

/// Pieces that keep the desk busy from one ready moment to the end, with no slot free.
#[derive(Clone, Debug, PartialEq, Eq)]
pub struct Block {
    pub from: i64,
    pub end: i64,
    pub entries: Vec<Entry>,
}

/// The blocks of the first cutting, the runs of the block method by time, and the worst lateness.
#[derive(Clone, Debug, PartialEq, Eq)]
pub struct Sheet {
    pub blocks: Vec<Block>,
    pub runs: Vec<Run>,
    pub worst: i64,
}

/// The piece worked in each slot, from slot 0 to the end of the last block.
type Slots = Vec<Option<usize>>;

/// Works out the sheet of one desk from the finished plan.
pub fn sheet(job: &Job, plan: &Plan, desk: u8) -> Sheet {
    let entries = entries(job, plan, desk);
    let blocks = cut(&entries);
    let end = blocks.last().map_or(0, |block| block.end);
    let mut slots = vec![None; end as usize];
    for block in &blocks {
        solve(block, &job.links, &mut slots);
    }
    let runs = runs_of(&slots, desk);
    let finish = |number| runs.iter().filter(|run| run.piece == number).map(|run| run.until).max();
    let lateness = |entry: &Entry| finish(entry.number).map(|finish| finish - entry.latest);
    let worst = entries.iter().filter_map(lateness).max().unwrap_or(0);
    Sheet { blocks, runs, worst }
}

/// The ready moments: releases and what other desks hand over in the finished plan.
pub fn ready_moments(job: &Job, finish: &[i64]) -> Vec<i64> {
    let mut ready: Vec<i64> = job.pieces.iter().map(|piece| piece.release).collect();
    for link in job.links.iter().filter(|link| !job.on_one_desk(link)) {
        ready[link.after] = ready[link.after].max(finish[link.before] + job.delay(link));
    }
    ready
}

/// The raised ready moments, by looking at the links inside desks until none raises any more.
pub fn raised_moments(job: &Job, finish: &[i64]) -> Vec<i64> {
    let mut raised = ready_moments(job, finish);
    loop {
        let before = raised.clone();
        for link in job.links.iter().filter(|link| job.on_one_desk(link)) {
            let bound = raised[link.before] + job.pieces[link.before].duration;
            raised[link.after] = raised[link.after].max(bound);
        }
        if raised == before {
            return raised;
        }
    }
}

fn entries(job: &Job, plan: &Plan, desk: u8) -> Vec<Entry> {
    let raised = raised_moments(job, &plan.finish);
    let of_desk = job.pieces.iter().enumerate().filter(|(_, piece)| piece.desk == desk);
    of_desk
        .map(|(number, piece)| Entry {
            number,
            ready: raised[number],
            duration: piece.duration,
            latest: plan.latest[number],
        })
        .collect()
}

/// Cuts a set into blocks. A piece that is ready just at the end of a block begins the next one.
pub fn cut(set: &[Entry]) -> Vec<Block> {
    let mut in_order = set.to_vec();
    in_order.sort_by_key(|entry| (entry.ready, entry.number));
    let mut blocks: Vec<Block> = Vec::new();
    for entry in in_order {
        match blocks.last_mut() {
            Some(block) if entry.ready < block.end => {
                block.end += entry.duration;
                block.entries.push(entry);
            }
            _ => blocks.push(Block {
                from: entry.ready,
                end: entry.ready + entry.duration,
                entries: vec![entry],
            }),
        }
    }
    blocks
}

/// Plans a block: one piece is set aside, the others are cut and planned, and the piece set aside
/// gets what they leave free.
fn solve(block: &Block, links: &[Link], slots: &mut Slots) {
    let aside = set_aside(block, links);
    let is_other = |entry: &&Entry| entry.number != aside;
    let others: Vec<Entry> = block.entries.iter().filter(is_other).copied().collect();
    for inner in &cut(&others) {
        solve(inner, links, slots);
    }
    for slot in &mut slots[block.from as usize..block.end as usize] {
        slot.get_or_insert(aside);
    }
}

/// The piece of the block that may wait longest, the highest number where equal, among those
/// that no piece of the same block follows by a direct link.
fn set_aside(block: &Block, links: &[Link]) -> usize {
    let inside = |number: usize| block.entries.iter().any(|entry| entry.number == number);
    let followed =
        |entry: &Entry| links.iter().any(|link| link.before == entry.number && inside(link.after));
    let free = block.entries.iter().filter(|entry| !followed(entry));
    free.max_by_key(|entry| (entry.latest, entry.number))
        .expect("a block is not empty, and without a ring some piece of it is not followed")
        .number
}

/// The runs that the slots show, by time.
fn runs_of(slots: &Slots, desk: u8) -> Vec<Run> {
    let mut runs: Vec<Run> = Vec::new();
    for (slot, worked) in slots.iter().enumerate() {
        let Some(piece) = *worked else { continue };
        let slot = slot as i64;
        match runs.last_mut() {
            Some(run) if run.piece == piece && run.until == slot => run.until = slot + 1,
            _ => runs.push(Run { desk, piece, from: slot, until: slot + 1 }),
        }
    }
    runs
}
