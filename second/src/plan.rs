//! The plan by urgency, slot by slot from 0 with no slot left out. In each slot every desk looks
//! at its ready unfinished pieces and works on the most urgent one. Nothing is clever here on
//! purpose: this file is held against the page by eye.

use crate::job::{Job, LAST_DESK};

/// One stretch of slots in which a desk works on a piece; `until` is not worked.
#[derive(Clone, Copy, Debug, PartialEq, Eq)]
pub struct Run {
    pub desk: u8,
    pub piece: usize,
    pub from: i64,
    pub until: i64,
}

/// The finished plan, tables by piece number, runs by desk and then by start.
#[derive(Clone, Debug, PartialEq, Eq)]
pub struct Plan {
    pub latest: Vec<i64>,
    pub start: Vec<i64>,
    pub finish: Vec<i64>,
    pub runs: Vec<Run>,
}

impl Plan {
    pub fn lateness(&self, piece: usize) -> i64 {
        self.finish[piece] - self.latest[piece]
    }

    pub fn end(&self) -> i64 {
        self.finish.iter().copied().max().unwrap_or(0)
    }

    pub fn worst(&self) -> i64 {
        (0..self.finish.len()).map(|piece| self.lateness(piece)).max().unwrap_or(0)
    }
}

/// The latest moments: every link is looked at again and again until none lowers a moment any
/// more. This ends because the file has no ring.
pub fn latest_moments(job: &Job) -> Vec<i64> {
    let mut latest: Vec<i64> = job.pieces.iter().map(|piece| piece.due).collect();
    loop {
        let mut lowered = false;
        for link in &job.links {
            let bound = latest[link.after] - job.pieces[link.after].duration - job.delay(link);
            if bound < latest[link.before] {
                latest[link.before] = bound;
                lowered = true;
            }
        }
        if !lowered {
            return latest;
        }
    }
}

/// Plans a file that has no ring.
pub fn make(job: &Job) -> Plan {
    let mut work = Work::new(job);
    let mut slot = 0;
    // Without a ring some piece gets ready sooner or later, so the loop ends.
    while !work.unfinished.is_empty() {
        // All desks choose before any of them works: what a desk does in a slot is known to the
        // others only from the next moment on.
        for piece in work.choices(slot).into_iter().flatten() {
            work.spend(piece, slot);
        }
        slot += 1;
    }
    Plan {
        latest: work.latest,
        start: work.start.into_iter().flatten().collect(),
        finish: work.finish.into_iter().flatten().collect(),
        runs: work.runs.into_iter().flatten().collect(),
    }
}

/// The state of all desks at one moment.
struct Work<'a> {
    job: &'a Job,
    latest: Vec<i64>,
    /// For each piece the pieces before it, each with the delay of its link.
    before: Vec<Vec<(usize, i64)>>,
    unfinished: Vec<usize>,
    left: Vec<i64>,
    start: Vec<Option<i64>>,
    finish: Vec<Option<i64>>,
    runs: Vec<Vec<Run>>,
}

impl Work<'_> {
    fn new(job: &Job) -> Work<'_> {
        let count = job.pieces.len();
        let mut before = vec![Vec::new(); count];
        for link in &job.links {
            before[link.after].push((link.before, job.delay(link)));
        }
        Work {
            job,
            latest: latest_moments(job),
            before,
            unfinished: (0..count).collect(),
            left: job.pieces.iter().map(|piece| piece.duration).collect(),
            start: vec![None; count],
            finish: vec![None; count],
            runs: vec![Vec::new(); usize::from(LAST_DESK) + 1],
        }
    }

    /// An interrupted piece has no finish yet, so what comes after it is not ready.
    fn ready(&self, piece: usize, slot: i64) -> bool {
        let handed_over = |&(before, delay): &(usize, i64)| match self.finish[before] {
            Some(finish) => finish + delay <= slot,
            None => false,
        };
        self.job.pieces[piece].release <= slot && self.before[piece].iter().all(handed_over)
    }

    /// The piece each desk works on in this slot.
    fn choices(&self, slot: i64) -> [Option<usize>; LAST_DESK as usize + 1] {
        let mut chosen = [None; LAST_DESK as usize + 1];
        for &piece in self.unfinished.iter().filter(|&&piece| self.ready(piece, slot)) {
            let best = &mut chosen[usize::from(self.job.pieces[piece].desk)];
            match *best {
                Some(other) if !self.more_urgent(piece, other) => {}
                _ => *best = Some(piece),
            }
        }
        chosen
    }

    /// Which of two pieces goes first does not depend on the one worked in the slot before.
    fn more_urgent(&self, piece: usize, other: usize) -> bool {
        (self.latest[piece], piece) < (self.latest[other], other)
    }

    /// Works one slot on the piece.
    fn spend(&mut self, piece: usize, slot: i64) {
        self.start[piece].get_or_insert(slot);
        self.left[piece] -= 1;
        if self.left[piece] == 0 {
            self.finish[piece] = Some(slot + 1);
            self.unfinished.retain(|&other| other != piece);
        }
        let desk = self.job.pieces[piece].desk;
        let runs = &mut self.runs[usize::from(desk)];
        match runs.last_mut() {
            Some(run) if run.piece == piece && run.until == slot => run.until = slot + 1,
            _ => runs.push(Run { desk, piece, from: slot, until: slot + 1 }),
        }
    }
}
