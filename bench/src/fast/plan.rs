//! The plan by urgency from one decision moment to the next: a moment at which a piece becomes ready or is
//! finished. In between no desk has a reason to change its piece.

use super::file::Job;
use super::links::Links;

#[derive(Clone, Copy)]
pub struct Run {
    pub desk: u8,
    pub piece: u8,
    pub from: u32,
    pub until: u32,
}

pub struct Plan {
    pub latest: [i32; 256],
    pub start: [u32; 256],
    pub finish: [u32; 256],
    /// In order of their start; 256 pieces have at most 511.
    log: [Run; 512],
    logged: usize,
}

impl Plan {
    pub const EMPTY: Plan = Plan {
        latest: [0; 256],
        start: [0; 256],
        finish: [0; 256],
        log: [Run { desk: 0, piece: 0, from: 0, until: 0 }; 512],
        logged: 0,
    };

    pub fn runs(&self) -> &[Run] {
        &self.log[..self.logged]
    }

    pub fn end(&self, job: &Job) -> u32 {
        self.finish[..job.pieces].iter().copied().max().unwrap_or(0)
    }

    pub fn worst(&self, job: &Job) -> i32 {
        let both = self.finish[..job.pieces].iter().zip(&self.latest);
        both.map(|(&finish, &latest)| finish as i32 - latest).max().unwrap_or(0)
    }
}

/// Each link once, from the last pieces back.
fn latest_moments(job: &Job, links: &Links, order: &[u8; 256], latest: &mut [i32; 256]) {
    for &piece in order[..job.pieces].iter().rev() {
        let bounds = links.from(piece).iter().map(|follower| {
            let after = usize::from(follower.piece);
            latest[after] - job.duration[after] as i32 - i32::from(follower.delay)
        });
        let least = bounds.min().unwrap_or(i32::MAX);
        latest[usize::from(piece)] = job.due[usize::from(piece)].min(least);
    }
}

/// Plans a file that has no ring.
pub fn make(job: &Job, links: &Links, order: &[u8; 256], plan: &mut Plan) {
    latest_moments(job, links, order, &mut plan.latest);
    let mut work = Work {
        job,
        links,
        urgency: [0; 256],
        left: job.duration,
        waits: links.into,
        ready: job.release,
        open: [0; 256],
        place: [0; 256],
        opened: 0,
        last: [usize::MAX; 32],
        plan,
    };
    for piece in 0..job.pieces {
        // One number to compare: the latest moment, above -2^18, and then the piece.
        work.urgency[piece] = ((work.plan.latest[piece] + (1 << 18)) as u32) << 8 | piece as u32;
        if work.waits[piece] == 0 {
            work.open(piece as u8);
        }
    }
    let mut moment = 0;
    while work.opened > 0 {
        moment = work.pass(moment);
    }
}

struct Work<'a> {
    job: &'a Job,
    links: &'a Links,
    urgency: [u32; 256],
    left: [u32; 256],
    waits: [u16; 256],
    ready: [u32; 256],
    /// The unfinished pieces that wait for no other, in any order, and the place of each among them.
    open: [u8; 256],
    place: [u8; 256],
    opened: usize,
    /// The last run of each desk.
    last: [usize; 32],
    plan: &'a mut Plan,
}

impl Work<'_> {
    /// Chooses for every desk and works up to the next decision moment, which is the answer.
    fn pass(&mut self, moment: u32) -> u32 {
        let mut best = [u32::MAX; 32];
        let mut busy: u32 = 0;
        let mut next = u32::MAX;
        for &piece in &self.open[..self.opened] {
            let piece = usize::from(piece);
            if self.ready[piece] > moment {
                next = next.min(self.ready[piece]);
            } else {
                let desk = self.job.desk[piece] % 32;
                let so_far = &mut best[usize::from(desk)];
                *so_far = self.urgency[piece].min(*so_far);
                busy |= 1 << desk;
            }
        }
        for desk in each_desk(busy) {
            next = next.min(moment + self.left[best[desk] as usize % 256]);
        }
        for desk in each_desk(busy) {
            self.spend(desk, best[desk] as u8, moment, next);
        }
        next
    }

    /// The desk works on the piece from one moment to another.
    fn spend(&mut self, desk: usize, piece: u8, from: u32, until: u32) {
        let at = usize::from(piece);
        if self.left[at] == self.job.duration[at] {
            self.plan.start[at] = from;
        }
        match self.plan.log.get_mut(self.last[desk]) {
            Some(run) if run.piece == piece && run.until == from => run.until = until,
            _ => {
                self.last[desk] = self.plan.logged;
                self.plan.log[self.plan.logged] = Run { desk: desk as u8, piece, from, until };
                self.plan.logged += 1;
            }
        }
        self.left[at] -= until - from;
        if self.left[at] == 0 {
            self.plan.finish[at] = until;
            self.close(piece);
            for follower in self.links.from(piece) {
                let after = usize::from(follower.piece);
                self.ready[after] = self.ready[after].max(until + u32::from(follower.delay));
                self.waits[after] -= 1;
                if self.waits[after] == 0 {
                    self.open(follower.piece);
                }
            }
        }
    }

    fn open(&mut self, piece: u8) {
        self.open[self.opened] = piece;
        self.place[usize::from(piece)] = self.opened as u8;
        self.opened += 1;
    }

    /// The last of the open pieces takes the place of this one.
    fn close(&mut self, piece: u8) {
        self.opened -= 1;
        let (moved, place) = (self.open[self.opened], self.place[usize::from(piece)]);
        self.open[usize::from(place)] = moved;
        self.place[usize::from(moved)] = place;
    }
}

/// The desks whose bit is set, in rising order.
fn each_desk(mut bits: u32) -> impl Iterator<Item = usize> {
    std::iter::from_fn(move || {
        let desk = bits.trailing_zeros();
        bits &= bits.wrapping_sub(1);
        (desk < 32).then_some(desk as usize)
    })
}
