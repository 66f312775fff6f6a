//! Decides whether an answer with its buffer is the one that the page asks for. It reads the file
//! and the records on its own and never works a plan out: it takes the finishes shown and looks
//! whether every slot of every desk is what the rule asks, given these.

use crate::notation::{rows, Row};
use second::{BlockAnswer, PlanAnswer};

/// The contents of an accepted file: desk, duration, release, due; before, after, handover.
pub struct Facts {
    pub pieces: Vec<[i64; 4]>,
    pub links: Vec<(usize, usize, i64)>,
}

impl Facts {
    pub fn of(file: &[u8]) -> Facts {
        let two = |r: &[u8], at: usize| i64::from(r[at]) + 256 * i64::from(r[at + 1]);
        let of_kind = |kind| file.chunks(16).filter(move |record| record[0] == kind);
        let piece = |r: &[u8]| [i64::from(r[1]), two(r, 2), two(r, 4), two(r, 8)];
        let link = |r: &[u8]| (two(r, 2) as usize, two(r, 4) as usize, two(r, 6));
        Facts { pieces: of_kind(1).map(piece).collect(), links: of_kind(2).map(link).collect() }
    }

    pub fn desk(&self, piece: usize) -> i64 {
        self.pieces[piece][0]
    }

    pub fn of_desk(&self, desk: i64) -> Vec<usize> {
        (0..self.pieces.len()).filter(|&piece| self.desk(piece) == desk).collect()
    }

    /// The pieces before one, with the handover where the desks differ.
    pub fn before(&self, piece: usize) -> impl Iterator<Item = (usize, i64)> + '_ {
        let to_it = self.links.iter().filter(move |link| link.1 == piece);
        to_it.map(move |&(before, _, handover)| {
            (before, if self.desk(before) == self.desk(piece) { 0 } else { handover })
        })
    }

    /// The latest moment, straight from its definition.
    fn latest(&self, piece: usize, known: &mut Vec<Option<i64>>) -> i64 {
        if let Some(latest) = known[piece] {
            return latest;
        }
        let mut latest = self.pieces[piece][3];
        for &(_, after, handover) in self.links.iter().filter(|link| link.0 == piece) {
            let delay = if self.desk(piece) == self.desk(after) { 0 } else { handover };
            latest = latest.min(self.latest(after, known) - self.pieces[after][1] - delay);
        }
        known[piece] = Some(latest);
        latest
    }

    /// The raised ready moment, straight from its definition.
    pub fn raised(&self, piece: usize, finish: &[i64], known: &mut Vec<Option<i64>>) -> i64 {
        if let Some(raised) = known[piece] {
            return raised;
        }
        let mut raised = self.pieces[piece][2];
        for (before, delay) in self.before(piece) {
            raised = raised.max(if self.desk(before) == self.desk(piece) {
                self.raised(before, finish, known) + self.pieces[before][1]
            } else {
                finish[before] + delay
            });
        }
        known[piece] = Some(raised);
        raised
    }
}

/// What the records of a plan show.
pub struct Shown {
    pub latest: Vec<i64>,
    pub finish: Vec<i64>,
    pub runs: Vec<Row>,
}

/// Holds an accepted plan against the page and gives back what it shows.
pub fn plan(facts: &Facts, answer: &PlanAnswer, before: &[u8], after: &[u8]) -> Shown {
    let count = facts.pieces.len();
    assert_eq!((answer.number, answer.place, answer.pieces), (0, 0, count as i64));
    let written = 16 * (count + answer.runs as usize);
    assert_eq!(after[written..], before[written..], "bytes behind the records");
    let all = rows(&after[..written]);
    let (results, runs) = all.split_at(count);
    let mut known = vec![None; count];
    for (piece, &(kind, desk, number, start, finish, latest)) in results.iter().enumerate() {
        assert_eq!((kind, i64::from(desk), number), (17, facts.desk(piece), piece as u16));
        assert_eq!(i64::from(latest), facts.latest(piece, &mut known));
        let own = || runs.iter().filter(|run| run.2 == number);
        assert!(own().all(|run| run.1 == desk));
        assert_eq!(Some(start), own().map(|run| run.3).min());
        assert_eq!(Some(finish), own().map(|run| run.4).max());
        let worked: i32 = own().map(|run| run.4 - run.3).sum();
        assert_eq!(i64::from(worked), facts.pieces[piece][1]);
        assert!((1..=408_160).contains(&finish) && (-367_200..=40_000).contains(&latest));
    }
    assert!(runs.iter().all(|run| run.0 == 18 && run.3 < run.4 && run.5 == 0));
    for pair in runs.windows(2).filter(|pair| pair[0].1 == pair[1].1) {
        assert!(pair[0].4 <= pair[1].3, "runs of a desk overlap or are out of order");
        assert!(pair[0].4 < pair[1].3 || pair[0].2 != pair[1].2, "a run is not longest");
    }
    assert!(runs.windows(2).all(|pair| pair[0].1 <= pair[1].1));
    let finish: Vec<i64> = results.iter().map(|row| i64::from(row.4)).collect();
    let latest: Vec<i64> = results.iter().map(|row| i64::from(row.5)).collect();
    assert_eq!(answer.end, finish.iter().copied().max().unwrap_or(0));
    let lateness = finish.iter().zip(&latest).map(|(finish, latest)| finish - latest);
    assert_eq!(answer.worst, lateness.max().unwrap_or(0));
    let shown = Shown { latest, finish, runs: runs.to_vec() };
    for desk in 0..32 {
        every_slot(facts, &shown, desk);
    }
    shown
}

/// Demand 2 on one desk: in each slot the most urgent ready unfinished piece, or rest if there is
/// none.
fn every_slot(facts: &Facts, shown: &Shown, desk: i64) {
    let pieces = facts.of_desk(desk);
    let runs: Vec<&Row> = shown.runs.iter().filter(|run| i64::from(run.1) == desk).collect();
    assert!(runs.len() < (2 * pieces.len()).max(1), "more than 2m - 1 runs");
    let ready: Vec<i64> = pieces
        .iter()
        .map(|&piece| {
            let handed_over =
                facts.before(piece).map(|(before, delay)| shown.finish[before] + delay);
            handed_over.max().unwrap_or(0).max(facts.pieces[piece][2])
        })
        .collect();
    let end = pieces.iter().map(|&piece| shown.finish[piece]).max().unwrap_or(0);
    let mut worked = vec![None; end as usize];
    for run in runs {
        worked[run.3 as usize..run.4 as usize].fill(Some(usize::from(run.2)));
    }
    for (slot, worked) in (0..).zip(worked) {
        let open = pieces.iter().zip(&ready);
        let open = open.filter(|&(&piece, &ready)| ready <= slot && slot < shown.finish[piece]);
        let asked = open.map(|(&piece, _)| (shown.latest[piece], piece)).min();
        assert_eq!(worked, asked.map(|(_, piece)| piece), "desk {desk} slot {slot}");
    }
}

/// Holds the block sheet of a desk against the plan (demand 3) and its blocks against a count of
/// the work that lies waiting at each moment.
pub fn sheet(facts: &Facts, shown: &Shown, desk: i64, answer: &BlockAnswer, buffer: &[u8]) {
    let pieces = facts.of_desk(desk);
    let all = rows(&buffer[..16 * (answer.blocks + answer.runs) as usize]);
    let (blocks, runs) = all.split_at(answer.blocks as usize);
    let of_plan = shown.runs.iter().filter(|run| i64::from(run.1) == desk);
    assert!(runs.iter().eq(of_plan), "the block method and the plan differ");
    let lateness = pieces.iter().map(|&piece| shown.finish[piece] - shown.latest[piece]);
    assert_eq!((answer.number, answer.place), (0, 0));
    assert_eq!(answer.worst, lateness.max().unwrap_or(0));
    let expected = busy_stretches(facts, shown, &pieces);
    let as_rows =
        expected.into_iter().map(|(count, from, end)| (19, desk as u8, count, from, end, 0));
    assert!(blocks.iter().copied().eq(as_rows), "blocks");
}

/// Work comes in at raised ready moments and goes one slot at a time. A block is from the moment
/// work meets an idle desk to the moment none is left, before the work of that moment comes in.
fn busy_stretches(facts: &Facts, shown: &Shown, pieces: &[usize]) -> Vec<(u16, i32, i32)> {
    let mut known = vec![None; facts.pieces.len()];
    let mut coming: Vec<(i64, i64)> = pieces
        .iter()
        .map(|&piece| (facts.raised(piece, &shown.finish, &mut known), facts.pieces[piece][1]))
        .collect();
    coming.sort();
    let mut stretches: Vec<(u16, i32, i32)> = Vec::new();
    let (mut moment, mut waiting) = (0, 0);
    let mut coming = coming.into_iter().peekable();
    while waiting > 0 || coming.peek().is_some() {
        while let Some((_, work)) = coming.next_if(|&(ready, _)| ready == moment) {
            if waiting == 0 {
                stretches.push((0, moment as i32, 0));
            }
            waiting += work;
            stretches.last_mut().unwrap().0 += 1;
        }
        moment += 1;
        if waiting > 0 {
            waiting -= 1;
            stretches.last_mut().unwrap().2 = moment as i32;
        }
    }
    stretches
}
