//! The block sheet of one desk. A block's pieces stand next to each other in one list; the one set aside is
//! moved to its front and the others are cut again, so runs come out by time and nothing is copied.

use super::file::Job;
use super::links::Links;
use super::plan::Plan;

#[derive(Clone, Copy)]
struct Entry {
    number: u8,
    ready: u32,
    duration: u32,
    latest: i32,
}

/// Of a block the number is its count of pieces, of a run the piece.
#[derive(Clone, Copy)]
pub struct Stretch {
    pub number: u16,
    pub from: u32,
    pub until: u32,
}

pub struct Sheet {
    blocks: [Stretch; 256],
    cut: usize,
    runs: [Stretch; 512],
    logged: usize,
    worst: i32,
}

const NO_ENTRY: Entry = Entry { number: 0, ready: 0, duration: 0, latest: 0 };
const NO_STRETCH: Stretch = Stretch { number: 0, from: 0, until: 0 };

impl Sheet {
    pub const EMPTY: Sheet =
        Sheet { blocks: [NO_STRETCH; 256], cut: 0, runs: [NO_STRETCH; 512], logged: 0, worst: 0 };

    pub fn blocks(&self) -> &[Stretch] {
        &self.blocks[..self.cut]
    }

    pub fn runs(&self) -> &[Stretch] {
        &self.runs[..self.logged]
    }

    pub fn worst(&self) -> i32 {
        self.worst
    }

    fn log(&mut self, piece: u8, from: u32, until: u32) {
        self.runs[self.logged] = Stretch { number: piece.into(), from, until };
        self.logged += 1;
    }
}

/// Fills an empty sheet.
pub fn make(job: &Job, links: &Links, order: &[u8; 256], plan: &Plan, desk: u8, sheet: &mut Sheet) {
    let raised = raised_moments(job, links, order, plan);
    let mut entries = [NO_ENTRY; 256];
    let mut count = 0;
    for number in (0..job.pieces).filter(|&number| job.desk[number] == desk) {
        let (ready, duration) = (raised[number], job.duration[number]);
        entries[count] =
            Entry { number: number as u8, ready, duration, latest: plan.latest[number] };
        count += 1;
    }
    let entries = &mut entries[..count];
    entries.sort_unstable_by_key(|entry| (entry.ready, entry.number));
    let mut marks = Marks { of_block: [0; 256], last: 0 };
    let mut left = entries;
    if !left.is_empty() {
        sheet.worst = i32::MIN;
    }
    while let Some(block) = first_block(left) {
        sheet.blocks[sheet.cut] = block;
        sheet.cut += 1;
        let (inside, behind) = left.split_at_mut(block.number.into());
        solve(inside, block, links, &mut marks, sheet);
        left = behind;
    }
}

/// Releases, what other desks hand over, and the raised ready moments of the pieces before on the same desk.
fn raised_moments(job: &Job, links: &Links, order: &[u8; 256], plan: &Plan) -> [u32; 256] {
    let mut raised = job.release;
    for &piece in &order[..job.pieces] {
        let before = usize::from(piece);
        for follower in links.from(piece) {
            let after = usize::from(follower.piece);
            let bound = match job.desk[before] == job.desk[after] {
                true => raised[before] + job.duration[before],
                false => plan.finish[before] + u32::from(follower.delay),
            };
            raised[after] = raised[after].max(bound);
        }
    }
    raised
}

/// The first block of a set in order of raised ready moments.
fn first_block(set: &[Entry]) -> Option<Stretch> {
    let first = set.first()?;
    let (mut count, mut until) = (1, first.ready + first.duration);
    for entry in &set[1..] {
        if entry.ready >= until {
            break;
        }
        until += entry.duration;
        count += 1;
    }
    Some(Stretch { number: count, from: first.ready, until })
}

/// For each piece the last block that it was seen in.
struct Marks {
    of_block: [u16; 256],
    last: u16,
}

/// Plans a block: the piece set aside gets what the blocks of the others leave free.
fn solve(
    entries: &mut [Entry],
    block: Stretch,
    links: &Links,
    marks: &mut Marks,
    sheet: &mut Sheet,
) {
    let aside = set_aside(entries, links, marks);
    entries[..=aside].rotate_right(1);
    let Some((aside, mut left)) = entries.split_first_mut() else { return };
    let (mut free, mut finish) = (block.from, block.from);
    while let Some(inner) = first_block(left) {
        if free < inner.from {
            sheet.log(aside.number, free, inner.from);
            finish = inner.from;
        }
        let (inside, behind) = left.split_at_mut(inner.number.into());
        solve(inside, inner, links, marks, sheet);
        free = inner.until;
        left = behind;
    }
    if free < block.until {
        sheet.log(aside.number, free, block.until);
        finish = block.until;
    }
    sheet.worst = sheet.worst.max(finish as i32 - aside.latest);
}

/// The place of the piece that may wait longest, the highest number where equal, among those that no piece
/// of the block follows. A piece is asked for followers only where it would be the choice.
fn set_aside(entries: &[Entry], links: &Links, marks: &mut Marks) -> usize {
    marks.last += 1;
    for entry in entries {
        marks.of_block[usize::from(entry.number)] = marks.last;
    }
    let marked = |piece: u8| marks.of_block[usize::from(piece)] == marks.last;
    let followed = |piece: u8| links.from(piece).iter().any(|follower| marked(follower.piece));
    let mut best: Option<(i32, u8, usize)> = None;
    for (place, entry) in entries.iter().enumerate() {
        let this = Some((entry.latest, entry.number, place));
        if this > best && !followed(entry.number) {
            best = this;
        }
    }
    best.expect("without a ring some piece of a block is not followed").2
}
