//! Demands 2 and 3 on random files, and that refused calls touch nothing. A failing file is named
//! by seed and index, to be made again.

use crate::best::Desk;
use crate::checks::{self, Facts, Shown};
use second::make::{self, Case};
use second::{blocks, plan, PlanAnswer};

/// Names the random file when a check on it fails.
struct Note(u64, u64);

impl Drop for Note {
    fn drop(&mut self) {
        if std::thread::panicking() {
            eprintln!("the file of seed {} index {}", self.0, self.1);
        }
    }
}

pub fn each_case(seed: u64, count: u64, mut check: impl FnMut(Case)) {
    for index in 0..count {
        let _note = Note(seed, index);
        check(make::case(seed, index));
    }
}

/// The plan of an accepted file, checked; nothing for a refused one.
fn planned(file: &[u8]) -> Option<(Facts, Shown)> {
    let before = vec![0x77; 48 * (file.len() / 16)];
    let mut buffer = before.clone();
    let answer = plan(file, &mut buffer);
    let facts = (answer.number == 0).then(|| Facts::of(file))?;
    let shown = checks::plan(&facts, &answer, &before, &buffer);
    Some((facts, shown))
}

#[test]
fn every_plan_is_the_one_the_page_asks_for() {
    let mut accepted = 0;
    each_case(1, 20_000, |Case { file, buffer, .. }| {
        let mut after = buffer.clone();
        let answer = plan(&file, &mut after);
        if answer.number == 0 {
            checks::plan(&Facts::of(&file), &answer, &buffer, &after);
            accepted += 1;
        } else {
            let PlanAnswer { number, place, .. } = answer;
            assert_eq!(answer, PlanAnswer { number, place, ..PlanAnswer::default() });
            assert_eq!(after, buffer, "a refused call changed the buffer");
        }
    });
    assert!(accepted > 8_000);
}

#[test]
fn every_block_sheet_agrees_with_the_plan() {
    let mut sheets = 0;
    each_case(2, 4_000, |Case { file, .. }| {
        let Some((facts, shown)) = planned(&file) else { return };
        let without_pieces = (0..32).find(|&desk| facts.of_desk(desk).is_empty());
        let with_pieces = (0..32).filter(|&desk| !facts.of_desk(desk).is_empty());
        // Each sheet works the whole plan out anew; of the few longest plans two desks will do.
        let most = if shown.finish.iter().any(|&finish| finish > 45_000) { 2 } else { 33 };
        for desk in with_pieces.chain(without_pieces).take(most) {
            let before = vec![0x77; 48 * facts.pieces.len()];
            let mut buffer = before.clone();
            let answer = blocks(&file, desk as u8, &mut buffer);
            checks::sheet(&facts, &shown, desk, &answer, &buffer);
            let written = 16 * (answer.blocks + answer.runs) as usize;
            assert_eq!(buffer[written..], before[written..]);
            sheets += u64::from(answer.blocks > 0);
        }
    });
    assert!(sheets > 8_000, "only {sheets} sheets with blocks");
}

#[test]
fn no_plan_of_a_tiny_desk_is_better() {
    let (mut tried, mut interrupted) = (0, 0);
    each_case(3, 6_000, |Case { file, .. }| {
        let Some((facts, shown)) = planned(&file) else { return };
        for desk in 0..32 {
            let tiny = Desk::new(&facts, &shown, desk);
            if !tiny.is_tiny() {
                continue;
            }
            let answer = blocks(&file, desk as u8, &mut vec![0; 48 * facts.pieces.len()]);
            assert_eq!(answer.worst, tiny.least_worst_lateness(), "desk {desk}");
            tried += 1;
            interrupted += u64::from(answer.runs > facts.of_desk(desk).len() as i64);
        }
    });
    assert!(tried > 3_000 && interrupted > 500, "tried {tried}, interrupted {interrupted}");
}
