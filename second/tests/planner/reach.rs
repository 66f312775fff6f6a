//! What the random files reach: every refusal and every shape of plan that the other tests lean on.
//! Without this a random test could pass because nothing of interest ever came.

use crate::checks::Facts;
use second::job::accept;
use second::make::{self, Case};
use second::{blocks, plan, read};
use std::collections::BTreeMap;

#[test]
fn a_seed_and_an_index_fix_everything() {
    for index in 0..300 {
        assert_eq!(make::case(9, index), make::case(9, index));
        assert_eq!(make::case(9, index).file, make::file(9, index));
        assert_eq!(make::records(9, index), make::records(9, index));
    }
    let differing = |seed| (0..300).filter(|&i| make::file(9, i) != make::file(seed, i)).count();
    assert!(differing(10) > 250);
}

#[test]
fn every_refusal_is_met_by_both_calls() {
    let mut met: BTreeMap<i64, [u64; 2]> = BTreeMap::new();
    for index in 0..15_000 {
        let Case { file, desk, mut buffer } = make::case(20, index);
        met.entry(plan(&file, &mut buffer).number).or_default()[0] += 1;
        met.entry(blocks(&file, desk, &mut buffer).number).or_default()[1] += 1;
    }
    let numbers: Vec<i64> = met.keys().copied().collect();
    assert_eq!(numbers, (0..=13).collect::<Vec<i64>>());
    for (number, [of_plan, of_blocks]) in met {
        assert!(of_plan >= if number == 13 { 0 } else { 100 }, "{number}: {of_plan} plans");
        assert!(of_blocks >= 100, "{number}: {of_blocks} block sheets");
    }
}

/// How often the files of a seed show a thing.
fn count(files: u64, shows: impl Fn(&[u8]) -> bool) -> usize {
    (0..files).filter(|&index| shows(&make::file(21, index))).count()
}

fn sound(file: &[u8]) -> Option<Facts> {
    accept(file).is_ok().then(|| Facts::of(file))
}

fn sound_with(file: &[u8], shows: impl Fn(&Facts) -> bool) -> bool {
    sound(file).is_some_and(|facts| shows(&facts))
}

#[test]
fn sound_files_come_in_many_shapes() {
    let full = |facts: &Facts| facts.pieces.len() == 256 && facts.links.len() == 1024;
    assert!(count(3_000, |file| sound_with(file, full)) >= 5);
    assert!(count(500, |file| sound_with(file, |facts| facts.pieces.is_empty())) >= 5);
    let last_desk = |facts: &Facts| facts.pieces.iter().any(|piece| piece[0] == 31);
    assert!(count(500, |file| sound_with(file, last_desk)) >= 20);
    let no_links = |facts: &Facts| facts.links.is_empty() && facts.pieces.len() > 5;
    assert!(count(500, |file| sound_with(file, no_links)) >= 20);
    let falling = |facts: &Facts| facts.links.iter().any(|link| link.1 < link.0);
    assert!(count(500, |file| sound_with(file, falling)) >= 50);
    let double = |facts: &Facts| {
        let pair = |at: usize| (facts.links[at].0, facts.links[at].1);
        (0..facts.links.len()).any(|one| (0..one).any(|other| pair(one) == pair(other)))
    };
    assert!(count(500, |file| sound_with(file, double)) >= 50);
    let at_bounds = |facts: &Facts| {
        let piece = |at: usize, value| facts.pieces.iter().any(|piece| piece[at] == value);
        piece(1, 960) && (piece(2, 40_000) || piece(3, 40_000))
    };
    assert!(count(3_000, |file| sound_with(file, at_bounds)) >= 10);
    let most_handover = |facts: &Facts| facts.links.iter().any(|link| link.2 == 480);
    assert!(count(3_000, |file| sound_with(file, most_handover)) >= 10);
}

#[test]
fn plans_show_interruptions_and_missed_moments() {
    let answer = |file: &[u8]| plan(file, &mut vec![0; 48 * (file.len() / 16)]);
    assert!(count(500, |file| answer(file).runs > answer(file).pieces) >= 50);
    assert!(count(500, |file| answer(file).worst > 0) >= 50);
    assert!(count(500, |file| answer(file).worst < 0) >= 20);
    let most_runs = |file: &[u8]| {
        let answer = answer(file);
        let one_desk = sound_with(file, |facts| facts.of_desk(3).len() == facts.pieces.len());
        one_desk && answer.pieces > 5 && answer.runs == 2 * answer.pieces - 1
    };
    assert!(count(3_000, most_runs) >= 5);
    let below_zero = |file: &[u8]| {
        let mut buffer = vec![0; 48 * (file.len() / 16)];
        let answer = plan(file, &mut buffer);
        buffer[..16 * answer.pieces as usize].chunks(16).any(|record| record[15] == 255)
    };
    assert!(count(500, below_zero) >= 50);
}

#[test]
fn block_sheets_show_touching_blocks() {
    let touching = |file: &[u8]| {
        let mut buffer = vec![0; 48 * (file.len() / 16)];
        let answer = blocks(file, 0, &mut buffer);
        let blocks: Vec<&[u8]> = buffer.chunks(16).take(answer.blocks as usize).collect();
        blocks.windows(2).any(|pair| pair[0][8..12] == pair[1][4..8])
    };
    assert!(count(1_000, touching) >= 50);
}

#[test]
fn files_come_too_long_cut_off_and_with_rings_of_one() {
    assert!(count(2_000, |file| file.len() > 20_496) >= 5);
    assert!(count(2_000, |file| file.len() % 16 != 0) >= 100);
    let self_link = |file: &[u8]| {
        read(file).is_ok_and(|job| job.links.iter().any(|link| link.before == link.after))
    };
    assert!(count(2_000, self_link) >= 10);
    let not_lowest = |file: &[u8]| {
        let answer = plan(file, &mut []);
        answer.number == 11 && answer.place > 0
    };
    assert!(count(2_000, not_lowest) >= 10);
}
