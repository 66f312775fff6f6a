//! The block method by hand-drawn sheets: raised ready moments, the cut, the piece set aside, and
//! the worked example of the paper. A block reads count, from, end; a run piece, from, until.

use crate::notation::{front_rows, marked, sheet};
use second::blocks::{cut, raised_moments, ready_moments, Entry};
use second::{blocks, plan, read};

type Drawn = (Vec<(u16, i32, i32)>, Vec<(u16, i32, i32)>, i64);

/// The block sheet of one desk: blocks, runs and worst lateness.
fn drawn(text: &str, desk: u8) -> Drawn {
    let file = sheet(text);
    let mut buffer = marked(read(&file).unwrap().pieces.len(), 0);
    let answer = blocks(&file, desk, &mut buffer);
    assert_eq!((answer.number, answer.place), (0, 0));
    let rows = front_rows(&buffer, (answer.blocks + answer.runs) as usize);
    let (first, then) = rows.split_at(answer.blocks as usize);
    assert!(first.iter().all(|row| (row.0, row.1, row.5) == (19, desk, 0)));
    assert!(then.iter().all(|row| (row.0, row.1, row.5) == (18, desk, 0)));
    let three =
        |rows: &[(u8, u8, u16, i32, i32, i32)]| rows.iter().map(|r| (r.2, r.3, r.4)).collect();
    (three(first), three(then), answer.worst)
}

/// Example 3 of the paper, with pieces 0 to 4 for its modules 1 to 5. Its block of four from 0 to
/// 8 sets the third aside and falls into the first two from 0 to 3 and the fourth from 4 to 6; the
/// second interrupts the first; the fifth is a block of its own from 9 to 11.
#[test]
fn the_example_of_the_paper() {
    let text = "0/2/0/6, 0/1/1/4, 0/3/2/12, 0/2/4/8, 0/2/9/12; 0>2+0, 1>3+0";
    let (blocks, runs, worst) = drawn(text, 0);
    assert_eq!(blocks, [(4, 0, 8), (1, 9, 11)]);
    let front = [(0, 0, 1), (1, 1, 2), (0, 2, 3), (2, 3, 4), (3, 4, 6), (2, 6, 8)];
    assert_eq!(runs, [&front[..], &[(4, 9, 11)]].concat());
    assert_eq!(worst, -1);
}

#[test]
fn blocks_are_cut_by_raised_moments() {
    // By its release piece 1 would join the first block; behind piece 0 it is not ready before 2.
    let (blocks, runs, worst) = drawn("0/2/0/9, 0/2/0/9, 0/3/3/9; 0>1+0", 0);
    assert_eq!(blocks, [(1, 0, 2), (2, 2, 7)]);
    assert_eq!(runs, [(0, 0, 2), (1, 2, 4), (2, 4, 7)]);
    assert_eq!(worst, -2);
}

#[test]
fn moments_are_raised_along_several_links() {
    let text = "0/1/0/30, 0/2/0/30, 0/3/1/30; 1>0+0, 2>1+0";
    let job = read(&sheet(text)).unwrap();
    assert_eq!(ready_moments(&job, &[7, 6, 4]), [0, 0, 1]);
    assert_eq!(raised_moments(&job, &[7, 6, 4]), [6, 4, 1]);
    let (blocks, runs, worst) = drawn(text, 0);
    assert_eq!(blocks, [(1, 1, 4), (1, 4, 6), (1, 6, 7)]);
    assert_eq!(runs, [(2, 1, 4), (1, 4, 6), (0, 6, 7)]);
    // Latest moments 30, 29 and 27.
    assert_eq!(worst, -23);
}

#[test]
fn raising_takes_the_moment_and_not_the_finish_on_the_same_desk() {
    // Piece 0 is interrupted and finishes at 7, yet piece 2 behind it is raised to 0 + 4 only.
    let text = "0/4/0/30, 0/3/1/5, 0/1/0/40; 0>2+0";
    let job = read(&sheet(text)).unwrap();
    assert_eq!(raised_moments(&job, &[7, 4, 8]), [0, 1, 4]);
    let (blocks, runs, worst) = drawn(text, 0);
    assert_eq!(blocks, [(3, 0, 8)]);
    assert_eq!(runs, [(0, 0, 1), (1, 1, 4), (0, 4, 7), (2, 7, 8)]);
    assert_eq!(worst, -1);
}

#[test]
fn other_desks_count_by_finish_and_handover() {
    // Latest moments 27, 34 and 40.
    let text = "0/2/0/40, 1/3/0/40, 0/1/0/40; 0>1+4, 1>2+5";
    assert_eq!(drawn(text, 0), (vec![(1, 0, 2), (1, 14, 15)], vec![(0, 0, 2), (2, 14, 15)], -25));
    assert_eq!(drawn(text, 1), (vec![(1, 6, 9)], vec![(1, 6, 9)], -25));
}

#[test]
fn of_equal_moments_the_highest_number_is_set_aside() {
    let (blocks, runs, _) = drawn("0/2/0/9, 0/2/0/9, 0/2/0/9", 0);
    assert_eq!(blocks, [(3, 0, 6)]);
    assert_eq!(runs, [(0, 0, 2), (1, 2, 4), (2, 4, 6)]);
}

#[test]
fn a_piece_set_aside_is_cut_up_by_the_others() {
    let (blocks, runs, worst) = drawn("0/4/0/30, 0/3/1/20, 0/1/2/10", 0);
    assert_eq!(blocks, [(3, 0, 8)]);
    assert_eq!(runs, [(0, 0, 1), (1, 1, 2), (2, 2, 3), (1, 3, 5), (0, 5, 8)]);
    assert_eq!(worst, -7);
}

#[test]
fn one_slot_apart_and_one_slot_together() {
    assert_eq!(drawn("0/2/0/9, 0/1/3/9", 0).0, [(1, 0, 2), (1, 3, 4)]);
    assert_eq!(drawn("0/2/0/9, 0/1/2/9", 0).0, [(1, 0, 2), (1, 2, 3)]);
    assert_eq!(drawn("0/2/0/9, 0/1/1/9", 0).0, [(2, 0, 3)]);
}

#[test]
fn the_cut_goes_by_moment_and_then_by_number() {
    let entry = |number, ready, duration| Entry { number, ready, duration, latest: 0 };
    let set = [entry(7, 5, 1), entry(2, 5, 2), entry(4, 0, 3), entry(1, 2, 1), entry(3, 8, 1)];
    let found: Vec<(i64, i64, Vec<usize>)> = cut(&set)
        .into_iter()
        .map(|block| (block.from, block.end, block.entries.iter().map(|e| e.number).collect()))
        .collect();
    let expected = [(0, 4, vec![4, 1]), (5, 8, vec![2, 7]), (8, 9, vec![3])];
    assert_eq!(found, expected);
    assert!(cut(&[]).is_empty());
}

#[test]
fn the_sheet_of_a_desk_is_written_over_the_front_of_a_plan() {
    // The lent buffer may hold anything, also the plan itself; only the front changes.
    let file = sheet("0/4/0/20, 0/2/1/5, 1/3/0/12; 0>2+2");
    let mut buffer = marked(3, 0);
    plan(&file, &mut buffer);
    let before = buffer.clone();
    let answer = blocks(&file, 1, &mut buffer);
    assert_eq!((answer.blocks, answer.runs), (1, 1));
    assert_eq!(buffer[32..], before[32..]);
    assert_eq!(buffer[..4], [19, 1, 1, 0]);
}
