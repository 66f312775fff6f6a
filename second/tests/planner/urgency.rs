//! Small plans for one rule each, among them the slips that the page warns of. The plans are drawn
//! by hand; a run reads desk, piece, from, until.

use crate::notation::{front_rows, marked, sheet};
use second::{plan, read};

type Run = (u8, u16, i32, i32);

/// The runs of a sheet and the latest moments of its pieces.
fn planned(text: &str) -> (Vec<Run>, Vec<i32>) {
    let file = sheet(text);
    let pieces = read(&file).unwrap().pieces.len();
    let mut buffer = marked(pieces, 0);
    let answer = plan(&file, &mut buffer);
    assert_eq!((answer.number, answer.pieces), (0, pieces as i64));
    let rows = front_rows(&buffer, pieces + answer.runs as usize);
    let (results, runs) = rows.split_at(pieces);
    assert!(results.iter().all(|row| row.0 == 17) && runs.iter().all(|row| row.0 == 18));
    (runs.iter().map(|r| (r.1, r.2, r.3, r.4)).collect(), results.iter().map(|r| r.5).collect())
}

#[test]
fn an_interrupted_piece_is_not_done() {
    // Piece 0 rests from 1 to 3; its check on desk 1 must wait for the second half.
    let (runs, _) = planned("0/4/0/30, 0/2/1/5, 1/3/0/50; 0>2+0");
    assert_eq!(runs, [(0, 0, 0, 1), (0, 1, 1, 3), (0, 0, 3, 6), (1, 2, 6, 9)]);
}

#[test]
fn the_latest_moment_decides_and_not_the_own_due() {
    // Piece 0 is due long after piece 1, but piece 2 needs it by 8 - 3.
    let (runs, latest) = planned("0/2/0/30, 0/2/0/10, 1/3/0/8; 0>2+0");
    assert_eq!(runs, [(0, 0, 0, 2), (0, 1, 2, 4), (1, 2, 2, 5)]);
    assert_eq!(latest, [5, 10, 8]);
}

#[test]
fn the_own_due_counts_where_it_is_earlier() {
    let (_, latest) = planned("0/2/0/4, 0/2/0/10, 1/3/0/8; 0>2+0, 0>1+0");
    assert_eq!(latest, [4, 10, 8]);
}

#[test]
fn the_handover_between_desks_is_part_of_the_latest_moment() {
    let (_, latest) = planned("0/2/0/30, 1/3/0/20; 0>1+9");
    assert_eq!(latest, [8, 20]);
    // On one desk it is 0.
    let (_, latest) = planned("1/2/0/30, 1/3/0/20; 0>1+9");
    assert_eq!(latest, [17, 20]);
}

#[test]
fn latest_moments_along_links_in_falling_numbers() {
    // 2 before 1 before 0, and 2 before 0 as well.
    let (_, latest) = planned("0/5/0/20, 1/4/0/40, 2/3/0/40; 2>1+0, 1>0+0, 2>0+0");
    assert_eq!(latest, [20, 15, 11]);
}

#[test]
fn below_zero_the_smaller_moment_is_still_more_urgent() {
    // Latest moments -2 and -5: both past, and piece 1 goes first. On desk 1 both are due at 0,
    // so the lower number interrupts.
    let (runs, latest) = planned("0/2/0/0, 0/2/0/0, 1/2/0/0, 1/5/0/0; 0>2+0, 1>3+0");
    assert_eq!(latest, [-2, -5, 0, 0]);
    let desk_1 = [(1, 3, 2, 4), (1, 2, 4, 6), (1, 3, 6, 9)];
    assert_eq!(runs, [&[(0, 1, 0, 2), (0, 0, 2, 4)][..], &desk_1].concat());
}

#[test]
fn the_running_piece_stays_only_by_its_number() {
    // Equal latest moments: the lower number keeps its desk when the higher gets ready.
    let (runs, _) = planned("0/3/0/9, 0/1/1/9");
    assert_eq!(runs, [(0, 0, 0, 3), (0, 1, 3, 4)]);
}

#[test]
fn of_a_double_link_both_hold() {
    let (runs, _) = planned("0/2/0/40, 1/1/0/40; 0>1+3, 0>1+7, 0>1+1");
    assert_eq!(runs, [(0, 0, 0, 2), (1, 1, 9, 10)]);
}

#[test]
fn a_piece_waits_for_the_last_of_those_before_it() {
    // From desk 1 at 3 + 4, from desk 2 at 6 + 0, from its own desk at 5, release 2.
    let (runs, _) = planned("0/1/2/40, 1/3/0/40, 2/6/0/40, 0/5/0/30; 1>0+4, 2>0+0, 3>0+480");
    assert_eq!(runs, [(0, 3, 0, 5), (0, 0, 7, 8), (1, 1, 0, 3), (2, 2, 0, 6)]);
}

#[test]
fn a_piece_ready_at_its_release_begins_just_then() {
    let (runs, _) = planned("4/1/0/9, 4/2/40000/40000");
    assert_eq!(runs, [(4, 0, 0, 1), (4, 1, 40_000, 40_002)]);
}

#[test]
fn interruptions_nest() {
    let (runs, _) = planned("0/4/0/30, 0/3/1/20, 0/1/2/10");
    assert_eq!(runs, [(0, 0, 0, 1), (0, 1, 1, 2), (0, 2, 2, 3), (0, 1, 3, 5), (0, 0, 5, 8)]);
}

#[test]
fn a_run_goes_on_when_another_piece_gets_ready_in_vain() {
    // At 2 a less urgent piece comes; the run of piece 0 is not cut by that.
    let (runs, _) = planned("0/5/0/10, 0/1/2/50");
    assert_eq!(runs, [(0, 0, 0, 5), (0, 1, 5, 6)]);
}

#[test]
fn desks_of_one_slot_do_not_see_each_other() {
    // Piece 0 ends with slot 0 on desk 5; piece 1 on desk 6 and piece 2 on desk 4 begin at 1.
    let (runs, _) = planned("5/1/0/9, 6/1/0/9, 4/1/0/9; 0>1+0, 0>2+0");
    assert_eq!(runs, [(4, 2, 1, 2), (5, 0, 0, 1), (6, 1, 1, 2)]);
}
