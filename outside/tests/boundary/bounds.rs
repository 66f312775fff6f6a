//! Every bound of the page from both sides: durations, moments, handovers, desks, counts and the length of
//! the lent buffer.

use crate::notation::{accepted, block_answer, link, piece, plan_answer, planned, refusal};
use crate::notation::{result, run, sheet, MARK};
use desk::raw::{self, BlockAnswer, PlanAnswer};

#[test]
fn durations() {
    assert!(accepted(&piece(0, 1, 0, 0)));
    assert_eq!(planned(&piece(0, 960, 0, 0)).0, plan_answer(1, 1, 960, 960));
    for duration in [0, 961, 1 << 15, u16::MAX] {
        assert_eq!(refusal(&piece(0, duration, 0, 0)), (6, 0));
    }
}

#[test]
fn releases_and_dues() {
    let (answer, rows) = planned(&piece(0, 1, 40_000, 40_000));
    assert_eq!(answer, plan_answer(1, 1, 40_001, 1));
    assert_eq!(rows, [result(0, 0, 40_000, 40_001, 40_000), run(0, 0, 40_000, 40_001)]);
    for beyond in [40_001, 1 << 16, 1 << 31, u32::MAX] {
        assert_eq!(refusal(&piece(0, 1, beyond, 0)), (7, 0));
        assert_eq!(refusal(&piece(0, 1, 0, beyond)), (7, 0));
    }
}

#[test]
fn handovers() {
    let two = [piece(0, 1, 0, 0), piece(1, 1, 0, 0)].concat();
    assert_eq!(planned(&[&two[..], &link(0, 1, 480)].concat()).0, plan_answer(2, 2, 482, 482));
    for handover in [481, 512, u16::MAX] {
        assert_eq!(refusal(&[&two[..], &link(0, 1, handover)].concat()), (10, 2));
    }
}

#[test]
fn desks() {
    let on_the_last = piece(31, 1, 0, 0);
    assert_eq!(planned(&on_the_last).1, [result(31, 0, 0, 1, 0), run(31, 0, 0, 1)]);
    assert_eq!(sheet(&on_the_last, 31).0, block_answer(1, 1, 1));
    assert_eq!(sheet(&on_the_last, 0).0, block_answer(0, 0, 0));
    for desk in [32, 33, 128, 255] {
        assert_eq!(refusal(&piece(desk, 1, 0, 0)), (5, 0));
        let refused = BlockAnswer { number: 13, ..BlockAnswer::default() };
        assert_eq!(sheet(&on_the_last, desk), (refused, vec![]));
    }
}

#[test]
fn pieces() {
    let full = piece(0, 1, 0, 0).repeat(256);
    let (answer, rows) = planned(&full);
    assert_eq!(answer, plan_answer(256, 256, 256, 256));
    assert_eq!(rows[255..257], [result(0, 255, 255, 256, 0), run(0, 0, 0, 1)]);
    assert_eq!(refusal(&piece(0, 1, 0, 0).repeat(257)), (4, 256));
    assert_eq!(refusal(&[full, link(0, 256, 0)].concat()), (9, 256));
}

#[test]
fn links() {
    let full = [piece(0, 1, 0, 0).repeat(2), link(0, 1, 0).repeat(1024)].concat();
    assert_eq!(planned(&full).0, plan_answer(2, 2, 2, 2));
    assert_eq!(refusal(&[full, link(0, 1, 0)].concat()), (4, 1026));
}

#[test]
fn the_fullest_file_and_what_may_stand_behind_it() {
    let full = [piece(7, 1, 0, 0).repeat(256), link(254, 255, 480).repeat(1024)].concat();
    assert_eq!(full.len(), 20_480);
    assert!(accepted(&full));
    assert_eq!(refusal(&[&full[..], &[2; 15]].concat()), (1, 1280));
    assert_eq!(refusal(&[&full[..], &link(0, 1, 0)].concat()), (4, 1280));
    assert_eq!(refusal(&[&full[..], &piece(0, 1, 0, 0)].concat()), (3, 1280));
    assert_eq!(refusal(&[&full[..], &[0; 16]].concat()), (2, 1280));
    // The 20,496 bytes before decide; those left over count no more, nor does a ring.
    assert_eq!(refusal(&[&full[..], &link(0, 1, 0), &[9; 7]].concat()), (4, 1280));
    assert_eq!(refusal(&[&full[..], &link(0, 0, 0), &link(3, 3, 0)].concat()), (4, 1280));
}

#[test]
fn buffers_of_just_the_room_and_one_byte_less() {
    for count in [1, 2, 255, 256] {
        let file = piece(3, 2, 0, 0).repeat(count);
        let mut buffer = vec![MARK; 48 * count];
        assert_eq!(raw::plan(&file, &mut buffer).number, 0);
        assert_eq!(raw::blocks(&file, 3, &mut buffer).number, 0);
        assert_eq!(raw::blocks(&file, 4, &mut buffer).number, 0);
        let mut short = vec![MARK; 48 * count - 1];
        assert_eq!(
            raw::plan(&file, &mut short),
            PlanAnswer { number: 12, ..PlanAnswer::default() }
        );
        let refused = BlockAnswer { number: 12, ..BlockAnswer::default() };
        // The block sheet asks room for all pieces of the file, also for a desk that has none.
        assert_eq!(raw::blocks(&file, 3, &mut short), refused);
        assert_eq!(raw::blocks(&file, 4, &mut short), refused);
        assert_eq!(raw::blocks(&file, 32, &mut short).number, 13);
        assert!(short.iter().all(|&byte| byte == MARK), "a refused call wrote");
    }
}
