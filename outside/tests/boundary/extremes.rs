//! The extreme plans that the page names: the last moment there can be, the lowest latest moment, the most
//! runs, and a handover that holds a piece back while its desk works on.

use crate::notation::{block, block_answer, file, link, piece, plan_answer, planned};
use crate::notation::{result, run, sheet};

/// Piece 0 is released last, and all others follow it in a chain over two desks.
#[test]
fn the_last_moment_and_the_lowest_latest_moment() {
    let mut file = piece(0, 960, 40_000, 40_000);
    file.extend((1..256).flat_map(|number| piece(number as u8 % 2, 960, 0, 0)));
    file.extend((1..256).flat_map(|number| link(number - 1, number, 480)));
    let (answer, rows) = planned(&file);
    assert_eq!(answer, plan_answer(256, 256, 408_160, 408_160));
    assert_eq!(rows[0], result(0, 0, 40_000, 40_960, -367_200));
    assert_eq!(rows[255], result(1, 255, 407_200, 408_160, 0));
    assert_eq!(rows[256], run(0, 0, 40_000, 40_960));
    assert_eq!(rows[511], run(1, 255, 407_200, 408_160));
    let (answer, rows) = sheet(&file, 1);
    assert_eq!(answer, block_answer(128, 128, 408_160));
    assert_eq!(rows[127], block(1, 1, 407_200, 408_160));
}

/// The same chain in falling numbers: nothing may rest on the numbering.
#[test]
fn a_chain_against_the_numbers() {
    let mut file: Vec<u8> =
        (0..255).flat_map(|number| piece(number as u8 % 2, 960, 0, 0)).collect();
    file.extend(piece(1, 960, 40_000, 40_000));
    file.extend((1..256).flat_map(|number| link(number, number - 1, 480)));
    let (answer, rows) = planned(&file);
    assert_eq!(answer, plan_answer(256, 256, 408_160, 408_160));
    assert_eq!(rows[255], result(1, 255, 40_000, 40_960, -367_200));
    assert_eq!(rows[0], result(0, 0, 407_200, 408_160, 0));
}

/// Each piece is interrupted by the next: 2m - 1 runs, which fill the buffer up to one record.
#[test]
fn the_most_runs() {
    let file: Vec<u8> = (0..256).flat_map(|number| piece(9, 2, number, 40_000 - number)).collect();
    let (answer, rows) = planned(&file);
    assert_eq!(answer, plan_answer(256, 511, 512, 512 - 40_000));
    assert_eq!(rows[256..258], [run(9, 0, 0, 1), run(9, 1, 1, 2)]);
    assert_eq!(rows[511..513], [run(9, 255, 255, 257), run(9, 254, 257, 258)]);
    assert_eq!(rows[766], run(9, 0, 511, 512));
    let (answer, of_sheet) = sheet(&file, 9);
    assert_eq!(answer, block_answer(1, 511, 512 - 40_000));
    assert_eq!(of_sheet[0], block(9, 256, 0, 512));
    assert_eq!(of_sheet[1..], rows[256..]);
    // The same in a buffer of just the room.
    let mut buffer = vec![0; 48 * 256];
    assert_eq!(desk::raw::plan(&file, &mut buffer).runs, 511);
    assert_eq!(desk::raw::blocks(&file, 9, &mut buffer).runs, 511);
}

/// Every desk has eight pieces at once; desks do not wait for each other.
#[test]
fn all_desks_at_work() {
    let file: Vec<u8> = (0..256u32).flat_map(|number| piece(number as u8 % 32, 3, 0, 24)).collect();
    let (answer, rows) = planned(&file);
    assert_eq!(answer, plan_answer(256, 256, 24, 0));
    assert_eq!(rows[33], result(1, 33, 3, 6, 24));
    assert_eq!(rows[256 + 8], run(1, 1, 0, 3));
    assert_eq!(rows[511], run(31, 255, 21, 24));
    assert_eq!(sheet(&file, 31).0, block_answer(1, 8, 0));
}

/// The check of a text waits for the whole text: an interrupted translation is not finished.
#[test]
fn no_check_on_half_a_text() {
    let pieces = [(0, 4, 0, 100), (0, 2, 2, 10), (1, 1, 0, 50)];
    let (answer, rows) = planned(&file(&pieces, &[(0, 2, 3)]));
    assert_eq!(answer, plan_answer(3, 4, 10, -6));
    assert_eq!(rows[0], result(0, 0, 0, 6, 46));
    assert_eq!(rows[2], result(1, 2, 9, 10, 50));
    assert_eq!(rows[3..6], [run(0, 0, 0, 2), run(0, 1, 2, 4), run(0, 0, 4, 6)]);
}

/// Of two equal links with different handovers both hold, so the longer one counts.
#[test]
fn a_link_that_stands_twice() {
    let pieces = [(0, 1, 0, 9), (1, 1, 0, 9)];
    let (answer, rows) = planned(&file(&pieces, &[(0, 1, 5), (0, 1, 2)]));
    assert_eq!(answer, plan_answer(2, 2, 7, -2));
    assert_eq!(rows[1], result(1, 1, 6, 7, 9));
}
