//! The ten sheets of the rules page, with the listing of the first. What the page leaves out of a sheet was
//! worked out by hand.

use crate::notation::{block, block_answer, file, link, piece, plan_answer, planned, refusal};
use crate::notation::{result, run, sheet};
use desk::raw::listing;
use desk::LISTING_ROOM;

#[test]
fn p1() {
    let file = file(&[(0, 4, 0, 20), (0, 2, 1, 5), (1, 3, 0, 12)], &[(0, 2, 2)]);
    let runs = [run(0, 0, 0, 1), run(0, 1, 1, 3), run(0, 0, 3, 6), run(1, 2, 8, 11)];
    let results = [result(0, 0, 0, 6, 7), result(0, 1, 1, 3, 5), result(1, 2, 8, 11, 12)];
    let (answer, rows) = planned(&file);
    assert_eq!(answer, plan_answer(3, 4, 11, -1));
    assert_eq!(rows, [&results[..], &runs].concat());
    let (answer, rows) = sheet(&file, 0);
    assert_eq!(answer, block_answer(1, 3, -1));
    assert_eq!(rows, [&[block(0, 2, 0, 6)], &runs[..3]].concat());
    let (answer, rows) = sheet(&file, 1);
    assert_eq!(answer, block_answer(1, 1, -1));
    assert_eq!(rows, [block(1, 1, 8, 11), runs[3]]);
    assert_eq!(sheet(&file, 2), (block_answer(0, 0, 0), vec![]));
}

#[test]
fn the_listing_of_p1() {
    let mut text = vec![0; LISTING_ROOM].try_into().expect("as long as the room");
    let file = file(&[(0, 4, 0, 20), (0, 2, 1, 5), (1, 3, 0, 12)], &[(0, 2, 2)]);
    let lines = [
        "piece 0 desk 0 start 0 finish 6 latest 7 late -1",
        "piece 1 desk 0 start 1 finish 3 latest 5 late -2",
        "piece 2 desk 1 start 8 finish 11 latest 12 late -1",
        "run desk 0 piece 0 from 0 until 1",
        "run desk 0 piece 1 from 1 until 3",
        "run desk 0 piece 0 from 3 until 6",
        "run desk 1 piece 2 from 8 until 11",
        "total pieces 3 runs 4 end 11 worst -1",
    ];
    let expected: String = lines.iter().map(|line| format!("{line}\n")).collect();
    assert_eq!(String::from_utf8_lossy(listing(&file, &mut text)), expected);
    assert_eq!(listing(&[0; 17], &mut text), b"refused 2 at 0\n");
    assert_eq!(listing(&[], &mut text), b"total pieces 0 runs 0 end 0 worst 0\n");
}

#[test]
fn p2() {
    assert_eq!(planned(&[]), (plan_answer(0, 0, 0, 0), vec![]));
    assert_eq!(sheet(&[], 0), (block_answer(0, 0, 0), vec![]));
}

#[test]
fn p3() {
    let file = file(&[(0, 3, 0, 0), (0, 5, 0, 2)], &[(0, 1, 0)]);
    let (answer, rows) = planned(&file);
    assert_eq!(answer, plan_answer(2, 2, 8, 6));
    let results = [result(0, 0, 0, 3, -3), result(0, 1, 3, 8, 2)];
    assert_eq!(rows, [results[0], results[1], run(0, 0, 0, 3), run(0, 1, 3, 8)]);
}

#[test]
fn p4() {
    let file = file(&[(0, 1, 1, 9), (0, 3, 0, 9)], &[]);
    let runs = [run(0, 1, 0, 1), run(0, 0, 1, 2), run(0, 1, 2, 4)];
    assert_eq!(planned(&file).1[2..], runs);
    assert_eq!(sheet(&file, 0).1, [&[block(0, 2, 0, 4)], &runs[..]].concat());
}

#[test]
fn p5() {
    let file = file(&[(0, 2, 0, 9), (0, 1, 2, 9)], &[]);
    let runs = [run(0, 0, 0, 2), run(0, 1, 2, 3)];
    assert_eq!(planned(&file).1[2..], runs);
    let (answer, rows) = sheet(&file, 0);
    assert_eq!(answer, block_answer(2, 2, -6));
    assert_eq!(rows, [block(0, 1, 0, 2), block(0, 1, 2, 3), runs[0], runs[1]]);
}

#[test]
fn p6() {
    let file = file(&[(0, 2, 5, 10), (0, 1, 0, 30)], &[(0, 1, 7)]);
    let (answer, rows) = planned(&file);
    assert_eq!(answer, plan_answer(2, 2, 8, -3));
    let results = [result(0, 0, 5, 7, 10), result(0, 1, 7, 8, 30)];
    assert_eq!(rows, [results[0], results[1], run(0, 0, 5, 7), run(0, 1, 7, 8)]);
}

#[test]
fn p7() {
    let pieces = [(0, 2, 0, 20), (1, 1, 0, 20), (0, 2, 0, 20), (0, 5, 0, 50)];
    let file = file(&pieces, &[(0, 1, 0), (1, 2, 1)]);
    let runs = [run(0, 0, 0, 2), run(0, 3, 2, 4), run(0, 2, 4, 6), run(0, 3, 6, 9)];
    let results = [result(0, 0, 0, 2, 16), result(1, 1, 2, 3, 17), result(0, 2, 4, 6, 20)];
    assert_eq!(planned(&file).1[..3], results);
    assert_eq!(planned(&file).1[4..8], runs);
    let (answer, rows) = sheet(&file, 0);
    assert_eq!(answer, block_answer(1, 4, -14));
    assert_eq!(rows, [&[block(0, 3, 0, 9)], &runs[..]].concat());
}

#[test]
fn p8() {
    let three = piece(0, 1, 0, 9).repeat(3);
    let links = [link(0, 1, 0), link(1, 2, 0), link(2, 1, 0)].concat();
    assert_eq!(refusal(&[three, links].concat()), (11, 1));
}

#[test]
fn p9_and_p10() {
    assert_eq!(refusal(&[0; 17]), (2, 0));
    assert_eq!(refusal(&[0; 15]), (1, 0));
}
