//! Charts for the terminal, compared letter by letter. The expected ones were drawn by hand.

use crate::{planned, ruler, P1_LISTING};
use desktools::chart::chart;

#[test]
fn the_first_sheet() {
    let expected = "\
Plan of 3 pieces on 2 desks, finished at slot 11 (2 h 45 min).
No piece is late; the tightest is 1 slot (15 min) early.
One slot (15 min) is 4 columns.

slot    0               4               8
hour    0h              1h              2h
        +---------------+---------------+-----------
desk 0  000011111111000000000000....................
desk 1  ................................222222222222

   piece  desk  start  finish   latest
0      0     0      0       6        7  1 slot early
1      1     0      1       3        5  2 slots early
2      2     1      8      11       12  1 slot early

A letter or digit is a piece as in the table.
. the desk rests
";
    assert_eq!(chart(&planned(P1_LISTING), 80), expected);
}

/// 100 slots in 40 - 8 columns: four slots for a column make 25 columns. No line is longer than 40: sentences are
/// broken, and in the table words get lines of their own.
#[test]
fn a_long_plan_is_drawn_together() {
    let text = "\
piece 0 desk 0 start 0 finish 50 latest 60 late -10
piece 1 desk 0 start 50 finish 54 latest 40 late 14
piece 2 desk 5 start 90 finish 100 latest 100 late 0
run desk 0 piece 0 from 0 until 50
run desk 0 piece 1 from 50 until 54
run desk 5 piece 2 from 90 until 100
total pieces 3 runs 3 end 100 worst 14
";
    // Column 12 stands for slots 48 to 51, where piece 0 ends and piece 1 begins.
    let expected = "\
Plan of 3 pieces on 2 desks, finished at
slot 100 (25 h).
1 of 3 pieces is late, the worst by 14
slots (3 h 30 min).
One column is 4 slots (1 h).

slot    0           48          96
hour    0h          12h         24h
        +-----------+-----------+
desk 0  000000000000*1...........
                    !!
desk 5  ......................222

   piece  desk  start  finish   latest
0      0     0      0      50       60
        10 slots early
1      1     0     50      54       40
        LATE by 14 slots
2      2     5     90     100      100
        just in time

A letter or digit is a piece as in the
table.
. the desk rests
* several pieces in one column
! the piece above it is late
";
    assert_eq!(chart(&planned(text), 40), expected);
    assert_eq!(chart(&planned(text), 0), expected, "narrower than the least width");
}

/// The sheet with latest moments below zero; no desk rests and no column is shared.
#[test]
fn late_pieces_are_marked() {
    let text = "\
piece 0 desk 31 start 0 finish 3 latest -3 late 6
piece 1 desk 31 start 3 finish 8 latest 2 late 6
run desk 31 piece 0 from 0 until 3
run desk 31 piece 1 from 3 until 8
total pieces 2 runs 2 end 8 worst 6
";
    let expected = "\
Plan of 2 pieces on 1 desk, finished at slot 8 (2 h).
2 of 2 pieces are late, the worst by 6 slots (1 h 30 min).
One slot (15 min) is 4 columns.

slot    0       2       4       6
hour    0h      0.5h    1h      1.5h
        +-------+-------+-------+-------
desk 31 00000000000011111111111111111111
        !!!!!!!!!!!!!!!!!!!!!!!!!!!!!!!!

   piece  desk  start  finish   latest
0      0    31      0       3       -3  LATE by 6 slots
1      1    31      3       8        2  LATE by 6 slots

A letter or digit is a piece as in the table.
! the piece above it is late
";
    assert_eq!(chart(&planned(text), 80), expected);
}

#[test]
fn no_pieces() {
    let plan = planned("total pieces 0 runs 0 end 0 worst 0\n");
    assert_eq!(chart(&plan, 80), "The plan has no pieces.\n");
}

/// A listing of pieces of one slot each, one after the other, spread over the desks.
fn in_a_row(pieces: usize, desks: usize) -> String {
    let mut text = String::new();
    for n in 0..pieces {
        let (desk, end) = (n % desks, n + 1);
        text += &format!("piece {n} desk {desk} start {n} finish {end} latest {end} late 0\n");
    }
    for desk in 0..desks {
        for n in (desk..pieces).step_by(desks) {
            text += &format!("run desk {desk} piece {n} from {n} until {}\n", n + 1);
        }
    }
    text + &format!("total pieces {pieces} runs {pieces} end {pieces} worst 0\n")
}

fn row(chart: &str, desk: usize) -> &str {
    let start = format!("desk {desk:<3}");
    chart.lines().find_map(|line| line.strip_prefix(&start)).unwrap()
}

#[test]
fn letters_of_many_pieces() {
    let letters = "0123456789abcdefghijklmnopqrstuvwxyzABCDEFGHIJKLMNOPQRSTUVWXYZ";
    let own = chart(&planned(&in_a_row(62, 1)), 70);
    assert_eq!(row(&own, 0), letters);
    assert!(own.contains("One column is one slot (15 min).\n"));
    assert!(own.ends_with("A letter or digit is a piece as in the table.\n"));

    let by_desk = chart(&planned(&in_a_row(64, 32)), 72);
    assert_eq!(row(&by_desk, 1), format!(".0{}.1{}", ".".repeat(30), ".".repeat(30)));
    assert!(by_desk.contains("\n1     32     0     32 "));
    assert!(by_desk.contains("Each desk has its own: the same one on two desks is two pieces.\n"));

    let repeated = chart(&planned(&in_a_row(64, 1)), 72);
    assert_eq!(row(&repeated, 0), format!("{letters}01"));
    assert!(repeated.contains("They repeat after 62 pieces of a desk.\n"));
}

#[test]
fn the_drawing_keeps_to_the_width_and_shows_every_desk() {
    for width in [40, 41, 57, 80, 132, 1000] {
        for pieces in [1, 2, 30, 31, 32, 33, 71, 72, 73, 144, 255, 256] {
            let drawing = chart(&planned(&in_a_row(pieces, 2.min(pieces))), width);
            let ruler = ruler(&drawing);
            let widest = drawing.lines().map(str::len).max().unwrap();
            assert!(widest <= width as usize, "{pieces} pieces in {width}");
            assert!(8 + pieces.min(width as usize - 8) / 2 <= ruler, "too little of the width");
            let desks = drawing.lines().filter(|line| line.starts_with("desk ")).count();
            assert_eq!(desks, 2.min(pieces));
            let rows = drawing.lines().filter(|line| line.starts_with("desk "));
            assert!(rows.map(str::len).all(|length| length == ruler));
        }
    }
}
