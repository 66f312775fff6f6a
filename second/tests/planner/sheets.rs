//! The sheets P1 to P10 of the page: answers and whole buffers with marks behind the records. Block
//! sheets are drawn for every desk that has pieces, and P1's listing is held to the byte.

use crate::notation::{bytes, front_rows, marked, sheet, Row, MARK};
use second::{blocks, listing, plan, BlockAnswer, PlanAnswer};

/// Plans the sheet and holds the answer's four numbers and every record against the expectation.
fn expect_plan(file: &[u8], numbers: [i64; 4], records: &[Row]) {
    let [pieces, runs, end, worst] = numbers;
    let mut buffer = marked(pieces as usize, 5);
    let answer = plan(file, &mut buffer);
    assert_eq!(answer, PlanAnswer { number: 0, place: 0, pieces, runs, end, worst });
    assert_eq!(front_rows(&buffer, records.len()), records);
}

/// The same for the block sheet of one desk of a file with that many pieces.
fn expect_blocks(file: &[u8], pieces: usize, desk: u8, numbers: [i64; 3], records: &[Row]) {
    let [block_count, runs, worst] = numbers;
    let mut buffer = marked(pieces, 5);
    let answer = blocks(file, desk, &mut buffer);
    assert_eq!(answer, BlockAnswer { number: 0, place: 0, blocks: block_count, runs, worst });
    assert_eq!(front_rows(&buffer, records.len()), records);
}

/// Both calls refuse alike and touch nothing.
fn expect_refused(file: &[u8], number: i64, place: i64) {
    let mut buffer = marked(3, 5);
    let zero = PlanAnswer::default();
    assert_eq!(plan(file, &mut buffer), PlanAnswer { number, place, ..zero });
    let zero = BlockAnswer::default();
    assert_eq!(blocks(file, 0, &mut buffer), BlockAnswer { number, place, ..zero });
    assert_eq!(buffer, marked(3, 5));
    assert_eq!(listing(file), format!("refused {number} at {place}\n").into_bytes());
}

const P1: [u8; 64] = [
    0x01, 0x00, 0x04, 0x00, 0x00, 0x00, 0x00, 0x00, 0x14, 0x00, 0x00, 0x00, 0x00, 0x00, 0x00, 0x00,
    0x01, 0x00, 0x02, 0x00, 0x01, 0x00, 0x00, 0x00, 0x05, 0x00, 0x00, 0x00, 0x00, 0x00, 0x00, 0x00,
    0x01, 0x01, 0x03, 0x00, 0x00, 0x00, 0x00, 0x00, 0x0C, 0x00, 0x00, 0x00, 0x00, 0x00, 0x00, 0x00,
    0x02, 0x00, 0x00, 0x00, 0x02, 0x00, 0x02, 0x00, 0x00, 0x00, 0x00, 0x00, 0x00, 0x00, 0x00, 0x00,
];

#[test]
fn p1_bytes_are_those_of_the_page() {
    assert_eq!(sheet("0/4/0/20, 0/2/1/5, 1/3/0/12; 0>2+2"), P1);
}

#[test]
fn p1_plan_and_whole_buffer() {
    let records = [
        0x11, 0, 0, 0, 0, 0, 0, 0, 6, 0, 0, 0, 7, 0, 0, 0, // piece 0
        0x11, 0, 1, 0, 1, 0, 0, 0, 3, 0, 0, 0, 5, 0, 0, 0, // piece 1
        0x11, 1, 2, 0, 8, 0, 0, 0, 11, 0, 0, 0, 12, 0, 0, 0, // piece 2
        0x12, 0, 0, 0, 0, 0, 0, 0, 1, 0, 0, 0, 0, 0, 0, 0, // desk 0: piece 0
        0x12, 0, 1, 0, 1, 0, 0, 0, 3, 0, 0, 0, 0, 0, 0, 0, // desk 0: piece 1
        0x12, 0, 0, 0, 3, 0, 0, 0, 6, 0, 0, 0, 0, 0, 0, 0, // desk 0: piece 0 again
        0x12, 1, 2, 0, 8, 0, 0, 0, 11, 0, 0, 0, 0, 0, 0, 0, // desk 1: piece 2
    ];
    let mut expected = vec![MARK; 144];
    expected[..112].copy_from_slice(&records);
    let mut buffer = vec![MARK; 144];
    let answer = plan(&P1, &mut buffer);
    assert_eq!(answer, PlanAnswer { number: 0, place: 0, pieces: 3, runs: 4, end: 11, worst: -1 });
    assert_eq!(buffer, expected);
}

#[test]
fn p1_block_sheets() {
    let runs = [(18, 0, 0, 0, 1, 0), (18, 0, 1, 1, 3, 0), (18, 0, 0, 3, 6, 0)];
    let desk_0 = [&[(19, 0, 2, 0, 6, 0)][..], &runs].concat();
    expect_blocks(&P1, 3, 0, [1, 3, -1], &desk_0);
    expect_blocks(&P1, 3, 1, [1, 1, -1], &[(19, 1, 1, 8, 11, 0), (18, 1, 2, 8, 11, 0)]);
    expect_blocks(&P1, 3, 2, [0, 0, 0], &[]);
}

#[test]
fn p1_listing() {
    let text = "\
piece 0 desk 0 start 0 finish 6 latest 7 late -1
piece 1 desk 0 start 1 finish 3 latest 5 late -2
piece 2 desk 1 start 8 finish 11 latest 12 late -1
run desk 0 piece 0 from 0 until 1
run desk 0 piece 1 from 1 until 3
run desk 0 piece 0 from 3 until 6
run desk 1 piece 2 from 8 until 11
total pieces 3 runs 4 end 11 worst -1
";
    assert_eq!(String::from_utf8(listing(&P1)).unwrap(), text);
}

#[test]
fn p2_no_bytes() {
    expect_plan(&[], [0, 0, 0, 0], &[]);
    for desk in 0..=31 {
        expect_blocks(&[], 0, desk, [0, 0, 0], &[]);
    }
    assert_eq!(plan(&[], &mut []), PlanAnswer::default());
    assert_eq!(listing(&[]), b"total pieces 0 runs 0 end 0 worst 0\n");
}

#[test]
fn p3_latest_moments_below_zero_stay() {
    let file = sheet("0/3/0/0, 0/5/0/2; 0>1+0");
    let results = [(17, 0, 0, 0, 3, -3), (17, 0, 1, 3, 8, 2)];
    let runs = [(18, 0, 0, 0, 3, 0), (18, 0, 1, 3, 8, 0)];
    expect_plan(&file, [2, 2, 8, 6], &[results, runs].concat());
    let block_records = [(19, 0, 1, 0, 3, 0), (19, 0, 1, 3, 8, 0)];
    expect_blocks(&file, 2, 0, [2, 2, 6], &[block_records, runs].concat());
    let mut buffer = marked(2, 0);
    plan(&file, &mut buffer);
    assert_eq!(buffer[12..16], [0xFD, 0xFF, 0xFF, 0xFF]);
    let first = "piece 0 desk 0 start 0 finish 3 latest -3 late 6\n";
    assert!(listing(&file).starts_with(first.as_bytes()));
}

#[test]
fn p4_the_lower_number_interrupts_on_equality() {
    let file = sheet("0/1/1/9, 0/3/0/9");
    let results = [(17, 0, 0, 1, 2, 9), (17, 0, 1, 0, 4, 9)];
    let runs = [(18, 0, 1, 0, 1, 0), (18, 0, 0, 1, 2, 0), (18, 0, 1, 2, 4, 0)];
    expect_plan(&file, [2, 3, 4, -5], &[&results[..], &runs].concat());
    expect_blocks(&file, 2, 0, [1, 3, -5], &[&[(19, 0, 2, 0, 4, 0)][..], &runs].concat());
}

#[test]
fn p5_touching_blocks_stay_two() {
    let file = sheet("0/2/0/9, 0/1/2/9");
    let runs = [(18, 0, 0, 0, 2, 0), (18, 0, 1, 2, 3, 0)];
    let results = [(17, 0, 0, 0, 2, 9), (17, 0, 1, 2, 3, 9)];
    expect_plan(&file, [2, 2, 3, -6], &[results, runs].concat());
    let block_records = [(19, 0, 1, 0, 2, 0), (19, 0, 1, 2, 3, 0)];
    expect_blocks(&file, 2, 0, [2, 2, -6], &[block_records, runs].concat());
}

#[test]
fn p6_handover_on_one_desk_is_nothing() {
    let file = sheet("0/2/5/10, 0/1/0/30; 0>1+7");
    let runs = [(18, 0, 0, 5, 7, 0), (18, 0, 1, 7, 8, 0)];
    let results = [(17, 0, 0, 5, 7, 10), (17, 0, 1, 7, 8, 30)];
    expect_plan(&file, [2, 2, 8, -3], &[results, runs].concat());
    let block_records = [(19, 0, 1, 5, 7, 0), (19, 0, 1, 7, 8, 0)];
    expect_blocks(&file, 2, 0, [2, 2, -3], &[block_records, runs].concat());
    let text = String::from_utf8(listing(&file)).unwrap();
    let late: Vec<&str> = text.lines().filter_map(|line| line.split(" late ").nth(1)).collect();
    assert_eq!(late, ["-3", "-22"]);
}

#[test]
fn p7_ready_moments_from_another_desk() {
    let file = sheet("0/2/0/20, 1/1/0/20, 0/2/0/20, 0/5/0/50; 0>1+0, 1>2+1");
    let results =
        [(17, 0, 0, 0, 2, 16), (17, 1, 1, 2, 3, 17), (17, 0, 2, 4, 6, 20), (17, 0, 3, 2, 9, 50)];
    let runs_0 =
        [(18, 0, 0, 0, 2, 0), (18, 0, 3, 2, 4, 0), (18, 0, 2, 4, 6, 0), (18, 0, 3, 6, 9, 0)];
    let runs_1 = [(18, 1, 1, 2, 3, 0)];
    expect_plan(&file, [4, 5, 9, -14], &[&results[..], &runs_0, &runs_1].concat());
    let desk_0 = [&[(19, 0, 3, 0, 9, 0)][..], &runs_0].concat();
    expect_blocks(&file, 4, 0, [1, 4, -14], &desk_0);
    expect_blocks(&file, 4, 1, [1, 1, -14], &[&[(19, 1, 1, 2, 3, 0)][..], &runs_1].concat());
}

#[test]
fn p8_p9_p10_are_refused() {
    expect_refused(&sheet("0/1/0/0, 0/1/0/0, 0/1/0/0; 0>1+0, 1>2+0, 2>1+0"), 11, 1);
    expect_refused(&[0; 17], 2, 0);
    expect_refused(&[0; 15], 1, 0);
    expect_refused(&bytes(&[(1, 0, 1, 0, 0, 0)])[..15], 1, 0);
}
