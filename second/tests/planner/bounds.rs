//! Every bound of the page from both sides. With them go the extreme plans it names: the last
//! moment there can be, the lowest latest moment and the most runs.

use crate::notation::{front_rows, link, marked, piece};
use crate::refusals::{accepted, refusal};
use second::{blocks, plan, read, PlanAnswer};

#[test]
fn duration() {
    assert!(accepted(&piece(0, 1, 0, 0)));
    assert!(accepted(&piece(0, 960, 0, 0)));
    for duration in [0, 961, 1 << 15, 65_535] {
        assert_eq!(refusal(&piece(0, duration, 0, 0)), (6, 0));
    }
    let mut buffer = marked(1, 0);
    let answer = plan(&piece(0, 960, 40_000, 40_000), &mut buffer);
    let numbers = PlanAnswer { number: 0, place: 0, pieces: 1, runs: 1, end: 40_960, worst: 960 };
    assert_eq!(answer, numbers);
}

#[test]
fn release_and_due() {
    assert!(accepted(&piece(0, 1, 40_000, 40_000)));
    for beyond in [40_001, 65_535, 65_536, 65_541, 1 << 31, u32::MAX] {
        assert_eq!(refusal(&piece(0, 1, beyond, 0)), (7, 0));
        assert_eq!(refusal(&piece(0, 1, 0, beyond)), (7, 0));
    }
}

#[test]
fn handover() {
    let two = [piece(0, 1, 0, 0), piece(1, 1, 0, 0)].concat();
    assert_eq!(refusal(&[&two[..], &link(0, 1, 481)].concat()), (10, 2));
    assert_eq!(refusal(&[&two[..], &link(0, 1, 65_535)].concat()), (10, 2));
    let mut buffer = marked(2, 0);
    let answer = plan(&[&two[..], &link(0, 1, 480)].concat(), &mut buffer);
    assert_eq!((answer.number, answer.end), (0, 482));
    let rows = front_rows(&buffer, 4);
    assert_eq!(rows[1], (17, 1, 1, 481, 482, 0));
}

#[test]
fn desks() {
    assert_eq!(refusal(&piece(32, 1, 0, 0)), (5, 0));
    let mut buffer = marked(1, 0);
    assert_eq!(plan(&piece(31, 1, 0, 0), &mut buffer).number, 0);
    assert_eq!(front_rows(&buffer, 2), [(17, 31, 0, 0, 1, 0), (18, 31, 0, 0, 1, 0)]);
    assert_eq!(blocks(&piece(31, 1, 0, 0), 31, &mut buffer).blocks, 1);
    assert_eq!(blocks(&piece(31, 1, 0, 0), 32, &mut buffer).number, 13);
}

#[test]
fn count_of_pieces() {
    let full = piece(0, 1, 0, 0).repeat(256);
    let mut buffer = marked(256, 9);
    let answer = plan(&full, &mut buffer);
    let numbers = PlanAnswer { number: 0, place: 0, pieces: 256, runs: 256, end: 256, worst: 256 };
    assert_eq!(answer, numbers);
    let rows = front_rows(&buffer, 512);
    assert_eq!(rows[255], (17, 0, 255, 255, 256, 0));
    assert_eq!(rows[511], (18, 0, 255, 255, 256, 0));
    assert_eq!(refusal(&piece(0, 1, 0, 0).repeat(257)), (4, 256));
    assert_eq!(refusal(&[full, link(256, 0, 0)].concat()), (9, 256));
}

#[test]
fn count_of_links() {
    let two = piece(0, 1, 0, 0).repeat(2);
    let full = [&two[..], &link(0, 1, 0).repeat(1024)].concat();
    assert!(accepted(&full));
    assert_eq!(read(&full).unwrap().links.len(), 1024);
    assert_eq!(refusal(&[&full[..], &link(0, 1, 0)].concat()), (4, 1026));
}

#[test]
fn the_fullest_file_and_one_record_more() {
    let pieces = piece(7, 1, 0, 0).repeat(256);
    let full = [&pieces[..], &link(254, 255, 480).repeat(1024)].concat();
    assert_eq!(full.len(), 20_480);
    assert!(accepted(&full));
    assert_eq!(refusal(&[&full[..], &[1; 15]].concat()), (1, 1280));
    assert_eq!(refusal(&[&full[..], &link(0, 1, 0)].concat()), (4, 1280));
    assert_eq!(refusal(&[&full[..], &piece(0, 1, 0, 0)].concat()), (3, 1280));
    assert_eq!(refusal(&[&full[..], &[0; 17]].concat()), (2, 1280));
    // Bytes left behind the deciding ones do not count any more.
    assert_eq!(refusal(&[&full[..], &link(0, 1, 0), &[1; 7]].concat()), (4, 1280));
}

#[test]
fn a_buffer_of_just_the_room_and_one_byte_less() {
    for count in [1, 2, 255, 256] {
        let file = piece(3, 2, 0, 0).repeat(count);
        let mut buffer = marked(count, 0);
        assert_eq!(plan(&file, &mut buffer).number, 0);
        assert_eq!(blocks(&file, 3, &mut buffer).number, 0);
        let untouched = vec![0x5A; 48 * count - 1];
        let mut short = untouched.clone();
        assert_eq!(plan(&file, &mut short), PlanAnswer { number: 12, ..PlanAnswer::default() });
        assert_eq!(blocks(&file, 3, &mut short).number, 12);
        assert_eq!(short, untouched);
    }
}

/// Piece 0 is released last and everything waits for it along one chain over two desks.
#[test]
fn the_last_moment_there_can_be() {
    let mut file = piece(0, 960, 40_000, 40_000);
    for number in 1..256 {
        file.extend(piece((number % 2) as u8, 960, 0, 0));
    }
    for number in 1..256 {
        file.extend(link(number - 1, number, 480));
    }
    let mut buffer = marked(256, 0);
    let answer = plan(&file, &mut buffer);
    assert_eq!((answer.number, answer.runs, answer.end), (0, 256, 408_160));
    let rows = front_rows(&buffer, 512);
    // The chain's last due is 0, so piece 0 should have been finished 255 x (960 + 480) slots before.
    assert_eq!(rows[0], (17, 0, 0, 40_000, 40_960, -367_200));
    assert_eq!(rows[255], (17, 1, 255, 407_200, 408_160, 0));
    assert_eq!(answer.worst, 408_160);
    let sheet = blocks(&file, 1, &mut buffer);
    assert_eq!((sheet.blocks, sheet.runs, sheet.worst), (128, 128, 408_160));
}

/// One desk, each piece interrupted by the next: 2m - 1 runs, so the records fill the buffer up
/// to one record.
#[test]
fn the_most_runs_there_can_be() {
    let file: Vec<u8> = (0..256).flat_map(|number| piece(9, 2, number, 40_000 - number)).collect();
    let mut buffer = marked(256, 0);
    let answer = plan(&file, &mut buffer);
    assert_eq!((answer.runs, answer.end), (511, 512));
    let rows = front_rows(&buffer, 767);
    assert_eq!(rows[256], (18, 9, 0, 0, 1, 0));
    assert_eq!(rows[511], (18, 9, 255, 255, 257, 0));
    assert_eq!(rows[512], (18, 9, 254, 257, 258, 0));
    assert_eq!(rows[766], (18, 9, 0, 511, 512, 0));
    let mut buffer = marked(256, 0);
    let sheet = blocks(&file, 9, &mut buffer);
    assert_eq!((sheet.blocks, sheet.runs), (1, 511));
    let sheet_rows = front_rows(&buffer, 512);
    assert_eq!(sheet_rows[0], (19, 9, 256, 0, 512, 0));
    assert_eq!(sheet_rows[1..], rows[256..]);
}
