//! The runs of one desk, over records of a plan and over bytes that are no plan at all. The call
//! refuses nothing, so odd bytes matter as much as good ones.

use crate::notation::{bytes, marked, sheet};
use second::{make, plan, runs};

#[test]
fn no_record_gives_the_empty_stretch_at_the_front() {
    assert_eq!(runs(&[], 0), (0, 0));
    assert_eq!(runs(&[18; 15], 18), (0, 0));
    assert_eq!(runs(&bytes(&[(17, 0, 0, 0, 1, 0), (18, 1, 0, 0, 1, 0)]), 0), (0, 0));
}

#[test]
fn the_desks_of_a_plan() {
    let file = sheet("0/4/0/20, 0/2/1/5, 1/3/0/12; 0>2+2");
    let mut buffer = marked(3, 0);
    let answer = plan(&file, &mut buffer);
    let written = &buffer[..16 * (answer.pieces + answer.runs) as usize];
    assert_eq!(runs(written, 0), (48, 96));
    assert_eq!(runs(written, 1), (96, 112));
    assert_eq!(runs(written, 2), (0, 0));
    assert_eq!(runs(written, 255), (0, 0));
}

#[test]
fn only_the_first_stretch_and_only_whole_records() {
    let run = |desk| (18, desk, 9, 1, 2, 3);
    let two_stretches = bytes(&[run(4), run(5), run(5), run(4), run(5)]);
    assert_eq!(runs(&two_stretches, 5), (16, 48));
    assert_eq!(runs(&two_stretches, 4), (0, 16));
    assert_eq!(runs(&two_stretches[..47], 5), (16, 32));
    assert_eq!(runs(&two_stretches[..31], 5), (0, 0));
    assert_eq!(runs(&two_stretches[..79], 5), (16, 48));
}

#[test]
fn another_kind_ends_the_stretch() {
    let rows = [(18, 3, 0, 0, 1, 0), (17, 3, 0, 0, 1, 0), (18, 3, 0, 0, 1, 0)];
    assert_eq!(runs(&bytes(&rows), 3), (0, 16));
    assert_eq!(runs(&bytes(&rows[1..]), 3), (16, 32));
}

#[test]
fn every_desk_byte_can_be_asked_for() {
    let rows: Vec<_> = (0..=255).map(|desk| (18, desk, 0, 0, 0, 0)).collect();
    for desk in 0..=255u8 {
        let first = 16 * u64::from(desk);
        assert_eq!(runs(&bytes(&rows), desk), (first, first + 16));
    }
}

#[test]
fn records_count_from_the_front_of_the_slice() {
    // One byte further on the same bytes show no whole record that fits.
    let mut shifted = vec![0];
    shifted.extend(bytes(&[(18, 18, 18, 0, 0, 0); 3]));
    assert_eq!(runs(&shifted, 18), (0, 0));
    assert_eq!(runs(&shifted[1..], 18), (0, 48));
}

/// Decides by the rule's words whether a stretch is the right one, for random bytes.
#[test]
fn random_bytes() {
    let (mut empty, mut long, mut second_stretch) = (0, 0, 0);
    for index in 0..50_000 {
        let (records, desk) = make::records(11, index);
        let (first, past) = runs(&records, desk);
        let whole = records.len() as u64 / 16;
        let wanted = |place: u64| records[16 * place as usize..].starts_with(&[18, desk]);
        assert!(first % 16 == 0 && past % 16 == 0 && first <= past && past <= 16 * whole);
        let (first, past) = (first / 16, past / 16);
        assert!((first..past).all(wanted), "index {index}");
        if first == past {
            assert!(first == 0 && !(0..whole).any(wanted), "index {index}");
            empty += 1;
        } else {
            assert!(!(0..first).any(wanted), "index {index}");
            assert!(past == whole || !wanted(past), "index {index}");
            long += u64::from(past - first > 1);
            second_stretch += u64::from((past..whole).any(wanted));
        }
    }
    assert!(empty > 1000 && long > 1000 && second_stretch > 1000);
}
