//! The runs of one desk over all bytes: only the first two bytes of whole records count, and only the first
//! stretch of a desk is given.

use desk::raw::runs;

fn record(kind: u8, desk: u8) -> Vec<u8> {
    let mut record = vec![0xEE; 16];
    record[..2].copy_from_slice(&[kind, desk]);
    record
}

/// First byte and byte after the last.
fn stretch(records: &[u8], desk: u8) -> (usize, usize) {
    let part = runs(records, desk);
    let first = part.as_ptr() as usize - records.as_ptr() as usize;
    (first, first + part.len())
}

#[test]
fn the_first_stretch_of_the_desk() {
    let bytes = [(17, 4), (18, 3), (18, 4), (18, 4), (18, 5), (18, 4)];
    let bytes: Vec<u8> = bytes.iter().flat_map(|&(kind, desk)| record(kind, desk)).collect();
    assert_eq!(stretch(&bytes, 3), (16, 32));
    assert_eq!(stretch(&bytes, 4), (32, 64));
    assert_eq!(stretch(&bytes, 5), (64, 80));
    assert_eq!(stretch(&bytes, 6), (0, 0));
    assert_eq!(stretch(&bytes, 18), (0, 0));
}

#[test]
fn every_desk_of_one_byte() {
    for desk in 0..=255 {
        let bytes = [record(19, desk), record(18, desk), record(18, desk.wrapping_add(1))].concat();
        assert_eq!(stretch(&bytes, desk), (16, 32));
        assert_eq!(stretch(&bytes, desk.wrapping_add(1)), (32, 48));
        assert_eq!(stretch(&bytes, desk.wrapping_add(2)), (0, 0));
    }
}

#[test]
fn a_record_cut_short_is_no_record() {
    let bytes = [record(18, 0), record(18, 0)].concat();
    assert_eq!(stretch(&bytes, 0), (0, 32));
    assert_eq!(stretch(&bytes[..31], 0), (0, 16));
    assert_eq!(stretch(&bytes[..15], 0), (0, 0));
    assert_eq!(stretch(&[], 0), (0, 0));
    // Records stand at multiples of 16 bytes: bytes of a run elsewhere are none.
    assert_eq!(stretch(&[&[7][..], &bytes].concat(), 0), (0, 0));
}

#[test]
fn more_records_than_any_plan_has() {
    let bytes = [record(17, 9).repeat(5_000), record(18, 9).repeat(70_000)].concat();
    assert_eq!(stretch(&bytes, 9), (80_000, 1_200_000));
}
