//! The text form of job files. Every file, however odd, is made again from what is shown of it.

use crate::{P1_BYTES, P1_TEXT};
use desktools::make::make;
use desktools::show::show;

#[test]
fn the_first_sheet() {
    let text =
        "piece 0 desk 0 duration 4 release 0 due 20\npiece 1 desk 0 duration 2 release 1 due 5\n\
                piece 2 desk 1 duration 3 release 0 due 12\nlink 0 > 2 handover 2\n";
    assert_eq!(show(&P1_BYTES), text);
    assert_eq!(show(&make(P1_TEXT).unwrap()), text);
    assert_eq!(show(&[]), "");
}

#[test]
fn the_greatest_values() {
    let mut piece = [255; 16];
    piece[0] = 1;
    piece[12..].fill(0);
    let text = "piece 0 desk 255 duration 65535 release 4294967295 due 4294967295\n";
    assert_eq!(show(&piece), text);
    let link = [2, 0, 255, 255, 0, 1, 1, 2, 0, 0, 0, 0, 0, 0, 0, 0];
    assert_eq!(show(&link), "link 65535 > 256 handover 513\n");
}

#[test]
fn what_is_neither_piece_nor_link_is_shown_as_bytes() {
    let zeros = " 00".repeat(15);
    let unknown = format!("bytes 07{zeros}  # record 0 is of unknown kind 7\n");
    let mut record = [0; 16];
    record[0] = 7;
    assert_eq!(show(&record), unknown);
    let cut = "bytes 01 00 ff  # record 4 is cut short\n";
    assert!(show(&[&P1_BYTES[..], &[1, 0, 255]].concat()).ends_with(cut));
}

#[test]
fn bytes_that_should_be_zero_are_told() {
    let mut file = P1_BYTES;
    file[16 + 15] = 9;
    file[48 + 1] = 3;
    let text = show(&file);
    let lines: Vec<&str> = text.lines().collect();
    assert_eq!(
        lines[1],
        "bytes 01 00 02 00 01 00 00 00 05 00 00 00 00 00 00 09  \
         # record 1, piece 1 desk 0 duration 2 release 1 due 5, has bytes that should be zero"
    );
    // The piece shown as bytes still counts, so the next one keeps its number.
    assert_eq!(lines[2], "piece 2 desk 1 duration 3 release 0 due 12");
    assert_eq!(
        lines[3],
        "bytes 02 03 00 00 02 00 02 00 00 00 00 00 00 00 00 00  \
         # record 3, link 0 > 2 handover 2, has bytes that should be zero"
    );
}

/// Bytes from a plain counting rule, with kinds and zeros put in so that all ways of showing come.
fn mixed_file(seed: u32) -> Vec<u8> {
    let mut state = seed;
    let mut next = || {
        state = state.wrapping_mul(1_664_525).wrapping_add(1_013_904_223);
        (state >> 24) as u8
    };
    let mut file: Vec<u8> = (0..u32::from(next())).map(|_| next()).collect();
    for record in file.chunks_mut(16) {
        record[0] = [1, 1, 2, 2, record[0]][usize::from(next() % 5)];
        if next() % 4 > 0 {
            record.iter_mut().skip(12).for_each(|byte| *byte = 0);
        }
        if next() % 2 > 0 {
            record.iter_mut().skip(8).for_each(|byte| *byte = 0);
            record.iter_mut().skip(1).take(1).for_each(|byte| *byte = 0);
        }
    }
    file
}

#[test]
fn every_file_is_made_again_from_what_is_shown() {
    let (mut pieces, mut links, mut as_bytes) = (0, 0, 0);
    for seed in 0..5_000 {
        let file = mixed_file(seed);
        let text = show(&file);
        assert_eq!(make(&text).as_ref(), Ok(&file), "seed {seed}:\n{text}");
        pieces += text.lines().filter(|line| line.starts_with("piece")).count();
        links += text.lines().filter(|line| line.starts_with("link")).count();
        as_bytes += text.lines().filter(|line| line.starts_with("bytes")).count();
    }
    assert!(pieces > 1_000 && links > 1_000 && as_bytes > 1_000, "{pieces} {links} {as_bytes}");
}
