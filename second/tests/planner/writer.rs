//! The writer of job files. Expectations are worked out by hand from the tables of the job file and of the
//! refusals, or the reader, which is older than the writer, judges what was written.

use second::make::{file, form};
use second::write::typed;
use second::{read, write, Refusal, WriteAnswer};

/// The first sheet of the rules page, as typed and as the page has its bytes.
const PIECES: [u32; 12] = [0, 4, 0, 20, 0, 2, 1, 5, 1, 3, 0, 12];
const LINKS: [u32; 3] = [0, 2, 2];
const P1: [u8; 64] = [
    1, 0, 4, 0, 0, 0, 0, 0, 0x14, 0, 0, 0, 0, 0, 0, 0, //
    1, 0, 2, 0, 1, 0, 0, 0, 0x05, 0, 0, 0, 0, 0, 0, 0, //
    1, 1, 3, 0, 0, 0, 0, 0, 0x0C, 0, 0, 0, 0, 0, 0, 0, //
    2, 0, 0, 0, 2, 0, 2, 0, 0, 0, 0, 0, 0, 0, 0, 0,
];

fn written(bytes: i64) -> WriteAnswer {
    WriteAnswer { bytes, ..WriteAnswer::default() }
}

fn refused(number: i64, place: i64) -> WriteAnswer {
    WriteAnswer { number, place, bytes: 0 }
}

/// The answer with room enough; a refusal leaves every byte.
fn answer(pieces: &[u32], links: &[u32]) -> WriteAnswer {
    let mut buffer = vec![0xA5; 30_000];
    let answer = write(pieces, links, &mut buffer);
    assert!(buffer[answer.bytes as usize..].iter().all(|&byte| byte == 0xA5));
    answer
}

#[test]
fn the_first_sheet() {
    let mut buffer = [0xA5; 70];
    assert_eq!(write(&PIECES, &LINKS, &mut buffer), written(64));
    assert_eq!((&buffer[..64], &buffer[64..]), (&P1[..], &[0xA5; 6][..]));
    let mut just = [0xA5; 64];
    assert_eq!((write(&PIECES, &LINKS, &mut just), just), (written(64), P1));
    let mut short = [0xA5; 63];
    assert_eq!((write(&PIECES, &LINKS, &mut short), short), (refused(14, 0), [0xA5; 63]));
    assert_eq!(write(&[], &[], &mut []), written(0));
}

#[test]
fn every_field_has_its_bytes() {
    let mut buffer = [0xA5; 48];
    assert_eq!(
        write(&[31, 0x0102, 0x0304, 0x0506, 0, 1, 0, 0], &[1, 0, 0x0107], &mut buffer),
        written(48)
    );
    let expected = [
        [1, 31, 2, 1, 4, 3, 0, 0, 6, 5, 0, 0, 0, 0, 0, 0],
        [1, 0, 1, 0, 0, 0, 0, 0, 0, 0, 0, 0, 0, 0, 0, 0],
        [2, 0, 1, 0, 0, 0, 7, 1, 0, 0, 0, 0, 0, 0, 0, 0],
    ];
    assert_eq!(buffer[..], expected.concat());
}

#[test]
fn values_at_their_bounds_and_beyond() {
    assert_eq!(answer(&[31, 960, 40_000, 40_000, 0, 1, 0, 0], &[1, 0, 480]), written(48));
    for desk in [32, 255, 256, 65_536, u32::MAX] {
        assert_eq!(answer(&[0, 1, 0, 0, desk, 0, 0, 0], &[]), refused(5, 1));
    }
    for duration in [0, 961, 65_536, 65_537, u32::MAX] {
        assert_eq!(answer(&[0, duration, 40_001, 0], &[]), refused(6, 0));
    }
    for moment in [40_001, 1 << 16, u32::MAX] {
        assert_eq!(answer(&[0, 1, moment, 0], &[9, 9, 9]), refused(7, 0));
        assert_eq!(answer(&[0, 1, 0, moment], &[]), refused(7, 0));
    }
    for number in [1, 255, 65_536, u32::MAX] {
        assert_eq!(answer(&[0, 1, 0, 0], &[number, 0, 481]), refused(9, 1));
        assert_eq!(answer(&[0, 1, 0, 0], &[0, 0, 0, 0, number, 0]), refused(9, 2));
    }
    for handover in [481, 65_536, u32::MAX] {
        assert_eq!(answer(&[0, 1, 0, 0], &[0, 0, handover, 1, 1, 1]), refused(10, 1));
    }
}

#[test]
fn counts_and_rows_cut_short() {
    let (full, links) = ([0, 1, 0, 0].repeat(256), [255, 0, 0].repeat(1024));
    assert_eq!(answer(&full, &links), written(20_480));
    assert_eq!(answer(&[&full[..], &[99, 0, 0, 0]].concat(), &links), refused(4, 256));
    assert_eq!(answer(&full, &[&links[..], &[256, 0, 0]].concat()), refused(4, 1280));
    // Numbers left behind the whole rows come last, as bytes left do in a file.
    assert_eq!(answer(&[0, 1, 0, 0, 0], &[0, 0, 0]), refused(1, 2));
    assert_eq!(answer(&[0, 1, 0, 0], &[0, 0, 0, 9, 9]), refused(1, 2));
    assert_eq!(answer(&[0, 1, 0, 0, 7, 7, 7], &[1, 0, 0]), refused(9, 1));
    assert_eq!(write(&[0, 1, 0, 0, 0], &[], &mut []), refused(1, 1));
}

/// Faults have their say before 14, and a ring none: a ring is no fault of a record.
#[test]
fn what_is_judged_last_and_what_is_not() {
    assert_eq!(write(&[32, 0, 0, 0], &[], &mut []), refused(5, 0));
    assert_eq!(write(&[0, 1, 0, 0], &[], &mut [7; 15]), refused(14, 0));
    assert_eq!(answer(&[0, 1, 0, 0], &[0, 0, 0]), written(32));
}

#[test]
fn what_the_reader_reads_is_written_to_the_same_bytes() {
    let mut read_and_written = 0;
    for index in 0..5_000 {
        let file = file(21, index);
        let Ok(job) = read(&file) else { continue };
        let (pieces, links) = typed(&job);
        let mut buffer = vec![0xA5; file.len()];
        assert_eq!(write(&pieces, &links, &mut buffer), written(file.len() as i64));
        assert_eq!(buffer, file, "index {index}");
        read_and_written += 1;
    }
    assert!(read_and_written > 2_000);
}

#[test]
fn what_was_written_is_read_and_what_was_refused_is_refused_by_the_reader() {
    let mut numbers = std::collections::BTreeMap::new();
    for index in 0..5_000 {
        let form = form(22, index);
        let mut buffer = form.buffer.clone();
        let answer = write(&form.pieces, &form.links, &mut buffer);
        *numbers.entry(answer.number).or_insert(0) += 1;
        assert_eq!(buffer[answer.bytes as usize..], form.buffer[answer.bytes as usize..]);
        match answer.number {
            0 => {
                let job = read(&buffer[..answer.bytes as usize]).expect("what was written is read");
                assert_eq!(typed(&job), (form.pieces, form.links), "index {index}");
            }
            1 | 14 => {}
            number => {
                let expected = Err(Refusal { number, place: answer.place });
                assert_eq!(read(&as_records(&form.pieces, &form.links)), expected, "index {index}");
            }
        }
    }
    assert!(
        [0, 1, 4, 5, 6, 7, 9, 10, 14].iter().all(|number| numbers.contains_key(number)),
        "{numbers:?}"
    );
}

/// The whole rows as records, without a judgement; a number too large for its field is the largest of the field.
fn as_records(pieces: &[u32], links: &[u32]) -> Vec<u8> {
    let half = |number: u32| (number.min(65_535) as u16).to_le_bytes();
    let pieces = pieces.chunks_exact(4).map(|row| {
        let head = [&[1, row[0].min(255) as u8][..], &half(row[1])].concat();
        [&head[..], &row[2].to_le_bytes(), &row[3].to_le_bytes(), &[0; 4]].concat()
    });
    let links = links
        .chunks_exact(3)
        .map(|row| [&[2, 0][..], &half(row[0]), &half(row[1]), &half(row[2]), &[0; 8]].concat());
    pieces.chain(links).flatten().collect()
}
