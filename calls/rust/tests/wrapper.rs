//! What the safe functions add to the library: refusals that cannot be overlooked, records as values, parts of the
//! caller's own slice, and slices without bytes. What the library itself answers is tested in the package `outside`.

use desk::{
    Block, Fault, PieceResult, Record, Records, Refusal, blocks, listing, plan, runs, write,
};
use desk::{LISTING_ROOM, ROOM, Run};

fn piece(desk: u8, duration: u8, release: u8, due: u8) -> Vec<u8> {
    vec![1, desk, duration, 0, release, 0, 0, 0, due, 0, 0, 0, 0, 0, 0, 0]
}

/// The first sheet of the rules page.
fn p1() -> Vec<u8> {
    let link = vec![2, 0, 0, 0, 2, 0, 2, 0, 0, 0, 0, 0, 0, 0, 0, 0];
    [piece(0, 4, 0, 20), piece(0, 2, 1, 5), piece(1, 3, 0, 12), link].concat()
}

fn refused<T: std::fmt::Debug>(fault: Fault, place: u64) -> Result<T, Refusal> {
    Err(Refusal { fault, place })
}

#[test]
fn slices_without_bytes() {
    let empty = plan(&[], &mut []).unwrap();
    assert_eq!((empty.pieces(), empty.end(), empty.worst()), (0, 0, 0));
    assert_eq!((empty.results().count(), empty.runs().count()), (0, 0));
    let sheet = blocks(&[], 31, &mut []).unwrap();
    assert_eq!((sheet.blocks().count(), sheet.runs().count(), sheet.worst()), (0, 0, 0));
    assert_eq!(blocks(&[], 32, &mut []), refused(Fault::AskedDesk, 0));
    assert_eq!(runs(&[], 0).next(), None);
    assert_eq!(write(&[], &[], &mut []), Ok(&[][..]));
    assert_eq!(plan(&p1(), &mut []), refused(Fault::BufferTooShort, 0));
}

/// The third sheet of the rules page: the latest moment of piece 0 lies below zero, and both are late by six.
#[test]
fn records_as_values() {
    let mut buffer = [0xFF; ROOM];
    let link = vec![2, 0, 0, 0, 1, 0, 0, 0, 0, 0, 0, 0, 0, 0, 0, 0];
    let file = [piece(0, 3, 0, 0), piece(0, 5, 0, 2), link].concat();
    let worked = [
        Run { desk: 0, piece: 0, from: 0, until: 3 },
        Run { desk: 0, piece: 1, from: 3, until: 8 },
    ];
    let plan = plan(&file, &mut buffer).unwrap();
    assert_eq!((plan.pieces(), plan.end(), plan.worst()), (2, 8, 6));
    let results: Vec<PieceResult> = plan.results().collect();
    let first = PieceResult { desk: 0, piece: 0, start: 0, finish: 3, latest: -3 };
    let second = PieceResult { desk: 0, piece: 1, start: 3, finish: 8, latest: 2 };
    assert_eq!(results, [first, second]);
    assert_eq!([first.lateness(), second.lateness()], [6, 6]);
    assert!(plan.runs().eq(worked));
    assert!(plan.runs_of(0).eq(worked));
    let sheet = blocks(&file, 0, &mut buffer).unwrap();
    // The raised ready moment of piece 1 is 3, so two blocks touch there.
    let cut = [
        Block { desk: 0, pieces: 1, from: 0, end: 3 },
        Block { desk: 0, pieces: 1, from: 3, end: 8 },
    ];
    assert!(sheet.blocks().eq(cut));
    assert!(sheet.runs().eq(worked));
    assert_eq!(sheet.worst(), 6);
}

#[test]
fn records_end_at_the_first_of_another_kind_and_before_one_cut_short() {
    let bytes = [18, 7, 1, 1, 0, 0, 1, 0, 0, 0, 0, 1, 0, 0, 0, 0];
    let run = Run { desk: 7, piece: 257, from: 65_536, until: 1 << 24 };
    let of = |bytes: &[u8]| Records::<Run>::of(bytes).collect::<Vec<_>>();
    assert_eq!(of(&[bytes, bytes].concat()), [run, run]);
    assert_eq!(of(&[&bytes[..], &bytes[..15]].concat()), [run]);
    assert_eq!(of(&[]), []);
    let mixed = [bytes, [0; 16], bytes].concat();
    let mut mixed = Records::<Run>::of(&mixed);
    assert_eq!([mixed.next(), mixed.next(), mixed.next()], [Some(run), None, None]);
}

/// Each kind reads its own records alone, and any bytes at all: the greatest lateness is no overflow.
#[test]
fn every_kind_reads_its_own() {
    for kind in 0..=u8::MAX {
        let mut bytes = [0xFF; 16];
        bytes[0] = kind;
        bytes[15] = 0x80;
        let result = PieceResult {
            desk: 255,
            piece: 65_535,
            start: u32::MAX,
            finish: u32::MAX,
            latest: -2_130_706_433,
        };
        assert_eq!(PieceResult::read(&bytes), (kind == 17).then_some(result));
        assert_eq!(result.lateness(), 4_294_967_295 + 2_130_706_433);
        assert_eq!(Run::read(&bytes).is_some(), kind == 18);
        assert_eq!(Block::read(&bytes).is_some(), kind == 19);
    }
}

#[test]
fn runs_are_a_part_of_the_callers_slice() {
    let mut buffer = [0; ROOM];
    let lent = buffer.as_ptr();
    let planned = plan(&p1(), &mut buffer).unwrap();
    assert_eq!(planned.results().bytes().as_ptr(), lent);
    assert_eq!(planned.runs_of(1).map(|run| run.piece).collect::<Vec<_>>(), [2]);
    // Three results, three runs of desk 0 and one of desk 1.
    let written = &buffer[..112];
    assert_eq!(runs(written, 0).bytes().as_ptr_range(), written[48..96].as_ptr_range());
    assert_eq!(runs(written, 1).bytes().as_ptr_range(), written[96..112].as_ptr_range());
    assert_eq!(runs(written, 2).bytes().as_ptr_range(), written[..0].as_ptr_range());
    assert_eq!(runs(written, 255).bytes().as_ptr_range(), written[..0].as_ptr_range());
}

#[test]
fn the_listing_is_the_text_alone() {
    let mut text = vec![0xFF; LISTING_ROOM].try_into().expect("as long as the room");
    assert_eq!(listing(&[], &mut text), Ok("total pieces 0 runs 0 end 0 worst 0\n"));
    assert_eq!(listing(&[0; 17], &mut text), refused(Fault::UnknownKind, 0));
    let ring = [2, 0, 0, 0, 0, 0, 0, 0, 0, 0, 0, 0, 0, 0, 0, 0];
    assert_eq!(
        listing(&[piece(0, 1, 0, 0), ring.to_vec()].concat(), &mut text),
        refused(Fault::Ring, 0)
    );
    let lines = listing(&p1(), &mut text).unwrap();
    assert_eq!(lines.lines().next_back(), Some("total pieces 3 runs 4 end 11 worst -1"));
}

#[test]
fn a_file_is_made_of_typed_rows() {
    let mut room = [0xFF; 70];
    let rows = [[0, 4, 0, 20], [0, 2, 1, 5], [1, 3, 0, 12]];
    assert_eq!(write(&rows, &[[0, 2, 2]], &mut room), Ok(&p1()[..]));
    assert_eq!(room[64..], [0xFF; 6]);
    assert_eq!(write(&[[0, 4, 0, 20], [300, 2, 1, 5]], &[], &mut room), refused(Fault::Desk, 1));
    assert_eq!(write(&rows, &[[0, 2, 2]], &mut [0; 63]), refused(Fault::NoRoomForFile, 0));
}
