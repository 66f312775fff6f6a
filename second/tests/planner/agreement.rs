//! Whether the calls agree with each other and with themselves on random files. Compared are a file
//! and its front, the reader and the ring check, the plan and the runs call, and the plan and its
//! listing.

use crate::checks::Facts;
use crate::notation::{rows, Row};
use crate::properties::each_case;
use second::make::Case;
use second::{blocks, listing, plan, read, runs, PlanAnswer, Refusal};

/// A refusal of a record depends on this record and those before it, and on nothing behind.
#[test]
fn a_refusal_comes_from_the_first_bad_record() {
    each_case(4, 40_000, |Case { file, .. }| {
        let Err(Refusal { number, place }) = read(&file) else { return };
        let before = 16 * place as usize;
        assert!(read(&file[..before]).is_ok());
        if number == 1 {
            assert_eq!(before, file.len() / 16 * 16);
        } else {
            assert_eq!(read(&file[..before + 16]), Err(Refusal { number, place }));
        }
    });
}

#[test]
fn the_deciding_bytes_decide() {
    let mut long = 0;
    each_case(5, 40_000, |Case { file, desk, buffer }| {
        let Some(deciding) = file.get(..20_496) else { return };
        let (mut of_all, mut of_front) = (buffer.clone(), buffer);
        assert_eq!(plan(&file, &mut of_all), plan(deciding, &mut of_front));
        assert_eq!(blocks(&file, desk, &mut of_all), blocks(deciding, desk, &mut of_front));
        assert_eq!(listing(&file), listing(deciding));
        assert_eq!(of_all, of_front);
        long += 1;
    });
    assert!(long > 100, "only {long}");
}

/// Rings by stepping: from a piece, all pieces one link on, two links on and so forth. Whoever
/// comes back does so within as many links as there are pieces.
#[test]
fn a_ring_is_refused_exactly_if_a_piece_leads_back_to_itself() {
    let (mut with, mut without) = (0, 0);
    each_case(6, 15_000, |Case { file, .. }| {
        if read(&file).is_err() || file.len() > 16 * 100 {
            return;
        }
        let facts = Facts::of(&file);
        let count = facts.pieces.len();
        let comes_back = |piece: usize| {
            let mut now = vec![false; count];
            now[piece] = true;
            (0..count).any(|_| {
                let mut next = vec![false; count];
                facts.links.iter().for_each(|link| next[link.1] |= now[link.0]);
                now = next;
                now[piece]
            })
        };
        let answer = plan(&file, &mut vec![0; 48 * count]);
        match (0..count).find(|&piece| comes_back(piece)) {
            Some(piece) => {
                assert_eq!((answer.number, answer.place), (11, piece as i64));
                with += 1;
            }
            None => {
                assert_eq!((answer.number, answer.place), (0, 0));
                without += 1;
            }
        }
    });
    assert!(with > 200 && without > 5_000, "{with} with a ring, {without} without");
}

#[test]
fn the_runs_call_finds_the_runs_of_each_desk() {
    each_case(7, 5_000, |Case { file, .. }| {
        let mut buffer = vec![0; 48 * (file.len() / 16)];
        let answer = plan(&file, &mut buffer);
        let written = &buffer[..16 * (answer.pieces + answer.runs) as usize];
        for desk in 0..=255u8 {
            let (first, past) = runs(written, desk);
            let own = |row: &&Row| row.0 == 18 && row.1 == desk;
            let all = rows(written);
            let stretch = rows(&written[first as usize..past as usize]);
            assert!(stretch.iter().eq(all.iter().filter(own)), "desk {desk}");
        }
    });
}

#[test]
fn the_listing_says_what_the_records_say() {
    each_case(8, 6_000, |Case { file, .. }| {
        let mut buffer = vec![0; 48 * (file.len() / 16)];
        let answer = plan(&file, &mut buffer);
        let text = String::from_utf8(listing(&file)).unwrap();
        let mut expected = String::new();
        for (kind, desk, piece, a, b, c) in
            rows(&buffer[..16 * (answer.pieces + answer.runs) as usize])
        {
            expected += &match kind {
                17 => format!(
                    "piece {piece} desk {desk} start {a} finish {b} latest {c} late {}\n",
                    b - c
                ),
                _ => format!("run desk {desk} piece {piece} from {a} until {b}\n"),
            };
        }
        let PlanAnswer { number, place, pieces, runs, end, worst } = answer;
        expected += &match number {
            0 => format!("total pieces {pieces} runs {runs} end {end} worst {worst}\n"),
            _ => format!("refused {number} at {place}\n"),
        };
        assert_eq!(text, expected);
    });
}
