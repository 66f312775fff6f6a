//! Wrong calls, each close to the right one, and that the comparison finds every one of them. Among them are
//! those that the rules page says must not pass.

use crate::compared;
use desk::raw::{self, BlockAnswer, PlanAnswer, WriteAnswer};
use outside::calls::{Blocks, Calls, Listing, Plan, Runs, Write, PROVED};

#[test]
fn the_proved_calls_pass() {
    let tally = compared(PROVED, 7, 5_000).unwrap_or_else(|difference| panic!("\n{difference}"));
    assert_eq!((tally.passed, tally.failed), (5_000, 0));
    assert!(tally.accepted() > 2_000, "{tally}");
    assert!((0..=11).all(|number| tally.by_number.contains_key(&number)), "{tally}");
    assert!(tally.full > 10 && tally.sheets > 5_000 && tally.stretches > 5_000, "{tally}");
    assert!(tally.rewritten > 2_000, "{tally}");
    let numbers = [0, 1, 4, 5, 6, 7, 9, 10, 14];
    assert!(numbers.iter().all(|number| tally.forms.contains_key(number)), "{tally}");
}

#[test]
fn wrong_plans_are_found() {
    let wrong: [Plan; 8] = [
        // Refuses everything.
        |_, _| PlanAnswer { number: 2, ..PlanAnswer::default() },
        // Answers rightly and writes nothing.
        |file, buffer| raw::plan(file, &mut buffer.to_vec()),
        // Counts a run too many.
        |file, buffer| {
            let answer = raw::plan(file, buffer);
            PlanAnswer { runs: answer.runs + i64::from(answer.number == 0), ..answer }
        },
        // Leaves numbers in the answer of a refusal.
        |file, buffer| {
            let answer = raw::plan(file, buffer);
            PlanAnswer { end: answer.end.max(answer.number), ..answer }
        },
        // Clears what stands behind the records.
        |file, buffer| {
            let answer = raw::plan(file, buffer);
            buffer[answer.written()..].fill(0);
            answer
        },
        // Lists the first run of a piece and forgets that it was taken up again.
        |file, buffer| {
            let answer = raw::plan(file, buffer);
            let last = answer.written();
            if answer.runs > answer.pieces {
                buffer[last - 16..last].fill(0);
            }
            answer
        },
        // Refuses a short buffer before it looks at the file.
        |file, buffer| match buffer.len() < 48 {
            true => PlanAnswer { number: 12, ..PlanAnswer::default() },
            false => raw::plan(file, buffer),
        },
        // Does not look at the last byte.
        |file, buffer| raw::plan(&file[..file.len().saturating_sub(1)], buffer),
    ];
    for (place, plan) in wrong.into_iter().enumerate() {
        assert!(compared(Calls { plan, ..PROVED }, 7, 500).is_err(), "wrong plan {place} passed");
    }
}

#[test]
fn wrong_block_sheets_are_found() {
    let wrong: [Blocks; 4] = [
        // Has no desk without pieces.
        |file, desk, buffer| raw::blocks(file, desk % 32, buffer),
        // Asks no room where there is nothing to write.
        |file, desk, buffer| {
            let answer = raw::blocks(file, desk, buffer);
            let there = raw::blocks(file, desk, &mut vec![0; 48 * 260]);
            if there.blocks == 0 && there.number == 0 {
                there
            } else {
                answer
            }
        },
        // Counts runs as blocks.
        |file, desk, buffer| {
            let answer = raw::blocks(file, desk, buffer);
            BlockAnswer { blocks: answer.runs, ..answer }
        },
        // Gives the whole plan's worst lateness.
        |file, desk, buffer| {
            let answer = raw::blocks(file, desk, buffer);
            let worst = raw::plan(file, &mut vec![0; 48 * 260]).worst;
            BlockAnswer { worst: if answer.blocks > 0 { worst } else { answer.worst }, ..answer }
        },
    ];
    for (place, blocks) in wrong.into_iter().enumerate() {
        let calls = Calls { blocks, ..PROVED };
        assert!(compared(calls, 7, 1_500).is_err(), "wrong sheet {place} passed");
    }
}

#[test]
fn wrong_runs_are_found() {
    let wrong: [Runs; 3] = [
        // Always the empty stretch.
        |records, _| &records[..0],
        // The right bytes without their first record.
        |records, desk| raw::runs(records, desk).get(16..).unwrap_or(&records[..0]),
        // The empty stretch at the back.
        |records, desk| match raw::runs(records, desk) {
            [] => &records[records.len()..],
            stretch => stretch,
        },
    ];
    for (place, runs) in wrong.into_iter().enumerate() {
        assert!(compared(Calls { runs, ..PROVED }, 7, 500).is_err(), "wrong runs {place} passed");
    }
}

#[test]
fn wrong_listings_are_found() {
    let wrong: [Listing; 2] = [
        // No newline at the end.
        |file, text| raw::listing(file, text).strip_suffix(b"\n").unwrap_or_default(),
        // As long as the listing, and something else.
        |file, text| {
            let length = raw::listing(file, text).len();
            text[..length].fill(b'0');
            &text[..length]
        },
    ];
    for (place, listing) in wrong.into_iter().enumerate() {
        let calls = Calls { listing, ..PROVED };
        assert!(compared(calls, 7, 100).is_err(), "wrong listing {place} passed");
    }
}

#[test]
fn wrong_writers_are_found() {
    let wrong: [Write; 8] = [
        // Refuses everything.
        |_, _, _| WriteAnswer { number: 14, ..WriteAnswer::default() },
        // Answers rightly and writes nothing.
        |pieces, links, buffer| raw::write(pieces, links, &mut buffer.to_vec()),
        // Writes what room there is.
        |pieces, links, buffer| {
            let mut room = vec![0; desk::FILE_ROOM];
            if raw::write(pieces, links, buffer).number == 14 {
                let _ = raw::write(pieces, links, &mut room);
                buffer.copy_from_slice(&room[..buffer.len()]);
            }
            raw::write(pieces, links, buffer)
        },
        // Clears what stands behind the file.
        |pieces, links, buffer| {
            let answer = raw::write(pieces, links, buffer);
            if answer.number == 0 {
                buffer[answer.written()..].fill(0);
            }
            answer
        },
        // Cuts numbers to their fields.
        |pieces, links, buffer| {
            let cut = |number: &u32| number & 0xFFFF;
            let links: Vec<u32> = links.iter().map(cut).collect();
            raw::write(pieces, &links, buffer)
        },
        // Judges the room first.
        |pieces, links, buffer| match buffer.len() < 4 * pieces.len() {
            true => WriteAnswer { number: 14, ..WriteAnswer::default() },
            false => raw::write(pieces, links, buffer),
        },
        // Passes over a row cut short.
        |pieces, links, buffer| {
            let whole = pieces.len() / 4 * 4;
            raw::write(&pieces[..whole], &links[..links.len() / 3 * 3], buffer)
        },
        // Counts records from 1.
        |pieces, links, buffer| {
            let answer = raw::write(pieces, links, buffer);
            let one = i64::from((2..=10).contains(&answer.number));
            WriteAnswer { place: answer.place + one, ..answer }
        },
    ];
    for (place, write) in wrong.into_iter().enumerate() {
        let calls = Calls { write, ..PROVED };
        assert!(compared(calls, 7, 1_500).is_err(), "wrong writer {place} passed");
    }
}
