//! Listings as `deskplan` prints them, and listings that it does not print. Of the latter each has
//! one thing changed, and what is said about it is expected to the letter.

use crate::{planned, P1_LISTING};
use desktools::listing::{read, Listing};
use desktools::plan::{Piece, Plan, Run};

#[test]
fn the_first_sheet() {
    let piece = |desk, start, finish, latest, late| Piece { desk, start, finish, latest, late };
    let run = |desk, piece, from, until| Run { desk, piece, from, until };
    let expected = Plan {
        pieces: vec![piece(0, 0, 6, 7, -1), piece(0, 1, 3, 5, -2), piece(1, 8, 11, 12, -1)],
        runs: vec![run(0, 0, 0, 1), run(0, 1, 1, 3), run(0, 0, 3, 6), run(1, 2, 8, 11)],
        end: 11,
        worst: -1,
    };
    assert_eq!(planned(P1_LISTING), expected);
    assert_eq!(expected.desks(), [0, 1]);
}

#[test]
fn no_pieces_and_refusals() {
    assert_eq!(planned("total pieces 0 runs 0 end 0 worst 0\n"), Plan::default());
    assert_eq!(read("refused 2 at 0\n"), Ok(Listing::Refused { number: 2, place: 0 }));
    assert_eq!(read("refused 11 at 255"), Ok(Listing::Refused { number: 11, place: 255 }));
}

#[test]
fn fields_added_later_do_no_harm() {
    let text = "piece 0 desk 0 start 0 finish 2 latest 1 late 1 own 4\n\
                run desk 0 piece 0 from 0 until 2 worked 2\n\
                total pieces 1 runs 1 end 2 worst 1 hours 0\n";
    let plan = planned(text);
    assert_eq!((plan.pieces.len(), plan.runs.len()), (1, 1));
    assert!(plan.late(0));
}

#[test]
fn mistakes_are_told() {
    let told = |text: &str| read(text).unwrap_err().to_string();
    let changed = |from: &str, to: &str| {
        let text = P1_LISTING.replacen(from, to, 1);
        assert_ne!(text, P1_LISTING);
        told(&text)
    };
    assert_eq!(told(""), "the listing is cut short: it has no line 'total'");
    let (front, _) = P1_LISTING.split_at(P1_LISTING.find("total").unwrap());
    assert_eq!(told(front), "the listing is cut short: it has no line 'total'");
    assert_eq!(
        told("hello there\n"),
        "line 1: 'hello there' is no line of a listing (piece, run, total, refused)"
    );
    assert_eq!(changed("piece 1 desk", "piece 2 desk"), "line 2: piece 1 should stand here");
    assert_eq!(changed(" finish 6", ""), "line 1: the line has no finish");
    assert_eq!(changed("start 0", "start zero"), "line 1: start 'zero' is not a whole number");
    assert_eq!(
        changed("latest 7 late -1", "latest 7 late 1"),
        "line 1: late is not the finish less the latest moment"
    );
    assert_eq!(
        changed("start 8 finish 11", "start 11 finish 11"),
        "line 3: desk and start are not below 0, and the finish is after the start"
    );
    assert_eq!(
        changed("piece 2 from", "piece 3 from"),
        "line 7: the run is of piece 3, which is not listed"
    );
    assert_eq!(
        changed("until 3\n", "until 4\n"),
        "line 5: the run does not fit the line of piece 1"
    );
    assert_eq!(
        changed("run desk 1", "run desk 0"),
        "line 7: the run does not fit the line of piece 2"
    );
    assert_eq!(changed("runs 4", "runs 5"), "line 8: the listing has 4 runs, but its total says 5");
    assert_eq!(changed("end 11", "end 12"), "line 8: the end is not the largest finish");
    assert_eq!(changed("worst -1", "worst 1"), "line 8: the worst is not the greatest lateness");
    let twice = P1_LISTING.repeat(2);
    assert_eq!(told(&twice), "line 9: nothing should follow the last line of a listing");
    assert_eq!(told("refused 2 at 0\nrefused 2 at 0\n"), "line 1: a refused listing has one line");
    assert_eq!(told("refused 2\n"), "line 1: the line has no at");
}
