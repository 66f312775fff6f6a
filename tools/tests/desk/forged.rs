//! Listings that no planner printed: numbers beyond every plan, and runs that overlap or miss slots. Each is the first
//! sheet with one thing changed; it gives a message and never a picture.

use crate::P1_LISTING;
use desktools::listing::read;

/// What is told of the first sheet with this changed.
fn changed(from: &str, to: &str) -> String {
    let text = P1_LISTING.replacen(from, to, 1);
    assert_ne!(text, P1_LISTING);
    read(&text).unwrap_err().to_string()
}

#[test]
fn numbers_beyond_every_plan() {
    let most = "9223372036854775807";
    for word in [most, "-9223372036854775808", "4294967296", "-4294967296", &"9".repeat(40)] {
        let told = format!("'{word}' is beyond every plan");
        let latest = changed("latest 7", &format!("latest {word}"));
        assert_eq!(latest, format!("line 1: latest {told}"));
        let late = changed("late -2", &format!("late {word}"));
        assert_eq!(late, format!("line 2: late {told}"));
        let finish = changed("finish 11", &format!("finish {word}"));
        assert_eq!(finish, format!("line 3: finish {told}"));
        let from = changed("from 8", &format!("from {word}"));
        assert_eq!(from, format!("line 7: from {told}"));
        let end = changed("end 11", &format!("end {word}"));
        assert_eq!(end, format!("line 8: end {told}"));
    }
    let refused = read(&format!("refused {most} at 0\n")).unwrap_err().to_string();
    assert_eq!(refused, format!("line 1: refused '{most}' is beyond every plan"));
    assert_eq!(changed("start 0", "start +0"), "line 1: start '+0' is not a whole number");
    assert_eq!(changed("start 0", "start --0"), "line 1: start '--0' is not a whole number");
}

/// The greatest numbers that are read; a chart and a picture are drawn of them.
#[test]
fn the_furthest_plan_is_drawn() {
    let text = "\
piece 0 desk 31 start 4294967294 finish 4294967295 latest 0 late 4294967295
run desk 31 piece 0 from 4294967294 until 4294967295
total pieces 1 runs 1 end 4294967295 worst 4294967295
";
    let plan = crate::planned(text);
    for width in [i64::MIN, 0, 40, 1000, i64::MAX] {
        let drawing = desktools::chart::chart(&plan, width);
        // The one slot worked is in the last column.
        let row = drawing.lines().find(|line| line.starts_with("desk 31")).unwrap();
        assert_eq!(row.trim_end_matches('0').len() + 1, row.len());
        assert!(row[8..row.len() - 1].bytes().all(|letter| letter == b'.'));
    }
    assert!(desktools::svg::svg(&plan).ends_with("</svg>\n"));
}

#[test]
fn desks_and_pieces_that_there_cannot_be() {
    assert_eq!(changed("piece 2 desk 1", "piece 2 desk 32"), "line 3: desk 32 is above 31");
    let line = |n: usize| format!("piece {n} desk 0 start 0 finish 1 latest 1 late 0\n");
    let most: String = (0..257).map(line).collect();
    let told = read(&most).unwrap_err().to_string();
    assert_eq!(told, "line 257: at most 256 pieces stand before the first run");
    let late_piece = "piece 3 desk 2 start 0 finish 1 latest 1 late 0\ntotal";
    let told = changed("total", late_piece);
    assert_eq!(told, "line 8: at most 256 pieces stand before the first run");
}

#[test]
fn runs_that_overlap() {
    let told = "line 6: the run begins before the one above it ends, at 3";
    assert_eq!(changed("piece 0 from 3 until 6", "piece 0 from 2 until 6"), told);
    assert_eq!(changed("piece 0 from 3 until 6", "piece 0 from 0 until 6"), told);
    let (run, other) =
        ("run desk 1 piece 2 from 8 until 11\n", "run desk 0 piece 0 from 0 until 1\n");
    let turned = P1_LISTING.replacen(run, "", 1).replacen(other, &format!("{run}{other}"), 1);
    let told = read(&turned).unwrap_err().to_string();
    assert_eq!(told, "line 5: runs go by desk, and desk 1 stands above it");
}

#[test]
fn runs_that_miss_slots() {
    let told = |line: usize, piece: usize| {
        format!("line {line}: the runs of piece {piece} do not go from its start to its finish")
    };
    assert_eq!(changed("from 8 until 11", "from 9 until 11"), told(3, 2));
    assert_eq!(changed("from 8 until 11", "from 8 until 10"), told(3, 2));
    assert_eq!(changed("from 3 until 6", "from 3 until 5"), told(1, 0));
    let without = changed("run desk 0 piece 1 from 1 until 3\n", "");
    assert_eq!(without, told(2, 1));
}
