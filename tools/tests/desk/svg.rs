//! Pictures for the browser. On the first sheet a slot is 880 / 11 = 80 wide, so that places can be
//! worked out by hand.

use crate::well_formed::elements;
use crate::{planned, P1_LISTING};
use desktools::svg::{colour, svg};
use std::collections::BTreeSet;

const LATE: &str = "\
piece 0 desk 0 start 0 finish 3 latest -3 late 6
piece 1 desk 7 start 3 finish 8 latest 9 late -1
run desk 0 piece 0 from 0 until 3
run desk 7 piece 1 from 3 until 8
total pieces 2 runs 2 end 8 worst 6
";

#[test]
fn the_first_sheet_has_its_title_and_its_boxes() {
    let picture = svg(&planned(P1_LISTING));
    let title = "Plan of 3 pieces on 2 desks, finished at slot 11 (2 h 45 min).";
    assert!(picture.contains(&format!("<title>{title}</title>")));
    assert!(picture.contains(&format!("font-size=\"18\">{title}</text>")));
    assert!(picture.contains(">No piece is late; the tightest is 1 slot (15 min) early.</text>"));
    // Desk 0 has its row at 100 and its boxes from 104, desk 1 a row of 34 further down.
    for (left, top, width, told) in [
        ("100.00", 104, "80.00", "piece 0: slots 0 to 1 (15 min), 1 slot early"),
        ("180.00", 104, "160.00", "piece 1: slots 1 to 3 (30 min), 2 slots early"),
        ("340.00", 104, "240.00", "piece 0: slots 3 to 6 (45 min), 1 slot early"),
        ("740.00", 138, "240.00", "piece 2: slots 8 to 11 (45 min), 1 slot early"),
    ] {
        let start = format!(
            "<g><title>{told}</title><rect x=\"{left}\" y=\"{top}\" width=\"{width}\" height=\"24\" "
        );
        assert!(picture.contains(&start), "{start}");
    }
    assert_eq!(picture.matches("<g>").count(), 4);
    assert!(picture.contains("<text x=\"20.00\" y=\"120\">desk 0</text>"));
    assert!(picture.contains("<text x=\"20.00\" y=\"154\">desk 1</text>"));
    assert!(picture.contains(">piece 2: desk 1, 8 to 11, latest 12, 1 slot early</text>"));
}

#[test]
fn the_axis_shows_slots_and_hours() {
    let picture = svg(&planned(P1_LISTING));
    // Every slot is marked: 0 to 11 are twelve marks.
    assert_eq!(picture.matches("<line ").count(), 12);
    assert!(picture.contains("<text x=\"420.00\" y=\"76\" text-anchor=\"middle\">4</text>"));
    assert!(picture.contains("<text x=\"420.00\" y=\"91\" text-anchor=\"middle\">1h</text>"));
    assert!(picture.contains("<line x1=\"420.00\" y1=\"95\" x2=\"420.00\" y2=\"168\" "));
    assert!(picture.contains("<text x=\"180.00\" y=\"91\" text-anchor=\"middle\">0.25h</text>"));
}

#[test]
fn late_pieces_are_marked() {
    let picture = svg(&planned(LATE));
    assert!(picture.contains(">1 of 2 pieces is late, the worst by 6 slots (1 h 30 min).</text>"));
    assert_eq!(picture.matches("stroke=\"#c00000\" stroke-width=\"2\"").count(), 1);
    assert!(picture.contains(">0!</text>") && picture.contains(">1</text>"));
    let legend = " fill=\"#c00000\" font-weight=\"bold\">\
                  piece 0: desk 0, 0 to 3, latest -3, LATE by 6 slots<";
    assert!(picture.contains(legend));
    assert_eq!(picture.matches("bold").count(), 1);
    assert!(!svg(&planned(P1_LISTING)).contains("#c00000"));
}

#[test]
fn pictures_are_well_formed() {
    for listing in [P1_LISTING, LATE, "total pieces 0 runs 0 end 0 worst 0\n"] {
        let picture = svg(&planned(listing));
        let found = elements(&picture);
        let (name, attributes) = &found[0];
        assert_eq!(name, "svg");
        let root = ("xmlns".to_string(), "http://www.w3.org/2000/svg".to_string());
        assert!(attributes.contains(&root));
        assert_eq!(found[1].0, "title");
    }
}

#[test]
fn no_pieces() {
    let picture = svg(&planned("total pieces 0 runs 0 end 0 worst 0\n"));
    assert!(picture.contains("<title>The plan has no pieces.</title>"));
    assert!(picture.contains(">The plan has no pieces.</text>"));
}

#[test]
fn thin_boxes_are_still_seen_and_have_no_number() {
    let text = "\
piece 0 desk 0 start 0 finish 1 latest 1 late 0
piece 1 desk 0 start 1 finish 400000 latest 400000 late 0
run desk 0 piece 0 from 0 until 1
run desk 0 piece 1 from 1 until 400000
total pieces 2 runs 2 end 400000 worst 0
";
    let picture = svg(&planned(text));
    assert!(picture.contains("width=\"0.50\" height=\"24\""));
    let numbers = |number: &str| picture.matches(&format!(">{number}</text></g>")).count();
    assert_eq!((numbers("0"), numbers("1")), (0, 1));
}

#[test]
fn every_piece_has_its_own_colour() {
    let colours: BTreeSet<String> = (0..256).map(colour).collect();
    assert_eq!(colours.len(), 256);
    // Hues 0, 137 and 274: red, green with 93 * 17 / 60 = 26 of blue, blue with 93 * 34 / 60 = 52
    // of red, each on a ground of 137.
    assert_eq!([0, 1, 2].map(colour), ["#e68989", "#89e6a3", "#bd89e6"]);
    let picture = svg(&planned(P1_LISTING));
    // Piece 0 has two boxes and a place in the legend.
    assert_eq!(picture.matches("#e68989").count(), 3);
}
