//! The tests of the desk tools. What is expected was worked out by hand; the first sheet of the
//! planner's rules serves as the example throughout.

mod arguments;
mod chart;
mod forged;
mod judge;
mod listing;
mod make;
mod program;
mod quote;
mod show;
mod svg;
mod terminal;
mod well_formed;
mod wording;

pub const P1_TEXT: &str = include_str!("../p1.txt");
pub const P1_LISTING: &str = include_str!("../p1.listing");

/// The bytes of the first sheet as the rules give them.
pub const P1_BYTES: [u8; 64] = [
    0x01, 0x00, 0x04, 0x00, 0x00, 0x00, 0x00, 0x00, 0x14, 0x00, 0x00, 0x00, 0x00, 0x00, 0x00, 0x00,
    0x01, 0x00, 0x02, 0x00, 0x01, 0x00, 0x00, 0x00, 0x05, 0x00, 0x00, 0x00, 0x00, 0x00, 0x00, 0x00,
    0x01, 0x01, 0x03, 0x00, 0x00, 0x00, 0x00, 0x00, 0x0C, 0x00, 0x00, 0x00, 0x00, 0x00, 0x00, 0x00,
    0x02, 0x00, 0x00, 0x00, 0x02, 0x00, 0x02, 0x00, 0x00, 0x00, 0x00, 0x00, 0x00, 0x00, 0x00, 0x00,
];

/// Where the ruler of a chart ends.
pub fn ruler(chart: &str) -> usize {
    chart.lines().find(|line| line.trim_start().starts_with("+-")).unwrap().len()
}

/// The plan of a listing that is none of a refused file.
pub fn planned(text: &str) -> desktools::plan::Plan {
    match desktools::listing::read(text) {
        Ok(desktools::listing::Listing::Planned(plan)) => plan,
        other => panic!("{other:?}"),
    }
}
