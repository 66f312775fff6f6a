//! Pieces and links drawn at random within bounds, the stuff that most shapes are made of. Links
//! run along a random order of the pieces, so that no ring comes about.

use super::chance::Chance;
use super::draft::Draft;

/// The greatest values a shape draws; smallest are 0, and 1 for durations.
#[derive(Clone, Copy)]
pub struct Bounds {
    pub desks: u64,
    pub duration: u64,
    pub release: u64,
    pub due: u64,
    pub handover: u64,
}

pub const SMALL: Bounds = Bounds { desks: 3, duration: 6, release: 12, due: 30, handover: 5 };
pub const LARGEST: Bounds =
    Bounds { desks: 32, duration: 960, release: 40_000, due: 40_000, handover: 480 };

/// Pieces drawn within bounds, on desks next to each other, and links among them.
pub fn mixed(chance: &mut Chance, pieces: usize, links: usize, bounds: Bounds) -> Draft {
    let mut draft = Draft::default();
    let first_desk = if chance.one_in(2) { chance.between(0, 32 - bounds.desks) } else { 0 };
    for _ in 0..pieces {
        draft.piece(
            first_desk + chance.below(bounds.desks),
            chance.between(1, bounds.duration),
            chance.between(0, bounds.release),
            chance.between(0, bounds.due),
        );
    }
    add_links(chance, &mut draft, links, |chance| chance.between(0, bounds.handover));
    draft
}

/// Adds links along one random order of the pieces: no ring, and no order of numbers either.
pub fn add_links(
    chance: &mut Chance,
    draft: &mut Draft,
    links: usize,
    handover: impl Fn(&mut Chance) -> u64,
) {
    let pieces = draft.pieces.len();
    if pieces < 2 {
        return;
    }
    let order = chance.shuffled(pieces);
    for _ in 0..links {
        let second = chance.between(1, pieces as u64 - 1);
        let first = chance.below(second);
        draft.link(order[first as usize], order[second as usize], handover(chance));
    }
}
