//! Sound job files of many shapes, each aimed at one thing that a planner may get wrong. No shape
//! has a ring, and hardly any relies on the numbering of its pieces.

use super::chance::Chance;
use super::draft::Draft;
use super::mixed::{add_links, mixed, Bounds, LARGEST, SMALL};

/// A sound file of a random shape.
pub fn draft(chance: &mut Chance) -> Draft {
    // The only slow shapes, some hundred thousand slots long.
    match chance.below(3000) {
        0 => return full(chance, LARGEST),
        1 => return longest(chance),
        _ => {}
    }
    match chance.below(20) {
        0 => few(chance, 1),
        1..=3 => few(chance, 8),
        4..=5 => few(chance, 24),
        6..=7 => chain(chance),
        8 => wide(chance),
        9 => many_desks(chance),
        10..=11 => ties(chance),
        12 => hopeless(chance),
        13 => nested(chance),
        14 => touching(chance),
        15..=16 => doubled(chance),
        17 => edges(chance),
        18 => far(chance),
        _ if chance.one_in(4) => full(chance, Bounds { desks: 32, ..SMALL }),
        _ => one_desk(chance),
    }
}

/// Pieces and links without a plan behind them; the shape to find what nobody thought of.
fn few(chance: &mut Chance, most: u64) -> Draft {
    let pieces = chance.below(most + 1) as usize;
    let links = chance.below(2 * pieces as u64 + 1) as usize;
    let desks = chance.between(1, 4);
    mixed(chance, pieces, links, Bounds { desks, ..SMALL })
}

/// Every piece waits for one other, over desks or on one.
fn chain(chance: &mut Chance) -> Draft {
    let pieces = chance.between(2, 30) as usize;
    let mut draft = mixed(chance, pieces, 0, SMALL);
    let order = chance.shuffled(pieces);
    for pair in order.windows(2) {
        draft.link(pair[0], pair[1], chance.between(0, SMALL.handover));
    }
    draft
}

fn wide(chance: &mut Chance) -> Draft {
    let (pieces, desks) = (chance.between(10, 60) as usize, chance.between(1, 32));
    mixed(chance, pieces, 0, Bounds { desks, due: 60, ..SMALL })
}

fn many_desks(chance: &mut Chance) -> Draft {
    let (pieces, links) = (chance.between(20, 80) as usize, chance.between(20, 120) as usize);
    mixed(chance, pieces, links, Bounds { desks: 32, ..SMALL })
}

/// Few different dues, so that equal latest moments are common and numbers decide.
fn ties(chance: &mut Chance) -> Draft {
    let (pieces, links) = (chance.between(2, 10) as usize, chance.below(6) as usize);
    mixed(chance, pieces, links, Bounds { desks: 2, due: 1, duration: 4, ..SMALL })
}

/// Dues that nothing can keep: latest moments far below zero.
fn hopeless(chance: &mut Chance) -> Draft {
    let (pieces, links) = (chance.between(3, 15) as usize, chance.between(5, 30) as usize);
    mixed(chance, pieces, links, Bounds { due: 3, duration: 40, ..SMALL })
}

/// One desk where each release brings a more urgent piece: 2m - 1 runs if every piece is still
/// under way when the next comes.
fn nested(chance: &mut Chance) -> Draft {
    let mut draft = Draft::default();
    let pieces = chance.between(2, 20);
    for place in chance.shuffled(pieces as usize) {
        let release = 2 * place as u64;
        draft.piece(3, chance.between(2, 6), release, 400 - 10 * place as u64);
    }
    draft
}

/// Releases just at, one before or one after the end of the work so far.
fn touching(chance: &mut Chance) -> Draft {
    let mut draft = Draft::default();
    let mut end = chance.between(1, 4);
    for _ in 0..chance.between(2, 9) {
        let (duration, release) = (chance.between(1, 5), end + chance.below(3) - 1);
        draft.piece(0, duration, release, chance.below(20));
        end += duration;
    }
    draft
}

/// Links that stand twice, with the same and with another handover.
fn doubled(chance: &mut Chance) -> Draft {
    let mut draft = few(chance, 8);
    for record in draft.links.clone() {
        if chance.one_in(2) {
            draft.links.push(record);
        }
        if chance.one_in(2) {
            let number = |at: usize| usize::from(u16::from_le_bytes([record[at], record[at + 1]]));
            draft.link(number(2), number(4), chance.between(0, 9));
        }
    }
    draft
}

/// Each value at one of its bounds or next to it.
fn edges(chance: &mut Chance) -> Draft {
    let mut draft = Draft::default();
    let pieces = chance.between(1, 5) as usize;
    for _ in 0..pieces {
        draft.piece(
            *chance.pick(&[0, 1, 30, 31]),
            *chance.pick(&[1, 2, 255, 256, 257, 959, 960]),
            *chance.pick(&[0, 0, 0, 1, 255, 256, 257, 39_999, 40_000]),
            *chance.pick(&[0, 1, 255, 256, 39_999, 40_000]),
        );
    }
    let links = chance.below(6) as usize;
    add_links(chance, &mut draft, links, |chance| *chance.pick(&[0, 1, 255, 256, 479, 480]));
    draft
}

/// Few pieces with values from all over their ranges.
fn far(chance: &mut Chance) -> Draft {
    let (pieces, links) = (chance.between(1, 6) as usize, chance.below(8) as usize);
    mixed(chance, pieces, links, Bounds { desks: 3, ..LARGEST })
}

fn full(chance: &mut Chance, bounds: Bounds) -> Draft {
    let desks = *chance.pick(&[1, 2, 8, 32]);
    mixed(chance, 256, 1024, Bounds { desks, ..bounds })
}

/// A chain of all pieces with long durations and handovers, near the last moment there can be.
fn longest(chance: &mut Chance) -> Draft {
    let mut draft = Draft::default();
    for number in 0..256 {
        draft.piece(number % 32, chance.between(900, 960), chance.between(0, 40_000), 0);
    }
    for after in 1..256 {
        draft.link(after - 1, after, chance.between(400, 480));
    }
    draft
}

/// Many pieces and links on one desk, for long blocks that are cut many times.
fn one_desk(chance: &mut Chance) -> Draft {
    let (pieces, links) = (chance.between(5, 60) as usize, chance.below(40) as usize);
    mixed(chance, pieces, links, Bounds { desks: 1, release: 80, due: 200, ..SMALL })
}
