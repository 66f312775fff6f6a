//! Full files of several shapes and a small one, always the same ones. Each full one makes another part of a
//! planner work hardest: following links, looking over many open pieces, interrupting, cutting blocks,
//! putting entries in order, searching rings, reading.

/// A file with its name in the table, and a word on it.
pub struct Shape {
    pub name: &'static str,
    pub what: &'static str,
    pub file: Vec<u8>,
    /// The desk to ask sheets and runs of; a refused file has none.
    pub desk: Option<u8>,
}

pub fn all() -> Vec<Shape> {
    let shape = |name, what, file, desk| Shape { name, what, file, desk };
    vec![
        shape("small", "3 pieces and a link, the first sheet of the rules page", small(), Some(0)),
        shape(
            "chain",
            "256 pieces in one chain over 32 desks, links in its order",
            chain(),
            Some(7),
        ),
        shape(
            "turned",
            "the same chain, its links in the file from last to first",
            turned(),
            Some(7),
        ),
        shape("wide", "256 pieces on 8 desks, no links", wide(), Some(3)),
        shape("desks", "256 pieces on 32 desks, 256 links", mixed(32, 256), Some(31)),
        shape("links", "256 pieces on 4 desks, 1,024 links", mixed(4, 1024), Some(2)),
        shape("nested", "256 pieces on one desk, 511 runs", nested(), Some(9)),
        shape(
            "falling",
            "256 pieces on one desk, the higher its number the sooner a piece is ready",
            falling(),
            Some(9),
        ),
        shape("shuffled", "the same pieces in a random order", shuffled(), Some(9)),
        shape("ring", "254 pieces behind a ring of two; refused 11 at 254", ring(), None),
        shape(
            "refused",
            "256 pieces, 1,024 links, the last with a fault; refused 8 at 1279",
            refused(),
            None,
        ),
    ]
}

fn small() -> Vec<u8> {
    [piece(0, 4, 0, 20), piece(0, 2, 1, 5), piece(1, 3, 0, 12), link(0, 2, 2)].concat()
}

fn chain() -> Vec<u8> {
    let pieces = (0..256u16).flat_map(|number| piece(number as u8 % 32, 40, 0, 10_000));
    let links = (1..256).flat_map(|after| link(after - 1, after, 4));
    pieces.chain(links).collect()
}

/// The order of links in a file changes no plan, but a planner may visit them more often.
fn turned() -> Vec<u8> {
    let pieces = (0..256u16).flat_map(|number| piece(number as u8 % 32, 40, 0, 10_000));
    let links = (1..256).rev().flat_map(|after| link(after - 1, after, 4));
    pieces.chain(links).collect()
}

fn wide() -> Vec<u8> {
    let mut chance = Chance(1);
    let mut any = |below| chance.below(below);
    (0..256).flat_map(|_| piece(any(8) as u8, 1 + any(40) as u16, any(400), any(2_000))).collect()
}

/// Pieces on some desks and links along a random order of them.
fn mixed(desks: u32, links: usize) -> Vec<u8> {
    let mut chance = Chance(u64::from(desks));
    let mut file = Vec::new();
    for _ in 0..256 {
        let (desk, duration) = (chance.below(desks) as u8, 1 + chance.below(40) as u16);
        file.extend(piece(desk, duration, chance.below(400), chance.below(4_000)));
    }
    let order = shuffle(256, &mut chance);
    for _ in 0..links {
        let second = 1 + chance.below(255);
        let first = chance.below(second);
        let handover = chance.below(16) as u16;
        file.extend(link(order[first as usize], order[second as usize], handover));
    }
    file
}

/// Each piece is interrupted by the next and taken up again: as many runs as there can be.
fn nested() -> Vec<u8> {
    (0..256).flat_map(|number| piece(9, 2, number, 40_000 - number)).collect()
}

/// The pieces of a desk stand in the file against their order. They make a block each, so that putting them in
/// order weighs as much as it can.
fn falling() -> Vec<u8> {
    (0..256).rev().flat_map(one_after_the_other).collect()
}

fn shuffled() -> Vec<u8> {
    shuffle(256, &mut Chance(9)).into_iter().flat_map(one_after_the_other).collect()
}

fn one_after_the_other(turn: u16) -> Vec<u8> {
    piece(9, 2, 2 * u32::from(turn), 1_000)
}

/// The numbers below a limit in a random order.
fn shuffle(limit: u16, chance: &mut Chance) -> Vec<u16> {
    let mut order: Vec<u16> = (0..limit).collect();
    for last in (1..order.len()).rev() {
        order.swap(last, chance.below(last as u32 + 1) as usize);
    }
    order
}

/// The lowest piece on the ring is found last.
fn ring() -> Vec<u8> {
    let pieces = (0..256u16).flat_map(|number| piece(number as u8 % 32, 40, 0, 10_000));
    let behind = (1..254).flat_map(|after| link(after - 1, after, 4));
    let around = [(254, 255), (255, 254), (255, 0)];
    let around = around.into_iter().flat_map(|(before, after)| link(before, after, 4));
    pieces.chain(behind).chain(around).collect()
}

fn refused() -> Vec<u8> {
    let mut file = mixed(4, 1024);
    if let Some(last) = file.last_mut() {
        *last = 1;
    }
    file
}

fn piece(desk: u8, duration: u16, release: u32, due: u32) -> Vec<u8> {
    let front = [&[1, desk][..], &duration.to_le_bytes()].concat();
    [&front[..], &release.to_le_bytes(), &due.to_le_bytes(), &[0; 4]].concat()
}

fn link(before: u16, after: u16, handover: u16) -> Vec<u8> {
    let fields = [before, after, handover].map(u16::to_le_bytes).concat();
    [&[2, 0][..], &fields, &[0; 8]].concat()
}

/// A small source of numbers (an additive step and a multiplicative mix), so that nothing else is needed.
struct Chance(u64);

impl Chance {
    fn below(&mut self, limit: u32) -> u32 {
        self.0 = self.0.wrapping_add(0x9E37_79B9_7F4A_7C15);
        let mixed = (self.0 ^ (self.0 >> 30)).wrapping_mul(0xBF58_476D_1CE4_E5B9);
        ((mixed >> 33) % u64::from(limit)) as u32
    }
}
