//! A plan as a listing tells it: what the charts draw.

use std::collections::BTreeSet;

#[derive(Clone, Copy, Debug, PartialEq, Eq)]
pub struct Piece {
    pub desk: i64,
    pub start: i64,
    pub finish: i64,
    pub latest: i64,
    pub late: i64,
}

#[derive(Clone, Copy, Debug, PartialEq, Eq)]
pub struct Run {
    pub desk: i64,
    pub piece: usize,
    pub from: i64,
    pub until: i64,
}

/// The pieces by number and the runs as listed.
#[derive(Clone, Debug, Default, PartialEq, Eq)]
pub struct Plan {
    pub pieces: Vec<Piece>,
    pub runs: Vec<Run>,
    pub end: i64,
    pub worst: i64,
}

impl Plan {
    /// The desks that have pieces, in order.
    pub fn desks(&self) -> Vec<i64> {
        let desks: BTreeSet<i64> = self.pieces.iter().map(|piece| piece.desk).collect();
        desks.into_iter().collect()
    }

    pub fn late(&self, piece: usize) -> bool {
        self.pieces[piece].late > 0
    }
}
